/* tables.c: the buffers of one emission, and their lines. */
#include "tables.h"

#include <inttypes.h>
#include <stdlib.h>

static void *entries(size_t count, size_t size) {
    return calloc(count ? count : 1, size);
}

bool make_buffers(const s390x_sizes *sizes, s390x_buffers *out) {
#define MAKE(table) (out->table##_room = sizes->table, out->table = entries(sizes->table, sizeof *out->table))
    MAKE(code);
    MAKE(block_starts);
    MAKE(constant_starts);
    MAKE(relocations);
    MAKE(traps);
    MAKE(call_sites);
    MAKE(tries);
    MAKE(handlers);
    MAKE(patchable_calls);
    MAKE(stack_maps);
#undef MAKE
    return out->code && out->block_starts && out->constant_starts && out->relocations && out->traps && out->call_sites &&
           out->tries && out->handlers && out->patchable_calls && out->stack_maps;
}

void free_buffers(s390x_buffers *buffers) {
    free(buffers->code);
    free(buffers->block_starts);
    free(buffers->constant_starts);
    free(buffers->relocations);
    free(buffers->traps);
    free(buffers->call_sites);
    free(buffers->tries);
    free(buffers->handlers);
    free(buffers->patchable_calls);
    free(buffers->stack_maps);
}

static const char *kind_name(uint32_t kind) {
    switch (kind) {
        case 19: return "PCRel32Dbl";
        case 20: return "PLTRel32Dbl";
        case 22: return "Abs8";
        default: return "?";
    }
}

static void print_trap_code(FILE *to, uint32_t code) {
    static const char *const names[] = {"stk_ovf", "int_ovf", "heap_oob", "int_divz", "bad_toint"};
    if (code >= S390X_STACK_OVERFLOW && code <= S390X_BAD_CONVERSION_TO_INTEGER) {
        fprintf(to, "%s\n", names[code - S390X_STACK_OVERFLOW]);
    } else {
        fprintf(to, "user%" PRIu32 "\n", code);
    }
}

static void print_try(FILE *to, const s390x_try *entry, const s390x_handler *handlers) {
    fprintf(to, "try %" PRIu32 " %" PRIu64 " [", entry->offset, entry->frame);
    for (size_t i = 0; i < entry->handler_count; i++) {
        const s390x_handler *handler = &handlers[entry->first_handler + i];
        if (i > 0) {
            fprintf(to, ",");
        }
        if (handler->has_tag) {
            fprintf(to, "%" PRIu32 ":%" PRIu32, handler->tag, handler->offset);
        } else {
            fprintf(to, "*:%" PRIu32, handler->offset);
        }
    }
    fprintf(to, "]\n");
}

void print_tables(FILE *to, const s390x_buffers *b, const s390x_sizes *n) {
    fprintf(to, "code ");
    for (size_t i = 0; i < n->code; i++) {
        fprintf(to, "%02x", b->code[i]);
    }
    fprintf(to, "%s\nalign %" PRIu32 "\n", n->code ? "" : "-", n->alignment);
    for (size_t i = 0; i < n->block_starts; i++) {
        fprintf(to, "block %zu %" PRIu32 "\n", i, b->block_starts[i]);
    }
    for (size_t i = 0; i < n->constant_starts; i++) {
        fprintf(to, "const %zu %" PRIu32 "\n", i, b->constant_starts[i]);
    }
    for (size_t i = 0; i < n->relocations; i++) {
        const s390x_relocation *it = &b->relocations[i];
        fprintf(to, "reloc %" PRIu32 " %s u%" PRIu32 " %" PRId64 "\n", it->offset, kind_name(it->kind), it->symbol, it->addend);
    }
    for (size_t i = 0; i < n->traps; i++) {
        fprintf(to, "trap %" PRIu32 " ", b->traps[i].offset);
        print_trap_code(to, b->traps[i].code);
    }
    for (size_t i = 0; i < n->call_sites; i++) {
        fprintf(to, "call %" PRIu32 "\n", b->call_sites[i]);
    }
    for (size_t i = 0; i < n->tries; i++) {
        print_try(to, &b->tries[i], b->handlers);
    }
    for (size_t i = 0; i < n->patchable_calls; i++) {
        fprintf(to, "patch %" PRIu32 " %" PRIu32 "\n", b->patchable_calls[i].offset, b->patchable_calls[i].length);
    }
    for (size_t i = 0; i < n->stack_maps; i++) {
        fprintf(to, "map %" PRIu32 " %" PRIu32 "\n", b->stack_maps[i].offset, b->stack_maps[i].map);
    }
}
