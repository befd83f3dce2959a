/* emit_demo: what the calls answer of the text on standard input.
 *
 *     emit_demo               the job's code and tables: the lines of `./s390x emit`
 *     emit_demo BASE          its image there, in hex
 *     emit_demo show          the texts of its instructions
 *     emit_demo operands      what its instructions report, an entry a line: block, instruction, entry
 *     emit_demo bundle BASE   the image there of several functions, in hex
 *     emit_demo plan          whether the job's plan has a fault: nothing where it has none
 *
 * It ends with the call's status, and what refuses goes to standard error. */
#include "s390x.h"
#include "tables.h"

#include <inttypes.h>
#include <stdlib.h>
#include <string.h>

static uint8_t input[S390X_MOST_BYTES + 1];

static void print_place(FILE *to, const s390x_place *place) {
    switch (place->kind) {
        case S390X_START: fprintf(to, " start"); break;
        case S390X_INSTRUCTION:
            fprintf(to, " block %zu inst", place->block);
            for (size_t i = 0; i < place->depth && i < S390X_MOST_NUMBERS; i++) {
                fprintf(to, "%c%zu", i ? '.' : ' ', place->path[i]);
            }
            break;
        case S390X_BLOCK_END: fprintf(to, " block %zu end", place->block); break;
        case S390X_WHOLE: fprintf(to, " length"); break;
        default: break;
    }
}

static int told(uint32_t status, const s390x_reason *reason) {
    if (status == S390X_SYNTAX) {
        fprintf(stderr, "syntax %" PRIu32 "\n", reason->line);
    } else if (status == S390X_REFUSED || status == S390X_LINK_REFUSED || status == S390X_BUNDLE_REFUSED) {
        fprintf(stderr, "cause %" PRIu32 " member %" PRIu32, reason->cause, reason->member);
        print_place(stderr, &reason->place);
        fprintf(stderr, "\n");
    }
    return (int)status;
}

/* First with no room at all, to ask for the sizes. */
static int emit(size_t length) {
    s390x_sizes sizes = {0};
    s390x_buffers buffers;
    s390x_reason reason = {0};
    uint32_t status = S390X_NO_MEMORY;
    if (make_buffers(&sizes, &buffers)) {
        status = s390x_emit(input, length, &buffers, &sizes, &reason);
    }
    free_buffers(&buffers);
    if (status != S390X_TOO_SMALL && status != S390X_DONE) {
        return told(status, &reason);
    }
    status = S390X_NO_MEMORY;
    if (make_buffers(&sizes, &buffers)) {
        status = s390x_emit(input, length, &buffers, &sizes, &reason);
    }
    if (status == S390X_DONE) {
        print_tables(stdout, &buffers, &sizes);
    }
    free_buffers(&buffers);
    return told(status, &reason);
}

/* A call that writes bytes. */
enum bytes_call { IMAGE, BUNDLE, SHOW };

static uint32_t call(enum bytes_call which, size_t length, uint64_t base, uint8_t *out, size_t *count, s390x_reason *reason) {
    size_t room = *count;
    switch (which) {
        case IMAGE: return s390x_image(input, length, base, out, room, count, reason);
        case BUNDLE: return s390x_bundle(input, length, base, out, room, count, reason);
        default: return s390x_show(input, length, out, room, count, reason);
    }
}

static int bytes(enum bytes_call which, size_t length, uint64_t base) {
    s390x_reason reason = {0};
    uint8_t none[1];
    size_t count = 0;
    uint32_t status = call(which, length, base, none, &count, &reason);
    if (status != S390X_TOO_SMALL && status != S390X_DONE) {
        return told(status, &reason);
    }
    uint8_t *out = malloc(count + 1);
    status = out ? call(which, length, base, out, &count, &reason) : (uint32_t)S390X_NO_MEMORY;
    if (status == S390X_DONE && which == SHOW) {
        fwrite(out, 1, count, stdout);
    } else if (status == S390X_DONE) {
        for (size_t i = 0; i < count; i++) {
            printf("%02x", out[i]);
        }
        printf("\n");
    }
    free(out);
    return told(status, &reason);
}

static void print_register(const s390x_register *reg) {
    const char *kind = reg->is_virtual ? (reg->is_vector ? "x" : "i") : (reg->is_vector ? "v" : "r");
    printf("%%%s%" PRIu32, kind, reg->number);
}

/* `use R`, `def R`, `any R`, `use R=P`, `def R=P`, `reuse(K) R`, `fixed R` or `clobber R`. */
static void print_operand(const s390x_operand *it) {
    static const char *const kinds[] = {"use", "def", "fixed", "clobber"};
    printf("%zu %zu ", it->block, it->instruction);
    if (it->constraint.kind == S390X_ANY) {
        printf("any ");
    } else if (it->constraint.kind == S390X_REUSE) {
        printf("reuse(%zu) ", it->constraint.reused);
    } else {
        printf("%s ", kinds[it->kind]);
    }
    print_register(&it->reg);
    if (it->constraint.kind == S390X_THIS_REGISTER) {
        printf("=");
        print_register(&it->constraint.fixed);
    }
    printf("\n");
}

static int operands(size_t length) {
    s390x_reason reason = {0};
    s390x_operand none[1];
    size_t count = 0;
    uint32_t status = s390x_operands(input, length, none, 0, &count, &reason);
    if (status != S390X_TOO_SMALL && status != S390X_DONE) {
        return told(status, &reason);
    }
    s390x_operand *out = calloc(count + 1, sizeof *out);
    status = out ? s390x_operands(input, length, out, count, &count, &reason) : (uint32_t)S390X_NO_MEMORY;
    for (size_t i = 0; status == S390X_DONE && i < count; i++) {
        print_operand(&out[i]);
    }
    free(out);
    return told(status, &reason);
}

static int plan(size_t length) {
    s390x_plan_reason reason = {0};
    uint32_t status = s390x_check_plan(input, length, &reason);
    if (status == S390X_SYNTAX) {
        fprintf(stderr, "syntax %" PRIu32 "\n", reason.line);
    } else if (status == S390X_PLAN_REFUSED) {
        fprintf(stderr, "fault %" PRIu32 " %" PRIu32 " %" PRIu32 " %" PRIu32 " %" PRIu32 "\n", reason.fault, reason.block, reason.index,
                reason.operand, reason.cause);
    }
    return (int)status;
}

int main(int argc, char **argv) {
    size_t length = fread(input, 1, sizeof input, stdin);
    if (argc == 1) {
        return emit(length);
    } else if (argc == 2 && strcmp(argv[1], "show") == 0) {
        return bytes(SHOW, length, 0);
    } else if (argc == 2 && strcmp(argv[1], "operands") == 0) {
        return operands(length);
    } else if (argc == 2 && strcmp(argv[1], "plan") == 0) {
        return plan(length);
    } else if (argc == 3 && strcmp(argv[1], "bundle") == 0) {
        return bytes(BUNDLE, length, strtoull(argv[2], NULL, 10));
    }
    return bytes(IMAGE, length, strtoull(argv[1], NULL, 10));
}
