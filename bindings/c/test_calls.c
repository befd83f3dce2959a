/* test_calls: each status, what a call leaves, and eight threads. It prints nothing, and ends with 0, where all is as it has
 * to be. */
#include "s390x.h"
#include "s390x_decode.h"
#include "tables.h"

#include <pthread.h>
#include <stdlib.h>
#include <string.h>

#define CHECK(what) ((what) ? (void)0 : (fprintf(stderr, "%s:%d: %s\n", __FILE__, __LINE__, #what), exit(1)))

#define ADD "block\nMov64 %r2 %r3\nAluRRR Add64 %r2 %r2 %r4\nRet %r14\nend\n"
#define CALL "symbol u1 8192\nblock\nCall %r14 u1 [] [] [] 0 SystemV SystemV - false 7\nTrap user9\nend\n"

/* One of each table, from the cases of the program: a call with a tag's handler and one for all tags. */
#define TRY "block\nCall %r14 u1 [] [] [] 0 SystemV SystemV 1[7:2,*:2] false -\nblock\nRet %r14\nblock\nRet %r14\nend\n"

/* The deepest instruction: in eight loops. */
#define LOOP "Loop 7\n"
#define ENDLOOP "endloop\n"
#define DEEP                                                                                                               \
    "block\nNop0\n" LOOP LOOP LOOP LOOP LOOP LOOP LOOP LOOP "Nop0\nMov64 %r2 %v3\n" ENDLOOP ENDLOOP ENDLOOP ENDLOOP ENDLOOP ENDLOOP \
        ENDLOOP ENDLOOP "end\n"

/* Two functions, the first of which calls the second one. */
#define PAIR                                                                                                              \
    "function u1\nblock\nMov64 %r6 %r14\nCall %r14 u2 [] [] [] 0 SystemV SystemV - false -\nRet %r6\nend\n"                   \
    "function u2\nblock\nRet %r14\nend\nclose\n"

/* A job with virtual registers, and its plan. */
#define PLANNED "block\nMov64 %i0 %r3\nAluRRR Add64 %i1 %i0 %r4\nRet %r14\nend\nplan\nblock\n"
#define PLAN PLANNED "step [%r5]\nstep [%r2,%r5]\nstep []\nclose\n"

enum { ROOM = 64, MARK = 0xa5 };

typedef struct {
    uint8_t code[ROOM];
    uint32_t block_starts[ROOM], constant_starts[ROOM], call_sites[ROOM];
    s390x_relocation relocations[ROOM];
    s390x_trap traps[ROOM];
    s390x_try tries[ROOM];
    s390x_handler handlers[ROOM];
    s390x_patchable_call patchable_calls[ROOM];
    s390x_stack_map stack_maps[ROOM];
} room;

/* Buffers with room for `each` entries, all marked. */
static s390x_buffers marked(room *in, size_t each) {
    memset(in, MARK, sizeof *in);
    return (s390x_buffers){in->code, each, in->block_starts, each, in->constant_starts, each, in->relocations, each, in->traps,
                           each, in->call_sites, each, in->tries, each, in->handlers, each, in->patchable_calls, each,
                           in->stack_maps, each};
}

static bool is_filled(const void *in, size_t length) {
    for (size_t i = 0; i < length; i++) {
        if (((const uint8_t *)in)[i] != MARK) {
            return false;
        }
    }
    return true;
}

static bool is_marked(const room *in) {
    return is_filled(in, sizeof *in);
}

static uint32_t emit(const char *job, s390x_buffers *out, s390x_sizes *sizes, s390x_reason *reason) {
    return s390x_emit((const uint8_t *)job, strlen(job), out, sizes, reason);
}

static uint32_t image(const char *job, uint64_t base, uint8_t *out, size_t length, size_t *count, s390x_reason *reason) {
    return s390x_image((const uint8_t *)job, strlen(job), base, out, length, count, reason);
}

static bool same_place(const s390x_place *a, const s390x_place *b) {
    return a->kind == b->kind && a->block == b->block && a->depth == b->depth && memcmp(a->path, b->path, sizeof a->path) == 0;
}

static uint32_t bundle(const char *functions, uint64_t base, uint8_t *out, size_t length, size_t *count, s390x_reason *reason) {
    return s390x_bundle((const uint8_t *)functions, strlen(functions), base, out, length, count, reason);
}

static uint32_t show(const char *job, uint8_t *out, size_t length, size_t *count, s390x_reason *reason) {
    return s390x_show((const uint8_t *)job, strlen(job), out, length, count, reason);
}

static uint32_t operands(const char *job, s390x_operand *out, size_t length, size_t *count, s390x_reason *reason) {
    return s390x_operands((const uint8_t *)job, strlen(job), out, length, count, reason);
}

static uint32_t check_plan(const char *plan, s390x_plan_reason *reason) {
    return s390x_check_plan((const uint8_t *)plan, strlen(plan), reason);
}

static void tables(void) {
    static room in;
    s390x_buffers out = marked(&in, ROOM);
    s390x_sizes n;
    s390x_reason reason = {.line = 11, .cause = 12};
    CHECK(emit(ADD, &out, &n, &reason) == S390X_DONE);
    CHECK(n.code == 10 && n.alignment == 4 && n.block_starts == 1 && n.relocations == 0 && n.handlers == 0);
    CHECK(memcmp(in.code, "\xb9\x04\x00\x23\xb9\x08\x00\x24\x07\xfe", 10) == 0);
    CHECK(in.code[10] == MARK && in.block_starts[0] == 0);
    CHECK(reason.line == 11 && reason.cause == 12);

    out = marked(&in, ROOM);
    CHECK(emit(CALL, &out, &n, &reason) == S390X_DONE);
    CHECK(n.relocations == 1 && in.relocations[0].offset == 2 && in.relocations[0].kind == 20 && in.relocations[0].symbol == 1 &&
          in.relocations[0].addend == 2);
    CHECK(n.call_sites == 1 && in.call_sites[0] == 6);
    CHECK(n.stack_maps == 1 && in.stack_maps[0].offset == 6 && in.stack_maps[0].map == 7);
    CHECK(n.traps == 1 && in.traps[0].offset == 7 && in.traps[0].code == 9);

    out = marked(&in, ROOM);
    CHECK(emit(TRY, &out, &n, &reason) == S390X_DONE);
    CHECK(n.tries == 1 && in.tries[0].offset == 6 && in.tries[0].frame == 0 && in.tries[0].handler_count == 2 &&
          in.tries[0].first_handler == 0);
    CHECK(n.handlers == 2 && in.handlers[0].has_tag == 1 && in.handlers[0].tag == 7 && in.handlers[0].offset == 8);
    CHECK(in.handlers[1].has_tag == 0 && in.handlers[1].offset == 8);
}

static bool is_refusal(const s390x_reason *reason, uint32_t line, uint32_t cause, const s390x_place *place) {
    return reason->line == line && reason->cause == cause && reason->member == 0 && same_place(&reason->place, place);
}

static void refusals(void) {
    static room in;
    static const struct {
        const char *job;
        uint32_t status, line, cause;
        s390x_place place;
    } cases[] = {
        {"", S390X_SYNTAX, 1, 0, {0}},
        {"block\nMov64 %r2\nend\n", S390X_SYNTAX, 2, 0, {0}},
        {"block\nAluRRR NotAnd64 %r2 %r3 %r4\nend\n", S390X_REFUSED, 0, S390X_MISSING_FACILITY, {S390X_INSTRUCTION, 0, 1, {0}}},
        {"block\nMov64 %r2 %r3\nMov64 %r2 %v3\nend\n", S390X_REFUSED, 0, S390X_BAD_REGISTER, {S390X_INSTRUCTION, 0, 1, {1}}},
        {"block\nblock\nJump 7\nend\n", S390X_REFUSED, 0, S390X_UNBOUND_LABEL, {S390X_INSTRUCTION, 1, 1, {0}}},
        {"block\nLoop 7\nNop0\nLoop 8\nMov64 %r2 %v3\nendloop\nendloop\nend\n", S390X_REFUSED, 0, S390X_BAD_REGISTER,
         {S390X_INSTRUCTION, 0, 3, {0, 1, 0}}},
        {"block\nAllocateArgs 16\nend\n", S390X_REFUSED, 0, S390X_BAD_STACK_STATE, {S390X_BLOCK_END, 0, 0, {0}}},
        {"const 3 00\nblock\nend\n", S390X_REFUSED, 0, S390X_BAD_ALIGNMENT, {S390X_START, 0, 0, {0}}},
        {DEEP, S390X_REFUSED, 0, S390X_BAD_REGISTER, {S390X_INSTRUCTION, 0, 9, {1, 0, 0, 0, 0, 0, 0, 0, 1}}},
    };
    for (size_t i = 0; i < sizeof cases / sizeof *cases; i++) {
        s390x_buffers out = marked(&in, ROOM);
        s390x_sizes n = {.code = 77};
        s390x_reason reason = {0};
        memset(&reason, MARK, sizeof reason);
        CHECK(emit(cases[i].job, &out, &n, &reason) == cases[i].status);
        CHECK(is_refusal(&reason, cases[i].line, cases[i].cause, &cases[i].place));
        CHECK(is_marked(&in) && n.code == 77);
        size_t count = 78;
        memset(&reason, MARK, sizeof reason);
        CHECK(image(cases[i].job, 4096, in.code, ROOM, &count, &reason) == cases[i].status);
        CHECK(is_refusal(&reason, cases[i].line, cases[i].cause, &cases[i].place));
        memset(&reason, MARK, sizeof reason);
        CHECK(show(cases[i].job, in.code, ROOM, &count, &reason) == cases[i].status);
        CHECK(is_refusal(&reason, cases[i].line, cases[i].cause, &cases[i].place));
        CHECK(is_marked(&in) && count == 78);
    }
}

static void long_input(void) {
    static room in;
    size_t length = (size_t)S390X_MOST_BYTES + 1;
    uint8_t *job = malloc(length);
    CHECK(job);
    memset(job, '\n', length);
    s390x_buffers out = marked(&in, ROOM);
    s390x_sizes n;
    s390x_reason reason;
    size_t count;
    CHECK(s390x_emit(job, length, &out, &n, &reason) == S390X_TOO_LONG);
    s390x_operand entry;
    s390x_plan_reason fault;
    CHECK(s390x_image(job, length, 0, in.code, ROOM, &count, &reason) == S390X_TOO_LONG);
    CHECK(s390x_bundle(job, length, 0, in.code, ROOM, &count, &reason) == S390X_TOO_LONG);
    CHECK(s390x_show(job, length, in.code, ROOM, &count, &reason) == S390X_TOO_LONG);
    CHECK(s390x_operands(job, length, &entry, 1, &count, &reason) == S390X_TOO_LONG);
    CHECK(s390x_check_plan(job, length, &fault) == S390X_TOO_LONG);
    CHECK(s390x_emit(job, length - 1, &out, &n, &reason) == S390X_SYNTAX && reason.line == 1);
    CHECK(is_marked(&in));
    free(job);
}

/* Each buffer in turn with one entry less than the table has. */
static void small_buffers(void) {
    static room in;
    s390x_reason reason;
    for (int i = 0; i < 10; i++) {
        s390x_sizes n, told;
        const char *job = i == 2 ? "const 8 00\nblock\nend\n" : i == 8 ? "block\nCall %r14 %r6 [] [] [] 0 SystemV SystemV - true 7\nend\n"
                          : i == 6 || i == 7 ? TRY : CALL;
        s390x_buffers out = marked(&in, ROOM);
        CHECK(emit(job, &out, &n, &reason) == S390X_DONE);
        out = marked(&in, ROOM);
        size_t *rooms[] = {&out.code_room, &out.block_starts_room, &out.constant_starts_room, &out.relocations_room, &out.traps_room,
                           &out.call_sites_room, &out.tries_room, &out.handlers_room, &out.patchable_calls_room, &out.stack_maps_room};
        const size_t wanted[] = {n.code, n.block_starts, n.constant_starts, n.relocations, n.traps, n.call_sites, n.tries, n.handlers,
                                 n.patchable_calls, n.stack_maps};
        CHECK(wanted[i] > 0);
        *rooms[i] = wanted[i] - 1;
        CHECK(emit(job, &out, &told, &reason) == S390X_TOO_SMALL);
        CHECK(is_marked(&in) && told.code == n.code && told.handlers == n.handlers && told.stack_maps == n.stack_maps);
        *rooms[i] = wanted[i];
        CHECK(emit(job, &out, &told, &reason) == S390X_DONE);
    }
}

static void images(void) {
    static room in;
    s390x_reason reason;
    size_t count = 0;
    memset(&in, MARK, sizeof in);
    CHECK(image(ADD, 4096, in.code, 9, &count, &reason) == S390X_TOO_SMALL && count == 10 && is_marked(&in));
    CHECK(image(ADD, 4096, in.code, 10, &count, &reason) == S390X_DONE && count == 10);
    CHECK(memcmp(in.code, "\xb9\x04\x00\x23\xb9\x08\x00\x24\x07\xfe\xa5", 11) == 0);
    CHECK(image(CALL, 4096, in.code, ROOM, &count, &reason) == S390X_DONE);
    CHECK(memcmp(in.code, "\xc0\xe5\x00\x00\x08\x00", 6) == 0);
    count = 5;
    CHECK(image(ADD, 4097, in.code, ROOM, &count, &reason) == S390X_LINK_REFUSED && reason.cause == S390X_MISALIGNED_BASE);
    CHECK(image(TRY, 4096, in.code, ROOM, &count, &reason) == S390X_LINK_REFUSED && reason.cause == S390X_UNDEFINED_SYMBOL);
    CHECK(count == 5 && reason.line == 0);
}

static void bundles(void) {
    static room in;
    s390x_reason reason;
    size_t count = 5;
    memset(&in, MARK, sizeof in);
    /* u1 at 0: b90400 6e, c0e50000 0004 (8 bytes on), 07f6; u2 at 12, two behind its end: 07fe. */
    CHECK(bundle(PAIR, 4096, in.code, 15, &count, &reason) == S390X_TOO_SMALL && count == 18 && is_marked(&in));
    CHECK(bundle(PAIR, 4096, in.code, ROOM, &count, &reason) == S390X_DONE && count == 18);
    CHECK(memcmp(in.code, "\xb9\x04\x00\x6e\xc0\xe5\x00\x00\x00\x06\x07\xf6\x00\x00\x00\x00\x07\xfe\xa5", 19) == 0);

    static const struct {
        const char *functions;
        uint64_t base;
        uint32_t status, line, cause, member;
    } cases[] = {
        {"", 0, S390X_SYNTAX, 1, 0, 0},
        {"function u1\nblock\nend\nclose", 0, S390X_SYNTAX, 4, 0, 0},
        {"function u1\nblock\nMov64 %r2 %v3\nend\nclose\n", 0, S390X_REFUSED, 0, S390X_BAD_REGISTER, 1},
        {"function u7\n" ADD "function u7\n" ADD "close\n", 0, S390X_BUNDLE_REFUSED, 0, S390X_DUPLICATE_NAME, 7},
        {"function u8\nblock\nend\nclose\n", 0, S390X_BUNDLE_REFUSED, 0, S390X_EMPTY_MEMBER, 8},
        {"function u9\n" TRY "close\n", 0, S390X_LINK_REFUSED, 0, S390X_UNDEFINED_SYMBOL, 9},
        {"function u3\n" ADD "close\n", 1, S390X_LINK_REFUSED, 0, S390X_MISALIGNED_BASE, 3},
        {"function u3\n" ADD "function u4\n" ADD "close\n", UINT64_MAX - 11, S390X_BUNDLE_REFUSED, 0, S390X_ADDRESS_TOO_HIGH, 4},
    };
    for (size_t i = 0; i < sizeof cases / sizeof *cases; i++) {
        static const s390x_place no_place;
        memset(&in, MARK, sizeof in);
        memset(&reason, MARK, sizeof reason);
        count = 78;
        CHECK(bundle(cases[i].functions, cases[i].base, in.code, ROOM, &count, &reason) == cases[i].status);
        CHECK(reason.line == cases[i].line && reason.cause == cases[i].cause && reason.member == cases[i].member);
        CHECK(same_place(&reason.place, &no_place) && is_marked(&in) && count == 78);
    }
}

static void texts(void) {
    static room in;
    static const char wanted[] = "block 0\nlgr %r2, %r3\nagr %r2, %r4\nbr %r14\n";
    s390x_reason reason;
    size_t count = 5;
    memset(&in, MARK, sizeof in);
    CHECK(show(ADD, in.code, sizeof wanted - 2, &count, &reason) == S390X_TOO_SMALL && count == sizeof wanted - 1 && is_marked(&in));
    CHECK(show(ADD, in.code, ROOM, &count, &reason) == S390X_DONE && count == sizeof wanted - 1);
    CHECK(memcmp(in.code, wanted, count) == 0 && in.code[count] == MARK);
}

static void reports(void) {
    s390x_operand out[8];
    s390x_reason reason;
    size_t count = 5;
    static const char job[] = "block\nNop0\nblock\nNop0\nAluRR Add64 %i0 %i0 %x1\nLoad64 %r2 RegOffset(%i3,8,a)\nend\n";
    memset(out, MARK, sizeof out);
    CHECK(operands(job, out, 5, &count, &reason) == S390X_TOO_SMALL && count == 6 && is_filled(out, sizeof out));
    CHECK(operands(job, out, 8, &count, &reason) == S390X_DONE && count == 6 && is_filled(&out[6], 2 * sizeof *out));
    const s390x_operand *it = out;
    CHECK(it->block == 1 && it->instruction == 1 && it->kind == S390X_DEF && it->is_late == 1 && it->reg.is_virtual == 1 &&
          it->reg.is_vector == 0 && it->reg.number == 0 && it->constraint.kind == S390X_REUSE && it->constraint.reused == 1);
    it = &out[2];
    CHECK(it->instruction == 1 && it->kind == S390X_USE && it->is_late == 0 && it->reg.is_virtual == 1 && it->reg.is_vector == 1 &&
          it->reg.number == 1 && it->constraint.kind == S390X_ANY_REGISTER && it->constraint.reused == 0);
    it = &out[3];
    CHECK(it->instruction == 2 && it->kind == S390X_FIXED && it->is_late == 0 && it->reg.is_virtual == 0 && it->reg.number == 2 &&
          it->constraint.kind == S390X_NO_CHOICE);

    /* A call: its argument and its result in their registers, and what is lost: %r14 and the two that it names. */
    count = 5;
    CHECK(operands("block\nCall %r14 u1 [%i0=%r2] [%i1=%r2:I64] [%r0,%v1] 0 SystemV SystemV - false -\nend\n", out, 8, &count, &reason) ==
          S390X_DONE);
    CHECK(count == 5 && out[0].constraint.kind == S390X_THIS_REGISTER && out[0].constraint.fixed.number == 2 &&
          out[0].constraint.fixed.is_virtual == 0 && out[1].kind == S390X_DEF);
    CHECK(out[2].kind == S390X_LOST && out[2].reg.number == 0 && out[3].reg.number == 14 && out[4].reg.is_vector == 1 &&
          out[4].reg.number == 1 && out[4].kind == S390X_LOST);

    memset(out, MARK, sizeof out);
    count = 78;
    static const s390x_place place = {S390X_INSTRUCTION, 0, 1, {1}};
    memset(&reason, MARK, sizeof reason);
    CHECK(operands("block\nNop0\nLoop 7\nAluRR Add64 %i0 %i0 %r4\nendloop\nend\n", out, 8, &count, &reason) == S390X_REFUSED);
    CHECK(is_refusal(&reason, 0, S390X_REUSE_IN_LOOP, &place) && count == 78 && is_filled(out, sizeof out));
    CHECK(operands("block\nCall %i9 u1 [] [] [] 0 SystemV SystemV - false -\nend\n", out, 8, &count, &reason) == S390X_REFUSED);
    CHECK(reason.cause == S390X_NOT_REAL);
    CHECK(operands("block\n", out, 8, &count, &reason) == S390X_SYNTAX && reason.line == 2 && reason.cause == 0);
}

static void plans(void) {
    s390x_plan_reason reason;
    static const struct {
        const char *plan;
        uint32_t status, line, fault, block, index, operand, cause;
    } cases[] = {
        {ADD, S390X_SYNTAX, 6, 0, 0, 0, 0, 0},
        {ADD "plan\nclose\n", S390X_PLAN_REFUSED, 0, S390X_BLOCKS, 0, 0, 0, 0},
        {PLANNED "close\n", S390X_PLAN_REFUSED, 0, S390X_ORDER, 0, 0, 0, 0},
        {PLANNED "step []\nclose\n", S390X_PLAN_REFUSED, 0, S390X_COUNT, 0, 0, 0, 0},
        {PLANNED "step [%r5]\nstep [%r2,%r6]\nstep []\nclose\n", S390X_PLAN_REFUSED, 0, S390X_VALUE, 0, 1, 1, 0},
        {PLANNED "step [%r1]\nclose\n", S390X_PLAN_REFUSED, 0, S390X_CONSTRAINT, 0, 0, 0, 0},
    };
    memset(&reason, MARK, sizeof reason);
    CHECK(check_plan(PLAN, &reason) == S390X_DONE && is_filled(&reason, sizeof reason));
    for (size_t i = 0; i < sizeof cases / sizeof *cases; i++) {
        memset(&reason, MARK, sizeof reason);
        CHECK(check_plan(cases[i].plan, &reason) == cases[i].status);
        CHECK(reason.line == cases[i].line && reason.fault == cases[i].fault && reason.block == cases[i].block);
        CHECK(reason.index == cases[i].index && reason.operand == cases[i].operand && reason.cause == cases[i].cause);
    }
}

static void decoding(void) {
    s390x_instruction it;
    CHECK(s390x_decode((const uint8_t *)"\xe3\x20\xf0\xa8\x00\x24", 6, &it));
    CHECK(it.opcode == 0xe324 && it.format == S390X_RXY && it.length == 6 && it.registers[0] == 2 && it.registers[1] == 15 &&
          it.displacement == 168);
    CHECK(!s390x_decode((const uint8_t *)"\x00\x00", 2, &it) && it.opcode == 0xe324);
}

static void *thread(void *mistakes) {
    room *in = malloc(sizeof *in);
    for (int i = 0; in && i < 2000; i++) {
        s390x_buffers out = marked(in, ROOM);
        s390x_sizes n;
        s390x_reason reason;
        bool right = emit(i % 2 ? ADD : TRY, &out, &n, &reason) == S390X_DONE && n.code == 10 &&
                     memcmp(in->code, i % 2 ? "\xb9\x04\x00\x23\xb9\x08\x00\x24\x07\xfe" : "\xc0\xe5\0\0\0\0\x07\xfe\x07\xfe", 10) == 0;
        *(int *)mistakes += !right;
        s390x_plan_reason fault;
        s390x_operand entries[16];
        size_t count;
        right = bundle(PAIR, 4096, in->code, ROOM, &count, &reason) == S390X_DONE && count == 18 && in->code[9] == 6 &&
                show(ADD, in->code, ROOM, &count, &reason) == S390X_DONE && memcmp(in->code, "block 0\nlgr", 11) == 0 &&
                operands(ADD, entries, 16, &count, &reason) == S390X_DONE && count == 5 && entries[4].reg.number == 4 &&
                check_plan(PLAN, &fault) == S390X_DONE;
        *(int *)mistakes += !right;
    }
    *(int *)mistakes += !in;
    free(in);
    return NULL;
}

static void threads(void) {
    pthread_t each[8];
    int mistakes[8] = {0};
    for (int i = 0; i < 8; i++) {
        CHECK(pthread_create(&each[i], NULL, thread, &mistakes[i]) == 0);
    }
    for (int i = 0; i < 8; i++) {
        CHECK(pthread_join(each[i], NULL) == 0 && mistakes[i] == 0);
    }
}

int main(void) {
    tables();
    refusals();
    long_input();
    small_buffers();
    images();
    bundles();
    texts();
    reports();
    plans();
    decoding();
    threads();
    return 0;
}
