/* test_memory: an allocator that refuses the Nth request, for each N in turn: the call ends with S390X_NO_MEMORY, leaves all as
 * it was and frees all that it took; until so many are granted that it is done. */
#include "s390x.h"
#include "tables.h"

#include <stdlib.h>
#include <string.h>

#define CHECK(what) ((what) ? (void)0 : (fprintf(stderr, "%s:%d: %s\n", __FILE__, __LINE__, #what), exit(1)))

#define JOB                                                                                                     \
    "const 8 0102030405060708\nsymbol u1 8192\nblock\nLoad64 %r2 Constant(0)\nCall %r14 u1 [%r2=%r2] [] [%r0,%v1] 0 SystemV SystemV 1[7:2,*:2] " \
    "false -\nblock\nLoop 4\nAluRRR Add64 %r2 %r2 %r4\nCondBreak 8\nendloop\nRet %r14\nblock\nRet %r14\nend\n"

#define REFUSED "block\nLoop 4\nNop0\nLoop 4\nNop0\nMov64 %r2 %v3\nendloop\nendloop\nend\n"
#define FUNCTIONS                                                                                                  \
    "function u1\nblock\nMov64 %r6 %r14\nCall %r14 u2 [] [] [] 0 SystemV SystemV - false -\nRet %r6\nend\n"               \
    "function u2\n" JOB2 "close\n"
#define JOB2 "const 8 0102030405060708\nsymbol u3 8192\nblock\nLoad64 %r2 Constant(0)\nRet %r14\nend\n"
#define PLAN                                                                                                       \
    "frame SystemV 0 0 0 16 0 0 - 0\nblock\nMov64 %i0 %r3\nAluRRR Add64 %i1 %i0 %r4\nJump 1\nblock\nRet %r14\nend\nplan\nblock\nstep [%r5]\nmove s0 %r5\n"       \
    "move %r6 s0\nstep [%r2,%r6]\nstep []\nblock\nentry %r6=%i0\nstep []\nclose\n"

typedef struct {
    bool ok;
    void *block;
} tried;

/* How many requests are granted yet, and how many blocks are held. */
static size_t granted, held;
static char nowhere;

tried rattle_alloc(size_t size, size_t align);
tried rattle_realloc(void *block, size_t kept, size_t size, size_t align);
void rattle_dealloc(void *block);

tried rattle_alloc(size_t size, size_t align) {
    if (granted == 0) {
        return (tried){false, &nowhere};
    }
    granted--;
    void *block = malloc(size ? size : align);
    CHECK(block);
    held++;
    return (tried){true, block};
}

tried rattle_realloc(void *block, size_t kept, size_t size, size_t align) {
    (void)kept;
    if (granted == 0) {
        return (tried){false, &nowhere};
    }
    granted--;
    block = realloc(block, size ? size : align);
    CHECK(block);
    return (tried){true, block};
}

void rattle_dealloc(void *block) {
    held--;
    free(block);
}

enum { ROOM = 256, MARK = 0xa5 };

static bool is_marked(const void *in, size_t length) {
    for (size_t i = 0; i < length; i++) {
        if (((const uint8_t *)in)[i] != MARK) {
            return false;
        }
    }
    return true;
}

/* With so many requests granted: whether it was done. */
static bool emit(size_t requests) {
    s390x_sizes room = {ROOM, ROOM, ROOM, ROOM, ROOM, ROOM, ROOM, ROOM, ROOM, ROOM, 0}, sizes = {.code = 77};
    s390x_reason reason = {.line = 1, .cause = 2};
    s390x_buffers out;
    CHECK(make_buffers(&room, &out));
    memset(out.code, MARK, ROOM);
    memset(out.handlers, MARK, ROOM * sizeof *out.handlers);
    granted = requests;
    uint32_t status = s390x_emit((const uint8_t *)JOB, strlen(JOB), &out, &sizes, &reason);
    CHECK(held == 0);
    CHECK(reason.line == 1 && reason.cause == 2);
    if (status == S390X_DONE) {
        CHECK(sizes.handlers == 2 && sizes.relocations == 1);
    } else {
        CHECK(status == S390X_NO_MEMORY && sizes.code == 77);
        CHECK(is_marked(out.code, ROOM) && is_marked(out.handlers, ROOM * sizeof *out.handlers));
    }
    free_buffers(&out);
    return status == S390X_DONE;
}

static bool image(size_t requests) {
    uint8_t out[ROOM];
    size_t count = 77;
    s390x_reason reason = {.line = 1, .cause = 2};
    memset(out, MARK, sizeof out);
    granted = requests;
    uint32_t status = s390x_image((const uint8_t *)JOB, strlen(JOB), 4096, out, sizeof out, &count, &reason);
    CHECK(held == 0);
    CHECK(reason.line == 1 && reason.cause == 2);
    CHECK(status == S390X_DONE || (status == S390X_NO_MEMORY && count == 77 && is_marked(out, sizeof out)));
    return status == S390X_DONE;
}

static bool bundle(size_t requests) {
    uint8_t out[ROOM];
    size_t count = 77;
    s390x_reason reason = {.line = 1, .cause = 2};
    memset(out, MARK, sizeof out);
    granted = requests;
    uint32_t status = s390x_bundle((const uint8_t *)FUNCTIONS, strlen(FUNCTIONS), 4096, out, sizeof out, &count, &reason);
    CHECK(held == 0);
    CHECK(reason.line == 1 && reason.cause == 2);
    CHECK(status == S390X_DONE || (status == S390X_NO_MEMORY && count == 77 && is_marked(out, sizeof out)));
    return status == S390X_DONE;
}

static bool show(size_t requests) {
    uint8_t out[4 * ROOM];
    size_t count = 77;
    s390x_reason reason = {.line = 1, .cause = 2};
    memset(out, MARK, sizeof out);
    granted = requests;
    uint32_t status = s390x_show((const uint8_t *)JOB, strlen(JOB), out, sizeof out, &count, &reason);
    CHECK(held == 0);
    CHECK(reason.line == 1 && reason.cause == 2);
    CHECK(status == S390X_DONE || (status == S390X_NO_MEMORY && count == 77 && is_marked(out, sizeof out)));
    return status == S390X_DONE;
}

/* The place of a refusal takes memory too: nothing is told without it. */
static bool refusal(size_t requests) {
    uint8_t out[ROOM];
    size_t count = 77;
    s390x_reason reason = {.line = 1, .cause = 2};
    memset(out, MARK, sizeof out);
    granted = requests;
    uint32_t status = s390x_image((const uint8_t *)REFUSED, strlen(REFUSED), 4096, out, sizeof out, &count, &reason);
    CHECK(held == 0 && count == 77 && is_marked(out, sizeof out));
    if (status == S390X_REFUSED) {
        CHECK(reason.line == 0 && reason.cause == S390X_BAD_REGISTER && reason.place.depth == 3 && reason.place.path[2] == 1);
    } else {
        CHECK(status == S390X_NO_MEMORY && reason.line == 1 && reason.cause == 2);
    }
    return status == S390X_REFUSED;
}

static bool operands(size_t requests) {
    s390x_operand out[ROOM];
    size_t count = 77;
    s390x_reason reason = {.line = 1, .cause = 2};
    memset(out, MARK, sizeof out);
    granted = requests;
    uint32_t status = s390x_operands((const uint8_t *)JOB, strlen(JOB), out, ROOM, &count, &reason);
    CHECK(held == 0);
    CHECK(reason.line == 1 && reason.cause == 2);
    CHECK(status == S390X_DONE || (status == S390X_NO_MEMORY && count == 77 && is_marked(out, sizeof out)));
    return status == S390X_DONE;
}

static bool check_plan(size_t requests) {
    s390x_plan_reason reason = {.line = 1, .cause = 2};
    granted = requests;
    uint32_t status = s390x_check_plan((const uint8_t *)PLAN, strlen(PLAN), &reason);
    CHECK(held == 0);
    CHECK(reason.line == 1 && reason.cause == 2);
    CHECK(status == S390X_DONE || status == S390X_NO_MEMORY);
    return status == S390X_DONE;
}

/* The first number of requests with which it is done, and none above fails. */
static size_t least(bool (*call)(size_t)) {
    size_t requests = 0;
    while (!call(requests)) {
        requests++;
        CHECK(requests < 100000);
    }
    CHECK(call(requests + 1));
    return requests;
}

int main(void) {
    CHECK(least(emit) > 10);
    CHECK(least(image) > 10);
    CHECK(least(bundle) > 10);
    CHECK(least(show) > 10);
    CHECK(least(refusal) > 10);
    CHECK(least(operands) > 10);
    CHECK(least(check_plan) > 10);
    return 0;
}
