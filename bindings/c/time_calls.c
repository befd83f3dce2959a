/* time_calls: how long a call takes on small inputs, in nanoseconds: the least of ten rounds. */
#include "s390x.h"

#include <stdio.h>
#include <stdlib.h>
#include <string.h>
#include <time.h>

#define ADD "block\nMov64 %r2 %r3\nAluRRR Add64 %r2 %r2 %r4\nRet %r14\nend\n"
#define REFUSED "block\nMov64 %r2 %r3\nMov64 %r2 %v4\nRet %r14\nend\n"
#define PLAN "block\nMov64 %i0 %r3\nAluRRR Add64 %i1 %i0 %r4\nRet %r14\nend\nplan\nblock\nstep [%r5]\nstep [%r2,%r5]\nstep []\nclose\n"

enum { ROOM = 256, ROUNDS = 10, CALLS = 20000 };

static uint8_t bytes[ROOM];
static uint32_t offsets[3][ROOM];
static s390x_relocation relocations[ROOM];
static s390x_trap traps[ROOM];
static s390x_try tries[ROOM];
static s390x_handler handlers[ROOM];
static s390x_patchable_call patchable_calls[ROOM];
static s390x_stack_map stack_maps[ROOM];
static s390x_operand entries[ROOM];

static uint32_t emit(const char *text) {
    s390x_buffers out = {bytes, ROOM, offsets[0], ROOM, offsets[1], ROOM, relocations, ROOM, traps, ROOM,
                         offsets[2], ROOM, tries, ROOM, handlers, ROOM, patchable_calls, ROOM, stack_maps, ROOM};
    s390x_sizes sizes;
    s390x_reason reason;
    return s390x_emit((const uint8_t *)text, strlen(text), &out, &sizes, &reason);
}

static uint32_t image(const char *text) {
    size_t count;
    s390x_reason reason;
    return s390x_image((const uint8_t *)text, strlen(text), 4096, bytes, ROOM, &count, &reason);
}

static uint32_t bundle(const char *text) {
    size_t count;
    s390x_reason reason;
    return s390x_bundle((const uint8_t *)text, strlen(text), 4096, bytes, ROOM, &count, &reason);
}

static uint32_t show(const char *text) {
    size_t count;
    s390x_reason reason;
    return s390x_show((const uint8_t *)text, strlen(text), bytes, ROOM, &count, &reason);
}

static uint32_t operands(const char *text) {
    size_t count;
    s390x_reason reason;
    return s390x_operands((const uint8_t *)text, strlen(text), entries, ROOM, &count, &reason);
}

static uint32_t check_plan(const char *text) {
    s390x_plan_reason reason;
    return s390x_check_plan((const uint8_t *)text, strlen(text), &reason);
}

static double seconds(void) {
    struct timespec now;
    timespec_get(&now, TIME_UTC);
    return (double)now.tv_sec + (double)now.tv_nsec / 1e9;
}

static void measure(const char *name, uint32_t (*call)(const char *), const char *text, uint32_t wanted) {
    double least = 1e9;
    for (int round = 0; round < ROUNDS; round++) {
        double start = seconds();
        for (int i = 0; i < CALLS; i++) {
            if (call(text) != wanted) {
                fprintf(stderr, "%s ended otherwise\n", name);
                exit(1);
            }
        }
        double took = seconds() - start;
        least = took < least ? took : least;
    }
    printf("%-12s %6.0f\n", name, least / CALLS * 1e9);
}

int main(void) {
    measure("emit", emit, ADD, S390X_DONE);
    measure("refused", emit, REFUSED, S390X_REFUSED);
    measure("image", image, ADD, S390X_DONE);
    measure("bundle", bundle, "function u1\n" ADD "close\n", S390X_DONE);
    measure("show", show, ADD, S390X_DONE);
    measure("operands", operands, ADD, S390X_DONE);
    measure("check_plan", check_plan, PLAN, S390X_DONE);
    return 0;
}
