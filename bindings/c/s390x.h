/* s390x.h: a proved machine layer for s390x, for C. s390x_decode.h has its decoder.
 *
 * The calls of libs390x_c.a, which `./s390x library` makes. Each contract below is proved of the library's call; what C owes isn't
 * checked by anything:
 *
 * - No pointer is null, also where its length is 0.
 * - Buffers and structs don't overlap one another, and none changes while a call runs.
 * - A call finds at least 32 kB of stack.
 * - The three functions of s390x_alloc.c, or your own in their place, come from one allocator, whose blocks are aligned to
 *   each power of two up to 16 that divides their size.
 * - No call is made in a signal handler, or in the forked child of a process with threads.
 *
 * Nothing is kept between calls, so calls from many threads are independent. Nothing that a call answers has to be freed: all
 * output goes into the caller's buffers, and a call frees its own memory before it returns. Numbers are in the machine's own order of bytes.
 */
#ifndef S390X_H
#define S390X_H

#include <stdbool.h>
#include <stddef.h>
#include <stdint.h>

#ifdef __cplusplus
extern "C" {
#endif

/* The greatest number of bytes of an input. */
#define S390X_MOST_BYTES 16777216

/* How a call ends. The numbers are those with which the program ends too, but for 13, which is another status there. */
enum s390x_status {
    S390X_DONE = 0,             /* so, or with S390X_NO_MEMORY, ends each call whose input nothing refuses and whose buffers have room */
    S390X_SYNTAX = 3,           /* the input is no such text; reason.line is its first wrong line */
    S390X_REFUSED = 4,          /* emission refuses a function; reason.cause is one of s390x_cause. s390x_operands: the operands of an
                                   instruction can't be reported; reason.cause is one of s390x_operand_cause */
    S390X_LINK_REFUSED = 5,     /* linking refuses its code; reason.cause is one of s390x_link_cause */
    S390X_TOO_LONG = 8,         /* the input has more than S390X_MOST_BYTES bytes */
    S390X_NO_MEMORY = 9,        /* there was no memory; it may come in place of any other but S390X_TOO_LONG */
    S390X_PLAN_REFUSED = 11,    /* s390x_check_plan: the plan has a fault; reason.fault is one of s390x_plan_fault */
    S390X_BUNDLE_REFUSED = 12,  /* s390x_bundle: a name comes twice, or a function has no place in the image; reason.cause is one of
                                   s390x_bundle_cause */
    S390X_TOO_SMALL = 13        /* a buffer is too small; none is written, and the sizes that are needed are */
};

/* What stands at a place. */
enum s390x_place_kind {
    S390X_NO_PLACE = 0,     /* none is told */
    S390X_START = 1,        /* before the blocks: a stack size of the state, a constant's alignment, the count of blocks and constants */
    S390X_INSTRUCTION = 2,  /* an instruction */
    S390X_BLOCK_END = 3,    /* the end of a block whose arguments are still allocated */
    S390X_WHOLE = 4         /* nothing alone: the whole code is too long */
};

/* How many numbers lead to an instruction at most: loops are nested at most eight deep. */
#define S390X_MOST_NUMBERS 9

/* Where a cause stands. Blocks and instructions are counted from 0. What the kind doesn't speak of is 0. */
typedef struct {
    uint32_t kind;  /* one of s390x_place_kind */
    size_t block;   /* S390X_INSTRUCTION, S390X_BLOCK_END: the block */
    size_t depth;   /* S390X_INSTRUCTION: how many numbers lead to it: one, and one more for each Loop that it stands in */
    /* Those numbers, and zeros behind them: the instruction's number in the block; for a member of a Loop that of the outermost Loop
     * in the block, and then, from the outside in, each member's number in the Loop around it. */
    size_t path[S390X_MOST_NUMBERS];
} s390x_place;

/* Why a call refuses. What the status doesn't speak of is 0. Written with S390X_SYNTAX and the refusals alone. */
typedef struct {
    uint32_t line;      /* S390X_SYNTAX: counted from 1 */
    uint32_t cause;     /* the refusals: the number of the first cause */
    uint32_t member;    /* s390x_bundle, the refusals: the number of the name of the function that has the cause */
    s390x_place place;  /* S390X_REFUSED but from s390x_bundle: where the first cause stands; nothing before it has one */
} s390x_reason;

/* The causes by which emission refuses a function. The first one is told. */
enum s390x_cause {
    S390X_MISSING_FACILITY = 1,
    S390X_BAD_OPERATOR = 2,
    S390X_BAD_REGISTER = 3,
    S390X_SCRATCH_CONFLICT = 4,
    S390X_OFFSET_OUT_OF_RANGE = 5,
    S390X_BREAK_OUTSIDE_LOOP = 6,
    S390X_BAD_STACK_STATE = 7,
    S390X_UNBOUND_LABEL = 8,
    S390X_BAD_ALIGNMENT = 9,
    S390X_LABEL_OUT_OF_RANGE = 10
};

/* The causes by which linking refuses a code. The first one is told. */
enum s390x_link_cause {
    S390X_MISALIGNED_BASE = 1,
    S390X_IMAGE_TOO_HIGH = 2,
    S390X_UNDEFINED_SYMBOL = 3,
    S390X_ADDRESS_OVERFLOW = 4,
    S390X_ODD_SYMBOL = 5,
    S390X_TOO_FAR = 6
};

/* The causes by which functions make no image, beside those of emission and linking. The first one is told. */
enum s390x_bundle_cause {
    S390X_DUPLICATE_NAME = 1,    /* a function has an earlier one's name, or a symbol line names it */
    S390X_EMPTY_MEMBER = 2,      /* its code and constants have no bytes */
    S390X_MEMBER_TOO_LONG = 3,   /* its end would reach 2^31 */
    S390X_ADDRESS_TOO_HIGH = 4   /* the base plus its start is 2^64 or above */
};

/* The causes by which the operands of an instruction can't be reported. */
enum s390x_operand_cause {
    S390X_REUSE_IN_LOOP = 1,  /* an output that has to be an input stands in a Loop */
    S390X_NOT_REAL = 2        /* a register that has to be real is virtual */
};

/* A field that is to be filled when the code is linked. */
typedef struct {
    uint32_t offset;  /* where the field begins, in bytes from the code's beginning, as each offset below */
    uint32_t kind;    /* the ELF number: R_390_PC32DBL 19, R_390_PLT32DBL 20, R_390_64 22 */
    uint32_t symbol;  /* the number of the symbol's name */
    int64_t addend;   /* in bytes */
} s390x_relocation;

/* A trap. Its offset goes by what stops there, a machine instruction at P of N bytes (2 where its first byte is below 0x40, 4 where it is
 * below 0xc0, else 6):
 *
 * - An access of memory, behind the instructions that make its operand's address: P. A load that begins the code: 0; behind one of 6 bytes: 6.
 * - Any other, a division, a compare and trap, or bytes that are no instruction: P + N - 1, its last byte. A division of 4 bytes at 0: 3;
 *   a compare and trap of 6 bytes at 8: 13; a `Trap` at 0, which is two zero bytes: 1; a `TrapIf` at 0, whose branch leads to its own
 *   bytes 2 and 3, which are zeros: 3. */
typedef struct {
    uint32_t offset;
    uint32_t code;    /* 1 to 250: a user's; or one of s390x_trap_code */
} s390x_trap;

enum s390x_trap_code {
    S390X_STACK_OVERFLOW = 251,
    S390X_INTEGER_OVERFLOW = 252,
    S390X_HEAP_OUT_OF_BOUNDS = 253,
    S390X_INTEGER_DIVISION_BY_ZERO = 254,
    S390X_BAD_CONVERSION_TO_INTEGER = 255
};

/* A call with a try. */
typedef struct {
    uint32_t offset;       /* where it returns to */
    size_t handler_count;  /* how many handlers it has */
    size_t first_handler;  /* the place of the first one in the table of handlers */
    uint64_t frame;        /* from the stack pointer behind the call up to where the caller's frame begins, in bytes: the sum of outgoing
                              arguments, fixed storage and clobbers */
} s390x_try;

/* A handler of a call with a try. */
typedef struct {
    uint32_t offset;   /* where it begins; 0 where its label was never bound */
    uint32_t has_tag;  /* 1: for the tag; 0: for all tags */
    uint32_t tag;
} s390x_handler;

/* A patchable call. */
typedef struct {
    uint32_t offset;  /* where it returns to */
    uint32_t length;  /* in bytes */
} s390x_patchable_call;

/* A stack map. */
typedef struct {
    uint32_t offset;  /* where the call returns to */
    uint32_t map;     /* its number */
} s390x_stack_map;

/* The caller's buffers: each is a pointer and the number of entries that it has room for. */
typedef struct {
    uint8_t *code;  /* the code, and its constants behind it */
    size_t code_room;
    uint32_t *block_starts;  /* where each block starts; 0 where its label was never bound */
    size_t block_starts_room;
    uint32_t *constant_starts;  /* where each constant starts */
    size_t constant_starts_room;
    s390x_relocation *relocations;
    size_t relocations_room;
    s390x_trap *traps;
    size_t traps_room;
    uint32_t *call_sites;  /* where each call without a try returns to, and where each tail call ends */
    size_t call_sites_room;
    s390x_try *tries;
    size_t tries_room;
    s390x_handler *handlers;  /* those of all calls with a try, one call's behind the other's */
    size_t handlers_room;
    s390x_patchable_call *patchable_calls;
    size_t patchable_calls_room;
    s390x_stack_map *stack_maps;
    size_t stack_maps_room;
} s390x_buffers;

/* How many entries each table has. */
typedef struct {
    size_t code;  /* in bytes */
    size_t block_starts;
    size_t constant_starts;
    size_t relocations;
    size_t traps;
    size_t call_sites;
    size_t tries;
    size_t handlers;
    size_t patchable_calls;
    size_t stack_maps;
    uint32_t alignment;  /* what the base of the code has to be a multiple of, in bytes */
} s390x_sizes;

/* The code of a job's function before linking, with its tables.
 *
 * S390X_DONE: each buffer begins with its table and behind it is as it was, and `sizes` is written. S390X_TOO_SMALL, exactly
 * where a table has no room in its buffer: `sizes` is written. S390X_SYNTAX, S390X_REFUSED: `reason` is written.
 * S390X_TOO_LONG, S390X_NO_MEMORY. What isn't written is as it was; no buffer is but with S390X_DONE. */
uint32_t s390x_emit(const uint8_t *job, size_t job_length, s390x_buffers *out, s390x_sizes *sizes, s390x_reason *reason);

/* The image of a job's function at a base, with the symbols of the job's own lines. A machine that fetches it there does only
 * what the job's instructions allow.
 *
 * S390X_DONE: `out` begins with the image, of `count` bytes. S390X_TOO_SMALL, exactly where it has no room: `count` is
 * written. S390X_SYNTAX, S390X_REFUSED, S390X_LINK_REFUSED: `reason` is written. S390X_TOO_LONG, S390X_NO_MEMORY. What isn't
 * written is as it was. */
uint32_t s390x_image(const uint8_t *job, size_t job_length, uint64_t base, uint8_t *out, size_t room, size_t *count,
                     s390x_reason *reason);

/* The image at a base of several functions that call each other by name: `bundle` is for each a line `function uN` with its name and its
 * job, and then a line `close`. A machine that fetches it there does only what the functions and their calls of each other allow.
 *
 * S390X_DONE: `out` begins with the image, of `count` bytes. S390X_TOO_SMALL, exactly where it has no room: `count` is
 * written. S390X_SYNTAX, S390X_REFUSED, S390X_LINK_REFUSED, S390X_BUNDLE_REFUSED: `reason` is written, and tells the function that has
 * the first cause: names come first, then each function's emission, then the places, then each one's linking. S390X_TOO_LONG,
 * S390X_NO_MEMORY. What isn't written is as it was. */
uint32_t s390x_bundle(const uint8_t *bundle, size_t bundle_length, uint64_t base, uint8_t *out, size_t room, size_t *count,
                      s390x_reason *reason);

/* The texts of a job's instructions, in the mnemonics that assemblers take: for each block the line `block K`, and a line for each
 * of its instructions.
 *
 * S390X_DONE: `out` begins with the texts, of `count` bytes, without a zero behind them. S390X_TOO_SMALL, exactly where they have no
 * room: `count` is written. S390X_SYNTAX, S390X_REFUSED (a function that has no code has no texts): `reason` is written.
 * S390X_TOO_LONG, S390X_NO_MEMORY. What isn't written is as it was. */
uint32_t s390x_show(const uint8_t *job, size_t job_length, uint8_t *out, size_t room, size_t *count, s390x_reason *reason);

/* A register. */
typedef struct {
    uint32_t is_virtual;  /* 1 where it is virtual, 0 where it is real */
    uint32_t is_vector;   /* 1 where it is a vector register, 0 where it is a general one */
    uint32_t number;
} s390x_register;

/* What an instruction does with a register. */
enum s390x_operand_kind {
    S390X_USE = 0,    /* it reads it */
    S390X_DEF = 1,    /* it writes it */
    S390X_FIXED = 2,  /* it reads or writes it, and it is real */
    S390X_LOST = 3    /* its value is lost, and it is real */
};

/* Where an operand may stand. */
enum s390x_constraint_kind {
    S390X_NO_CHOICE = 0,          /* S390X_FIXED, S390X_LOST: where it is */
    S390X_ANY = 1,                /* in a register or on the stack */
    S390X_ANY_REGISTER = 2,       /* in a register of its class */
    S390X_THIS_REGISTER = 3,      /* in the register `fixed` */
    S390X_REUSE = 4               /* in the register of the operand `reused` */
};

typedef struct {
    uint32_t kind;         /* one of s390x_constraint_kind */
    s390x_register fixed;  /* S390X_THIS_REGISTER */
    size_t reused;         /* S390X_REUSE: counted from 0 among what the instruction reports, where what is lost is one */
} s390x_constraint;

/* What an instruction reports to a register allocator. What an entry doesn't speak of is 0. */
typedef struct {
    size_t block;        /* counted from 0 */
    size_t instruction;  /* in the block, counted from 0; a Loop reports for all its members */
    uint32_t kind;       /* one of s390x_operand_kind */
    uint32_t is_late;    /* S390X_USE, S390X_DEF: 0 before the instruction's effects, 1 after them */
    s390x_register reg;
    s390x_constraint constraint;  /* S390X_USE, S390X_DEF */
} s390x_operand;

/* What a job's instructions report, in order.
 *
 * S390X_DONE: `out` begins with the entries, of which there are `count`. S390X_TOO_SMALL, exactly where they have no room: `count` is
 * written. S390X_SYNTAX, and S390X_REFUSED where the operands of an instruction can't be reported: `reason` is written, its place is the
 * first such instruction. S390X_TOO_LONG, S390X_NO_MEMORY. What isn't written is as it was. */
uint32_t s390x_operands(const uint8_t *job, size_t job_length, s390x_operand *out, size_t room, size_t *count, s390x_reason *reason);

/* The faults of a plan, in the order in which they are looked for in a block. The first one is told: the counts of blocks come first,
 * then all of each block but its pairs, block by block, then the pairs. */
enum s390x_plan_fault {
    S390X_BLOCKS = 1,       /* the job and the plan differ in their number of blocks */
    S390X_UNSUPPORTED = 2,  /* the instruction `index` is a Loop, or a Call with handlers */
    S390X_SHAPE = 3,        /* the instruction `index` leaves the block before its end, or names a label that is no block */
    S390X_ORDER = 4,        /* the edit `index` is a step without an instruction, or a move behind the block's end; at the number of edits:
                               an instruction has no step */
    S390X_OPERANDS = 5,     /* the operands of the edit `index` can't be reported, by `cause`, one of s390x_operand_cause */
    S390X_COUNT = 6,        /* the edit `index` has more or fewer registers than operands */
    S390X_CONSTRAINT = 7,   /* the register of `operand` of the edit `index` doesn't suit it */
    S390X_MOVE = 8,         /* the edit `index` is no move */
    S390X_VALUE = 9,        /* the register of `operand` of the edit `index` doesn't hold what is read */
    S390X_ENTRY = 10        /* the pair `index` isn't held where the block begins */
};

/* Why a plan is refused. What the status or the fault doesn't speak of is 0. All but the line are counted from 0. */
typedef struct {
    uint32_t line;     /* S390X_SYNTAX: counted from 1 */
    uint32_t fault;    /* S390X_PLAN_REFUSED: one of s390x_plan_fault */
    uint32_t block;    /* the block of the fault */
    uint32_t index;    /* its instruction, edit or pair in the block */
    uint32_t operand;  /* the edit's operand */
    uint32_t cause;    /* one of s390x_operand_cause */
} s390x_plan_reason;

/* Whether a plan of registers has a fault: `plan` is a job, a line `plan`, the lines of each block's plan, and a line `close`.
 *
 * S390X_DONE: it has none, and on every walk from the first block, whatever the values are, each instruction reads by the plan's
 * registers the values of its virtual registers. S390X_SYNTAX, S390X_PLAN_REFUSED: `reason` is written, and else it is as it was.
 * S390X_TOO_LONG, S390X_NO_MEMORY (a fault at a number of 2^32 or above is told so too). */
uint32_t s390x_check_plan(const uint8_t *plan, size_t plan_length, s390x_plan_reason *reason);

#ifdef __cplusplus
}
#endif

#endif
