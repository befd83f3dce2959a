/* s390x_decode.h: the decoder of a proved machine layer for s390x, for C.
 *
 * The call of libs390x_decode_c.a, which `./s390x library` makes: no allocator, no undefined symbols. What it answers is proved of
 * the library; what C owes isn't checked by anything: no pointer is null, also where the length is 0, `out` doesn't lie among the
 * bytes, and these don't change while the call runs. Calls from many threads are independent.
 */
#ifndef S390X_DECODE_H
#define S390X_DECODE_H

#include <stdbool.h>
#include <stddef.h>
#include <stdint.h>

#ifdef __cplusplus
extern "C" {
#endif

/* An instruction. What its format lacks is 0. */
typedef struct {
    uint16_t opcode;       /* its two, three or four hex digits as a number */
    uint8_t format;        /* one of s390x_format */
    uint8_t length;        /* 2, 4 or 6 bytes */
    uint8_t registers[4];  /* numbers of registers, base and index among them, in the order of the format's operands */
    uint8_t masks[3];      /* masks and immediates of 8 bits, in that order too */
    int32_t displacement;  /* in bytes */
    int64_t immediate;     /* a wider immediate, or the distance of a relative operand in bytes */
} s390x_instruction;

/* The formats, in the order of the manual's names (Principles of Operation, chapter 5). Where several have the same places,
 * one name stands for them. */
enum s390x_format {
    S390X_E, S390X_RI_A, S390X_RI_B, S390X_RI_C, S390X_RIE_A, S390X_RIE_D, S390X_RIE_F, S390X_RIE_G, S390X_RIL_A,
    S390X_RIL_B, S390X_RIL_C, S390X_RR, S390X_RRE, S390X_RRF_AB, S390X_RRF_CDE, S390X_RS, S390X_RSY, S390X_RX, S390X_RXY,
    S390X_SI, S390X_SIL, S390X_SIY, S390X_VRI_A, S390X_VRI_B, S390X_VRI_C, S390X_VRI_K, S390X_VRR_A, S390X_VRR_B,
    S390X_VRR_C, S390X_VRR_D, S390X_VRR_E, S390X_VRR_F, S390X_VRS_A, S390X_VRS_B, S390X_VRS_C, S390X_VRX
};

/* The instruction with which the bytes begin: true and all of `out` is written; or false, exactly where no machine row has
 * these bytes or there are fewer than the instruction has, and `out` is as it was. */
bool s390x_decode(const uint8_t *bytes, size_t length, s390x_instruction *out);

#ifdef __cplusplus
}
#endif

#endif
