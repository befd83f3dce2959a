/* disassemble: the instructions of some code, whose bytes are given in hex on standard input. */
#include "s390x_decode.h"

#include <inttypes.h>
#include <stdio.h>

int main(void) {
    static uint8_t code[1 << 16];
    size_t length = 0;
    unsigned byte;
    while (length < sizeof code && scanf("%2x", &byte) == 1) {
        code[length++] = (uint8_t)byte;
    }
    for (size_t at = 0; at < length;) {
        s390x_instruction it;
        if (!s390x_decode(code + at, length - at, &it)) {
            printf("%zu: no machine row\n", at);
            return 1;
        }
        printf("%zu: opcode %x format %u registers %u %u %u %u masks %u %u %u displacement %" PRId32 " immediate %" PRId64 "\n", at,
               it.opcode, it.format, it.registers[0], it.registers[1], it.registers[2], it.registers[3], it.masks[0], it.masks[1],
               it.masks[2], it.displacement, it.immediate);
        at += it.length;
    }
    return 0;
}
