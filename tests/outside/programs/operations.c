// Every operation of two registers, by its own instruction, over the edges and random words: division by zero and overflow among them.
#include "panel.h"

typedef uint32_t Operation(uint32_t a, uint32_t b);

void program(uint32_t *block) {
    Operation *const operations[] = {
        do_add, do_sub, do_sll,  do_slt,    do_sltu,  do_xor, do_srl,  do_sra, do_or,
        do_and, do_mul, do_mulh, do_mulhsu, do_mulhu, do_div, do_divu, do_rem, do_remu,
    };
    for (int k = 0; k < (int)(sizeof operations / sizeof *operations); k++) {
        uint32_t sum = 0;
        for (int i = 0; i < VALUES; i++)
            for (int j = 0; j < VALUES; j++) {
                uint32_t result = operations[k](value_at(block, i), value_at(block, j));
                emit(result);
                sum = sum * 31 + result;
            }
        block[BLOCK_WORDS - 1 - k] = sum;
    }
}
