// Every operation of a register and an immediate or an amount, by its own instruction.
#include "panel.h"

#define WITH_IMMEDIATE(constant)                                       \
    emit(IMMEDIATE(addi, x, constant, a + b));                         \
    emit(IMMEDIATE(slti, x, constant, (int32_t)a < (int32_t)b));       \
    emit(IMMEDIATE(sltiu, x, constant, a < b));                        \
    emit(IMMEDIATE(xori, x, constant, a ^ b));                         \
    emit(IMMEDIATE(ori, x, constant, a | b));                          \
    emit(IMMEDIATE(andi, x, constant, a & b));

#define WITH_AMOUNT(constant)                                          \
    emit(IMMEDIATE(slli, x, constant, a << b));                        \
    emit(IMMEDIATE(srli, x, constant, a >> b));                        \
    emit(IMMEDIATE(srai, x, constant, (int32_t)a >> b));

void program(uint32_t *block) {
    for (int i = 0; i < VALUES; i++) {
        uint32_t x = value_at(block, i);
        WITH_IMMEDIATE(0)
        WITH_IMMEDIATE(1)
        WITH_IMMEDIATE(-1)
        WITH_IMMEDIATE(31)
        WITH_IMMEDIATE(255)
        WITH_IMMEDIATE(1365)
        WITH_IMMEDIATE(-1366)
        WITH_IMMEDIATE(2047)
        WITH_IMMEDIATE(-2047)
        WITH_IMMEDIATE(-2048)
        WITH_AMOUNT(0)
        WITH_AMOUNT(1)
        WITH_AMOUNT(4)
        WITH_AMOUNT(15)
        WITH_AMOUNT(16)
        WITH_AMOUNT(30)
        WITH_AMOUNT(31)
    }
    block[0] = IMMEDIATE(xori, block[0], -1, a ^ b);
}
