// What a program of programs/ is written against. It is built twice: for the panel (riscv32), where emit and trap are ecalls and the
// operations are the instructions themselves, and natively, where they are C by document 03 §3.
#ifndef PANEL_H
#define PANEL_H

#include <stdint.h>

#include "block.h"

// The program: it emits, and leaves its results in the block.
void program(uint32_t *block);

#ifdef __riscv

static inline void emit(uint32_t value) {
    register uint32_t x10 __asm__("x10") = value;
    register uint32_t x17 __asm__("x17") = 1;
    __asm__ volatile("ecall" : : "r"(x10), "r"(x17) : "memory");
}

static inline _Noreturn void trap(uint32_t number) {
    register uint32_t x10 __asm__("x10") = number;
    register uint32_t x17 __asm__("x17") = 2;
    __asm__ volatile("ecall" : : "r"(x10), "r"(x17) : "memory");
    __builtin_unreachable();
}

// An operation of two registers, by its instruction.
#define OPERATION(name, expression)                                                       \
    static inline uint32_t do_##name(uint32_t a, uint32_t b) {                            \
        uint32_t result;                                                                  \
        __asm__ volatile(#name " %0, %1, %2" : "=r"(result) : "r"(a), "r"(b));            \
        return result;                                                                    \
    }

// An operation of a register and a constant, by its instruction.
#define IMMEDIATE(name, a, constant, expression) ({                                       \
        uint32_t result_;                                                                 \
        __asm__ volatile(#name " %0, %1, %2" : "=r"(result_) : "r"(a), "i"(constant));    \
        result_; })

// Whether a branch is taken, by its instruction.
#define BRANCH(name, expression)                                                          \
    static inline uint32_t do_##name(uint32_t a, uint32_t b) {                            \
        uint32_t result;                                                                  \
        __asm__ volatile("li %0, 1\n " #name " %1, %2, 1f\n li %0, 0\n 1:" : "=&r"(result) : "r"(a), "r"(b)); \
        return result;                                                                    \
    }

#else

void emit(uint32_t value);
_Noreturn void trap(uint32_t number);

#define OPERATION(name, expression)                            \
    static inline uint32_t do_##name(uint32_t a, uint32_t b) { \
        return (uint32_t)(expression);                         \
    }

#define IMMEDIATE(name, x, constant, expression) ({ uint32_t a = (x), b = (uint32_t)(constant); (uint32_t)(expression); })

#define BRANCH(name, expression) OPERATION(name, expression)

#endif

// Document 03 §3, the rows 33.
OPERATION(add, a + b)
OPERATION(sub, a - b)
OPERATION(sll, a << (b & 31))
OPERATION(slt, (int32_t)a < (int32_t)b)
OPERATION(sltu, a < b)
OPERATION(xor, a ^ b)
OPERATION(srl, a >> (b & 31))
OPERATION(sra, (int32_t)a >> (b & 31))
OPERATION(or, a | b)
OPERATION(and, a & b)
OPERATION(mul, a * b)
OPERATION(mulh, (uint64_t)((int64_t)(int32_t)a * (int32_t)b) >> 32)
OPERATION(mulhsu, (uint64_t)((int64_t)(int32_t)a * (int64_t)b) >> 32)
OPERATION(mulhu, ((uint64_t)a * b) >> 32)
OPERATION(div, b == 0 ? -1 : (int64_t)(int32_t)a / (int32_t)b)
OPERATION(divu, b == 0 ? 0xffffffff : a / b)
OPERATION(rem, b == 0 ? (int32_t)a : (int64_t)(int32_t)a % (int32_t)b)
OPERATION(remu, b == 0 ? a : a % b)

// The row 63.
BRANCH(beq, a == b)
BRANCH(bne, a != b)
BRANCH(blt, (int32_t)a < (int32_t)b)
BRANCH(bge, (int32_t)a >= (int32_t)b)
BRANCH(bltu, a < b)
BRANCH(bgeu, a >= b)

// Values at the edges, then those of the block: what two-operand programs go through.
enum { EDGES = 24, VALUES = 48 };

static inline uint32_t value_at(const uint32_t *block, int i) {
    static const uint32_t edges[EDGES] = {
        0,          1,          2,          3,          7,          10,         31,         32,
        127,        128,        255,        2047,       2048,       4095,       65535,      65536,
        0x7fffffff, 0x80000000, 0x80000001, 0xffffffff, 0xfffffffe, 0xfffffff9, 0xffff8000, 0xfffff800,
    };
    return i < EDGES ? edges[i] : block[i];
}

#endif
