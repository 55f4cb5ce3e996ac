// A small machine of its own: instructions chosen by a switch, which compiles to a table of jumps, and by a table of functions.
#include "panel.h"

enum { PUSH, ADD, SUB, MUL, HALVE, DUP, SWAP, DROP, JUMP_IF, EMIT, AND, LESS, STORE, LOAD, HALT };

// Emits the squares up to 20 squared, then Collatz' row from 27 on.
static const int8_t text[] = {
    PUSH, 1, STORE, 0,                                        // 0: n = 1
    LOAD, 0, DUP, MUL, EMIT, LOAD, 0, PUSH, 1, ADD, STORE, 0, // 4: emit n * n; n = n + 1
    LOAD, 0, PUSH, 21, LESS, JUMP_IF, 4,                      // 16: while n < 21
    PUSH, 27, STORE, 1,                                       // 23: m = 27
    LOAD, 1, EMIT, LOAD, 1, PUSH, 1, AND, JUMP_IF, 46,        // 27: emit m; is it odd?
    LOAD, 1, HALVE, STORE, 1, PUSH, 1, JUMP_IF, 56,           // 37: m = m / 2
    LOAD, 1, PUSH, 3, MUL, PUSH, 1, ADD, STORE, 1,            // 46: m = 3 * m + 1
    PUSH, 1, LOAD, 1, LESS, JUMP_IF, 27,                      // 56: while 1 < m
    HALT,
};

static uint32_t run(uint32_t *variables, uint32_t limit) {
    int32_t stack[32];
    int top = 0;
    uint32_t pc = 0, steps = 0;
    for (; steps < limit; steps++) {
        if (pc >= sizeof text) return steps;
        switch (text[pc++]) {
        case PUSH: stack[top++] = text[pc++]; break;
        case ADD: top--, stack[top - 1] += stack[top]; break;
        case SUB: top--, stack[top - 1] -= stack[top]; break;
        case MUL: top--, stack[top - 1] *= stack[top]; break;
        case HALVE: stack[top - 1] /= 2; break;
        case DUP: stack[top] = stack[top - 1], top++; break;
        case SWAP: {
            int32_t t = stack[top - 1];
            stack[top - 1] = stack[top - 2], stack[top - 2] = t;
            break;
        }
        case DROP: top--; break;
        case JUMP_IF:
            top--;
            pc = stack[top] ? (uint32_t)text[pc] : pc + 1;
            break;
        case EMIT: emit((uint32_t)stack[--top]); break;
        case AND: top--, stack[top - 1] &= stack[top]; break;
        case LESS: top--, stack[top - 1] = stack[top - 1] < stack[top]; break;
        case STORE: variables[text[pc++]] = (uint32_t)stack[--top]; break;
        case LOAD: stack[top++] = (int32_t)variables[text[pc++]]; break;
        default: return steps;
        }
    }
    return steps;
}

static uint32_t halve(uint32_t x) { return x / 2; }
static uint32_t triple(uint32_t x) { return 3 * x + 1; }
static uint32_t square(uint32_t x) { return x * x; }
static uint32_t negate(uint32_t x) { return 0 - x; }

typedef uint32_t Function(uint32_t);

static Function *const functions[] = {halve, triple, square, negate};

// A function's address with bit 0 set, which jalr clears; natively the address itself.
static Function *marked(Function *function) {
#ifdef __riscv
    return (Function *)((uintptr_t)function | 1);
#else
    return function;
#endif
}

void program(uint32_t *block) {
    emit(run(block, 5000));
    uint32_t x = 27;
    while (x != 1) {
        x = marked(functions[x % 2])(x);
        emit(x);
    }
    for (int i = 0; i < BLOCK_WORDS; i++) {
        block[i] = functions[block[i] >> 7 & 3](block[i]);
        switch (block[i] % 12) {
        case 0: emit(1); break;
        case 1: emit(block[i]); break;
        case 2: block[i] += 5; break;
        case 3: block[i] ^= 0x5555; // and on
        case 4: emit(4); break;
        case 5: block[i] = ~block[i]; break;
        case 6: emit(6 + block[i] / 3); break;
        case 9: continue;
        case 10: block[i] >>= 3; break;
        case 11: emit(block[i] << 2); break;
        default: emit(0xffffffff); break;
        }
    }
}
