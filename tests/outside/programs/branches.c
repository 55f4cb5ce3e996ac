// Every branch by its own instruction, and C's comparisons of every kind, as conditions and as values.
#include "panel.h"

typedef uint32_t Branch(uint32_t a, uint32_t b);

static uint32_t conditions(uint32_t a, uint32_t b) {
    int32_t s = (int32_t)a, t = (int32_t)b;
    uint32_t bits = 0;
    if (a == b) bits |= 1;
    if (a != b) bits |= 2;
    if (a < b) bits |= 4;
    if (a <= b) bits |= 8;
    if (a > b) bits |= 16;
    if (a >= b) bits |= 32;
    if (s < t) bits |= 64;
    if (s <= t) bits |= 128;
    if (s > t) bits |= 256;
    if (s >= t) bits |= 512;
    if (s < 0 && t >= 0) bits |= 1024;
    if (s < -2048 || t > 2047) bits |= 2048;
    return bits;
}

static uint32_t values(uint32_t a, uint32_t b) {
    int32_t s = (int32_t)a, t = (int32_t)b;
    return (uint32_t)((a < b) + 2 * (s < t) + 4 * (a == b) + 8 * (s <= t) + 16 * !a + 32 * (s > -5) + 64 * (b < 100u) + 128 * (t >= 77));
}

static int32_t clamped(int32_t x, int32_t low, int32_t high) { return x < low ? low : x > high ? high : x; }

void program(uint32_t *block) {
    Branch *const branches[] = {do_beq, do_bne, do_blt, do_bge, do_bltu, do_bgeu};
    uint32_t sum = 0;
    for (int i = 0; i < VALUES; i++)
        for (int j = 0; j < VALUES; j++) {
            uint32_t a = value_at(block, i), b = value_at(block, j), taken = 0;
            for (int k = 0; k < 6; k++) taken = taken << 1 | branches[k](a, b);
            emit(taken);
            emit(conditions(a, b));
            emit(values(a, b));
            sum = sum * 33 + (uint32_t)clamped((int32_t)a, -1000, (int32_t)(b >> 1));
        }
    block[1] = sum;
}
