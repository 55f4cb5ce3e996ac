// Shifts in C: logical, arithmetic, by variables and constants; rotations, counts and reversals of bits.
#include "panel.h"

static uint32_t rotated(uint32_t x, uint32_t n) { return x << (n & 31) | x >> ((32 - n) & 31); }

static uint32_t ones(uint32_t x) {
    x -= x >> 1 & 0x55555555;
    x = (x & 0x33333333) + (x >> 2 & 0x33333333);
    return ((x + (x >> 4)) & 0x0f0f0f0f) * 0x01010101u >> 24;
}

static uint32_t reversed(uint32_t x) {
    uint32_t result = 0;
    for (int i = 0; i < 32; i++, x >>= 1) result = result << 1 | (x & 1);
    return result;
}

static uint32_t leading_zeros(uint32_t x) {
    uint32_t n = 0;
    while (n < 32 && (int32_t)x >= 0) {
        x <<= 1;
        n++;
    }
    return n;
}

void program(uint32_t *block) {
    for (int i = 0; i < VALUES; i++) {
        uint32_t x = value_at(block, i);
        for (uint32_t n = 0; n < 32; n++) {
            emit(x << n);
            emit(x >> n);
            emit((uint32_t)((int32_t)x >> n));
            emit(rotated(x, n));
            emit((uint32_t)((int32_t)(x << n) >> n));
        }
        emit(ones(x));
        emit(reversed(x));
        emit(leading_zeros(x));
        emit((uint32_t)((int32_t)x >> 31));
        emit((uint32_t)(int8_t)x + (uint32_t)(int16_t)(x >> 3) + (uint8_t)(x >> 9) + (uint16_t)(x >> 11));
    }
    for (int i = 0; i < BLOCK_WORDS; i++) block[i] = rotated(block[i], (uint32_t)i) ^ reversed((uint32_t)i);
}
