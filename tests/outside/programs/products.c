// Products in C: 32 bits, and 64 bits of signed and unsigned factors, which compile to mul with mulh, mulhu or mulhsu.
#include "panel.h"

static void emit64(uint64_t x) {
    emit((uint32_t)x);
    emit((uint32_t)(x >> 32));
}

static uint32_t power(uint32_t base, uint32_t exponent, uint32_t modulus) {
    uint64_t result = 1, square = base % modulus;
    for (; exponent != 0; exponent >>= 1) {
        if (exponent & 1) result = result * square % modulus;
        square = square * square % modulus;
    }
    return (uint32_t)result;
}

void program(uint32_t *block) {
    int64_t dot = 0;
    uint64_t sum = 0;
    for (int i = 0; i < VALUES; i++)
        for (int j = 0; j < VALUES; j++) {
            uint32_t a = value_at(block, i), b = value_at(block, j);
            emit64((uint64_t)a * b);
            emit64((uint64_t)((int64_t)(int32_t)a * (int32_t)b));
            emit64((uint64_t)(int64_t)(int32_t)a * b);
            emit(a * b);
            emit((a >> 16) * (b & 0xffff));
            emit((uint32_t)((int64_t)(int32_t)a * (int32_t)b >> 32) ^ do_mulh(a, b));
            dot = (int64_t)((uint64_t)dot + (uint64_t)((int64_t)(int16_t)a * (int16_t)b));
            sum += (uint64_t)a * b;
        }
    for (int i = 0; i < 8; i++) {
        block[i] = power(block[i], 65537, 4294967291u);
        block[8 + i] = block[8 + i] * 3u + block[16 + i] * 10u - block[24 + i] * 255u;
        block[32 + i] = (uint32_t)((int32_t)(block[32 + i] >> 16) * -7);
    }
    block[40] = (uint32_t)dot;
    block[41] = (uint32_t)((uint64_t)dot >> 32);
    block[42] = (uint32_t)sum;
    block[43] = (uint32_t)(sum >> 32);
}
