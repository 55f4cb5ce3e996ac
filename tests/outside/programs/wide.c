// Arithmetic of 64 bits in C, which compiles to carries (sltu), products of two words, and shifts over two registers.
#include "panel.h"

static void emit64(uint64_t x) {
    emit((uint32_t)x);
    emit((uint32_t)(x >> 32));
}

void program(uint32_t *block) {
    uint64_t sum = 0;
    for (int i = 0; i + 3 < VALUES; i++)
        for (int j = 0; j + 5 < VALUES; j += 3) {
            uint64_t a = (uint64_t)value_at(block, i) << 32 | value_at(block, i + 3);
            uint64_t b = (uint64_t)value_at(block, j) << 32 | value_at(block, j + 5);
            int64_t s = (int64_t)a, t = (int64_t)b;
            int amount = (int)(b & 63);
            emit64(a + b);
            emit64(a - b);
            emit64(a * b);
            emit64(a << amount);
            emit64(a >> amount);
            emit64((uint64_t)(s >> amount));
            emit64(a ^ (b | 0x123456789abcdefull));
            emit((a < b) | (s < t) << 1 | (a == b) << 2 | (s >= t) << 3);
            if (b != 0) {
                emit64(a / b);
                emit64(a % b);
                if (!(s == INT64_MIN && t == -1)) {
                    emit64((uint64_t)(s / t));
                    emit64((uint64_t)(s % t));
                }
            }
            sum = (sum << 7 | sum >> 57) ^ (a * 6364136223846793005ull + b);
        }
    block[0] = (uint32_t)sum;
    block[1] = (uint32_t)(sum >> 32);
}
