// Quotients and remainders in C: by variables, and by constants of either sign, for which compilers multiply and shift instead.
#include "panel.h"

static void by_constants(uint32_t a) {
    int32_t s = (int32_t)a;
    emit(a / 3), emit(a % 3);
    emit(a / 7), emit(a % 7);
    emit(a / 10), emit(a % 10);
    emit(a / 16), emit(a % 16);
    emit(a / 641), emit(a % 641);
    emit(a / 1000000007u), emit(a % 1000000007u);
    emit((uint32_t)(s / 2)), emit((uint32_t)(s % 2));
    emit((uint32_t)(s / 3)), emit((uint32_t)(s % 3));
    emit((uint32_t)(s / -3)), emit((uint32_t)(s % -3));
    emit((uint32_t)(s / 7)), emit((uint32_t)(s % 7));
    emit((uint32_t)(s / -7)), emit((uint32_t)(s % -7));
    emit((uint32_t)(s / 8)), emit((uint32_t)(s % 8));
    emit((uint32_t)(s / -8)), emit((uint32_t)(s % -8));
    emit((uint32_t)(s / 100)), emit((uint32_t)(s % 100));
    emit((uint32_t)(s / -1000000)), emit((uint32_t)(s % -1000000));
}

static uint32_t gcd(uint32_t a, uint32_t b) {
    while (b != 0) {
        uint32_t rest = a % b;
        a = b;
        b = rest;
    }
    return a;
}

void program(uint32_t *block) {
    for (int i = 0; i < VALUES; i++) {
        uint32_t a = value_at(block, i);
        by_constants(a);
        for (int j = 0; j < VALUES; j++) {
            uint32_t b = value_at(block, j);
            int32_t s = (int32_t)a, t = (int32_t)b;
            if (b == 0) continue;
            emit(a / b);
            emit(a % b);
            if (s == INT32_MIN && t == -1) continue; // C leaves it open; operations.c has it
            emit((uint32_t)(s / t));
            emit((uint32_t)(s % t));
            emit((uint32_t)(s / t * t + s % t) ^ a);
        }
    }
    for (int i = 0; i < 64; i++) block[i] = gcd(block[i], block[i + 64]);
}
