// Primes by a sieve of bits and by trial division, and factors.
#include "panel.h"

enum { MOST = 4000 };

static uint32_t composite[MOST / 32 + 1];

static int prime(uint32_t n) {
    if (n < 2) return 0;
    for (uint32_t d = 2; d * d <= n; d++)
        if (n % d == 0) return 0;
    return 1;
}

void program(uint32_t *block) {
    uint32_t count = 0, wrong = 0;
    for (uint32_t n = 2; n < MOST; n++) {
        if (composite[n / 32] >> n % 32 & 1) continue;
        block[count % BLOCK_WORDS] = n;
        count++;
        emit(n);
        for (uint32_t m = n * n; m < MOST; m += n) composite[m / 32] |= 1u << m % 32;
    }
    for (uint32_t n = 0; n < 1000; n++)
        if (prime(n) != (n >= 2 && !(composite[n / 32] >> n % 32 & 1))) wrong++;
    emit(count);
    emit(wrong);
    for (uint32_t n = 4294967291u; n != 4294967279u; n--) {
        uint32_t rest = n;
        for (uint32_t d = 2; d < 1000; d++)
            while (rest % d == 0) {
                emit(d);
                rest /= d;
            }
        emit(rest);
    }
}
