// What a compiler calls by itself on the panel: there is no C library, and no instruction divides 64 bits.
#include <stddef.h>
#include <stdint.h>

void *memset(void *to, int value, size_t size) {
    uint8_t *bytes = to;
    for (size_t i = 0; i < size; i++) bytes[i] = (uint8_t)value;
    return to;
}

void *memcpy(void *to, const void *from, size_t size) {
    uint8_t *a = to;
    const uint8_t *b = from;
    for (size_t i = 0; i < size; i++) a[i] = b[i];
    return to;
}

void *memmove(void *to, const void *from, size_t size) {
    uint8_t *a = to;
    const uint8_t *b = from;
    if ((uintptr_t)a < (uintptr_t)b)
        for (size_t i = 0; i < size; i++) a[i] = b[i];
    else
        for (size_t i = size; i > 0; i--) a[i - 1] = b[i - 1];
    return to;
}

int memcmp(const void *left, const void *right, size_t size) {
    const uint8_t *a = left, *b = right;
    for (size_t i = 0; i < size; i++)
        if (a[i] != b[i]) return a[i] < b[i] ? -1 : 1;
    return 0;
}

// Quotient and remainder, bit by bit.
static uint64_t divide(uint64_t a, uint64_t b, uint64_t *remainder) {
    uint64_t quotient = 0, rest = 0;
    for (int i = 63; i >= 0; i--) {
        uint64_t carry = rest >> 63;
        rest = rest << 1 | (a >> i & 1);
        if (carry || rest >= b) {
            rest -= b;
            quotient |= (uint64_t)1 << i;
        }
    }
    *remainder = rest;
    return quotient;
}

static uint64_t magnitude(int64_t a) { return a < 0 ? 0 - (uint64_t)a : (uint64_t)a; }

uint64_t __udivdi3(uint64_t a, uint64_t b) {
    uint64_t rest;
    return divide(a, b, &rest);
}

uint64_t __umoddi3(uint64_t a, uint64_t b) {
    uint64_t rest;
    divide(a, b, &rest);
    return rest;
}

int64_t __divdi3(int64_t a, int64_t b) {
    uint64_t rest, quotient = divide(magnitude(a), magnitude(b), &rest);
    return (int64_t)((a < 0) != (b < 0) ? 0 - quotient : quotient);
}

int64_t __moddi3(int64_t a, int64_t b) {
    uint64_t rest;
    divide(magnitude(a), magnitude(b), &rest);
    return (int64_t)(a < 0 ? 0 - rest : rest);
}

uint64_t __ashldi3(uint64_t a, int n) {
    uint32_t low = (uint32_t)a, high = (uint32_t)(a >> 32);
    if (n == 0) return a;
    if (n >= 32) return (uint64_t)(low << (n - 32)) << 32;
    return (uint64_t)(high << n | low >> (32 - n)) << 32 | (uint32_t)(low << n);
}

uint64_t __lshrdi3(uint64_t a, int n) {
    uint32_t low = (uint32_t)a, high = (uint32_t)(a >> 32);
    if (n == 0) return a;
    if (n >= 32) return high >> (n - 32);
    return (uint64_t)(high >> n) << 32 | (low >> n | high << (32 - n));
}

int64_t __ashrdi3(int64_t a, int n) {
    uint32_t low = (uint32_t)a;
    int32_t high = (int32_t)((uint64_t)a >> 32);
    if (n == 0) return a;
    if (n >= 32) return (int64_t)((uint64_t)(uint32_t)(high >> 31) << 32 | (uint32_t)(high >> (n - 32)));
    return (int64_t)((uint64_t)(uint32_t)(high >> n) << 32 | (low >> n | (uint32_t)high << (32 - n)));
}
