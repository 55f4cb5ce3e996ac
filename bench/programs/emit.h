// A word to the log, by document 03's ecall.
#include <stdint.h>
#define EMIT(value)                                                              \
    do {                                                                         \
        register int32_t x10 __asm__("x10") = (value);                           \
        register int32_t x17 __asm__("x17") = 1;                                 \
        __asm__ volatile("ecall" : : "r"(x10), "r"(x17) : "memory");             \
    } while (0)
