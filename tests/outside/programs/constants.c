// Constants whose parts a compiler has to put together: around bit 11, at the signs, with a lower part of 0.
#include "panel.h"

#define AROUND(x) emit((x)-1u), emit(x), emit((x) + 1u), emit(seed + (x)), emit(seed - (x)), emit(seed ^ (x)), emit(seed < (x)), \
    emit((int32_t)seed < (int32_t)(x)), emit(seed & ((x) | 1u))

static const uint32_t stored[] = {2047, 2048, 4095, 4096, 0x12345fff, 0x7ffff800, 0x80000000, 0xfffff7ff};

void program(uint32_t *block) {
    volatile uint32_t *changing = block;
    for (int i = 0; i < 20; i++) {
        uint32_t seed = changing[i];
        AROUND(0u);
        AROUND(31u);
        AROUND(2047u);
        AROUND(2048u);
        AROUND(4095u);
        AROUND(4096u);
        AROUND(6143u);
        AROUND(6144u);
        AROUND(0x00012800u);
        AROUND(0x12345fffu);
        AROUND(0x12346000u);
        AROUND(0x7ffff7ffu);
        AROUND(0x7ffff800u);
        AROUND(0x7fffffffu);
        AROUND(0x80000000u);
        AROUND(0x80000800u);
        AROUND(0xdeadbeefu);
        AROUND(0xfffff000u);
        AROUND(0xfffff7ffu);
        AROUND(0xfffff800u);
        AROUND(0xffffffffu);
        for (int k = 0; k < 8; k++) emit(stored[k] + seed);
        changing[i] = seed * 0x9e3779b1u + 0x7f4a7c15u;
    }
}
