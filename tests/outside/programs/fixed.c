// Numbers with a binary point: roots, sines by rotation, a filter, and fractions to 16 bits with rounding of either sign.
#include "panel.h"

static uint32_t root(uint32_t x) {
    uint32_t result = 0;
    for (uint32_t bit = 1u << 30; bit != 0; bit >>= 2) {
        if (x >= result + bit) {
            x -= result + bit;
            result = (result >> 1) + bit;
        } else {
            result >>= 1;
        }
    }
    return result;
}

static int32_t times(int32_t a, int32_t b) { return (int32_t)(((int64_t)a * b + 0x8000) >> 16); }

static const int32_t angles[16] = {51472, 30386, 16055, 8150, 4091, 2047, 1024, 512, 256, 128, 64, 32, 16, 8, 4, 2};

static void rotation(int32_t angle, int32_t *cosine, int32_t *sine) {
    int32_t x = 39797, y = 0;
    for (int i = 0; i < 16; i++) {
        int32_t dx = y >> i, dy = x >> i;
        if (angle >= 0) x -= dx, y += dy, angle -= angles[i];
        else x += dx, y -= dy, angle += angles[i];
    }
    *cosine = x;
    *sine = y;
}

void program(uint32_t *block) {
    int32_t state = 0;
    for (int i = 0; i < 200; i++) {
        uint32_t x = value_at(block, i % VALUES) + (uint32_t)i;
        emit(root(x));
        int32_t sample = (int32_t)x >> 8;
        state += times(sample - state, 6554);
        emit((uint32_t)state);
        int32_t cosine, sine;
        rotation((i - 100) * 1000, &cosine, &sine);
        emit((uint32_t)cosine), emit((uint32_t)sine);
        emit((uint32_t)times(cosine, cosine) + (uint32_t)times(sine, sine));
        block[i] = (uint32_t)(((int64_t)sample * 65536 + (sample < 0 ? -50 : 50)) / 100);
    }
}
