// Bytes and halves of either sign: loads, stores, fields of structs, a word seen as its bytes, and words put together from any address.
#include "panel.h"

typedef struct {
    int8_t small;
    uint16_t middle;
    uint8_t bits;
    int16_t signed_middle;
    uint32_t whole;
} Mixed;

static volatile int8_t signed_bytes[64];
static volatile uint8_t unsigned_bytes[64];
static volatile int16_t signed_halves[64];
static volatile uint16_t unsigned_halves[64];
static Mixed mixed[16];
static const int8_t table[] = {0, 1, -1, 127, -128, 5, -77, 99};

static uint32_t word_from(const uint8_t *at) { return at[0] | (uint32_t)at[1] << 8 | (uint32_t)at[2] << 16 | (uint32_t)at[3] << 24; }

void program(uint32_t *block) {
    uint8_t *bytes = (uint8_t *)block;
    for (int i = 0; i < 64; i++) {
        uint32_t x = value_at(block, i % VALUES) * (uint32_t)(i + 1);
        signed_bytes[i] = (int8_t)x;
        unsigned_bytes[i] = (uint8_t)(x >> 5);
        signed_halves[i] = (int16_t)(x >> 3);
        unsigned_halves[i] = (uint16_t)(x >> 7);
    }
    for (int i = 0; i < 64; i++) {
        emit((uint32_t)signed_bytes[i]);
        emit(unsigned_bytes[i]);
        emit((uint32_t)signed_halves[i]);
        emit(unsigned_halves[i]);
        emit((uint32_t)(signed_bytes[i] * signed_halves[63 - i] + table[i % 8]));
        signed_bytes[i]++;
        unsigned_bytes[i] += 200;
        signed_halves[i] = (int16_t)(signed_halves[i] >> 1);
        unsigned_halves[i] ^= 0xa5a5;
    }
    for (int i = 0; i < 64; i++)
        emit((uint32_t)(signed_bytes[i] + unsigned_bytes[i] * 3 + signed_halves[i] * 5 + unsigned_halves[i] * 7));
    for (int i = 0; i < 16; i++) {
        Mixed m = {(int8_t)bytes[i], (uint16_t)block[i], (uint8_t)~bytes[i + 1], (int16_t)(block[i] >> 16), block[i]};
        mixed[i] = m;
    }
    for (int i = 0; i < 16; i++) {
        Mixed m = mixed[15 - i];
        emit((uint32_t)m.small), emit(m.middle), emit(m.bits), emit((uint32_t)m.signed_middle), emit(m.whole);
    }
    for (int i = 0; i < 100; i++) emit(word_from(bytes + i * 3 + i % 2));
    for (int i = 0; i < 1000; i++) bytes[i + 1] = (uint8_t)(bytes[i] + bytes[4095 - i]);
    int16_t *halves = (int16_t *)(block + 512);
    for (int i = 0; i < 500; i++) halves[i] = (int16_t)(halves[i] - halves[i + 1]);
}
