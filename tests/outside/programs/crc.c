// Check sums: CRC-32 bit by bit and by a table, CRC-16, Adler-32, Fletcher-16, FNV-1a, and Jenkins' one at a time.
#include "panel.h"

static uint32_t table[256];

static uint32_t crc32_bits(const uint8_t *bytes, uint32_t size) {
    uint32_t crc = 0xffffffff;
    for (uint32_t i = 0; i < size; i++) {
        crc ^= bytes[i];
        for (int k = 0; k < 8; k++) crc = crc >> 1 ^ (0xedb88320 & (0 - (crc & 1)));
    }
    return ~crc;
}

static uint32_t crc32_table(const uint8_t *bytes, uint32_t size) {
    uint32_t crc = 0xffffffff;
    for (uint32_t i = 0; i < size; i++) crc = crc >> 8 ^ table[(crc ^ bytes[i]) & 0xff];
    return ~crc;
}

static uint16_t crc16(const uint8_t *bytes, uint32_t size) {
    uint16_t crc = 0xffff;
    for (uint32_t i = 0; i < size; i++) {
        crc = (uint16_t)(crc ^ bytes[i] << 8);
        for (int k = 0; k < 8; k++) crc = (uint16_t)(crc & 0x8000 ? crc << 1 ^ 0x1021 : crc << 1);
    }
    return crc;
}

static uint32_t adler32(const uint8_t *bytes, uint32_t size) {
    uint32_t a = 1, b = 0;
    for (uint32_t i = 0; i < size; i++) {
        a = (a + bytes[i]) % 65521;
        b = (b + a) % 65521;
    }
    return b << 16 | a;
}

static uint32_t fletcher16(const uint8_t *bytes, uint32_t size) {
    uint16_t a = 0, b = 0;
    for (uint32_t i = 0; i < size; i++) {
        a = (uint16_t)((a + bytes[i]) % 255);
        b = (uint16_t)((b + a) % 255);
    }
    return (uint32_t)b << 8 | a;
}

static uint32_t fnv(const uint8_t *bytes, uint32_t size) {
    uint32_t hash = 2166136261u;
    for (uint32_t i = 0; i < size; i++) hash = (hash ^ bytes[i]) * 16777619u;
    return hash;
}

static uint32_t jenkins(const uint8_t *bytes, uint32_t size) {
    uint32_t hash = 0;
    for (uint32_t i = 0; i < size; i++) {
        hash += bytes[i];
        hash += hash << 10;
        hash ^= hash >> 6;
    }
    hash += hash << 3;
    hash ^= hash >> 11;
    return hash + (hash << 15);
}

void program(uint32_t *block) {
    static const uint8_t digits[] = {'1', '2', '3', '4', '5', '6', '7', '8', '9'};
    const uint8_t *bytes = (const uint8_t *)block;
    for (uint32_t i = 0; i < 256; i++) {
        uint32_t crc = i;
        for (int k = 0; k < 8; k++) crc = crc & 1 ? crc >> 1 ^ 0xedb88320 : crc >> 1;
        table[i] = crc;
    }
    emit(crc32_bits(digits, 9)); // 0xcbf43926
    emit(crc16(digits, 9));      // 0x29b1
    for (uint32_t from = 0; from < 100; from += 7)
        for (uint32_t size = 0; size < 200; size += 37) {
            emit(crc32_bits(bytes + from, size));
            emit(crc32_table(bytes + from, size));
            emit(crc16(bytes + from, size));
            emit(adler32(bytes + from, size));
            emit(fletcher16(bytes + from, size));
            emit(fnv(bytes + from, size));
            emit(jenkins(bytes + from, size));
        }
    block[BLOCK_WORDS - 1] = crc32_table(bytes, 4 * (BLOCK_WORDS - 1));
}
