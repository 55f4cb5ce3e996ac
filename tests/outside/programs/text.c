// Text: decimal and hexadecimal digits, comparing, searching, reversing words, base 64, and moves of overlapping bytes.
#include "panel.h"

static const char sentence[] = "the quick brown fox jumps over the lazy dog and packs my box with five dozen liquor jugs";
static const char letters[] = "ABCDEFGHIJKLMNOPQRSTUVWXYZabcdefghijklmnopqrstuvwxyz0123456789+/";

static int length(const char *s) {
    int n = 0;
    while (s[n] != 0) n++;
    return n;
}

static void emit_text(const char *s) {
    for (; *s != 0; s++) emit((uint8_t)*s);
}

static char *decimal(int32_t x, char *end) {
    uint32_t rest = x < 0 ? 0 - (uint32_t)x : (uint32_t)x;
    *--end = 0;
    do *--end = (char)('0' + rest % 10);
    while ((rest /= 10) != 0);
    if (x < 0) *--end = '-';
    return end;
}

static int32_t number(const char *s) {
    int negative = *s == '-';
    uint32_t x = 0;
    for (s += negative; *s >= '0' && *s <= '9'; s++) x = x * 10 + (uint32_t)(*s - '0');
    return (int32_t)(negative ? 0 - x : x);
}

static int found(const char *s, const char *part) {
    for (int i = 0; s[i] != 0; i++) {
        int j = 0;
        while (part[j] != 0 && s[i + j] == part[j]) j++;
        if (part[j] == 0) return i;
    }
    return -1;
}

static void base64(const uint8_t *bytes, int size, char *to) {
    for (int i = 0; i < size; i += 3) {
        uint32_t x = (uint32_t)bytes[i] << 16 | (i + 1 < size ? (uint32_t)bytes[i + 1] << 8 : 0) | (i + 2 < size ? bytes[i + 2] : 0);
        *to++ = letters[x >> 18];
        *to++ = letters[x >> 12 & 63];
        *to++ = i + 1 < size ? letters[x >> 6 & 63] : '=';
        *to++ = i + 2 < size ? letters[x & 63] : '=';
    }
    *to = 0;
}

static void moved(uint8_t *to, const uint8_t *from, int size) {
    if (to < from)
        for (int i = 0; i < size; i++) to[i] = from[i];
    else
        for (int i = size - 1; i >= 0; i--) to[i] = from[i];
}

void program(uint32_t *block) {
    char room[128];
    for (int i = 0; i < VALUES; i++) {
        char *text = decimal((int32_t)value_at(block, i), room + sizeof room);
        emit_text(text);
        emit((uint32_t)number(text) ^ value_at(block, i));
    }
    emit((uint32_t)length(sentence));
    emit((uint32_t)found(sentence, "lazy")), emit((uint32_t)found(sentence, "cat")), emit((uint32_t)found(sentence, "jugs"));
    for (int n = 0; n < 9; n++) {
        base64((const uint8_t *)sentence + n, 40 + n, room);
        emit_text(room);
    }
    int counts[26] = {0};
    for (int i = 0; sentence[i] != 0; i++)
        if (sentence[i] >= 'a') counts[sentence[i] - 'a']++;
    for (int i = 0; i < 26; i++) emit((uint32_t)counts[i]);
    uint8_t *bytes = (uint8_t *)block;
    moved(bytes + 5, bytes, 1000);
    moved(bytes + 2000, bytes + 2003, 1001);
}
