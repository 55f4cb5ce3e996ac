// Recursion: with one and two calls, with many parameters, of two functions by each other, and deep.
#include "panel.h"

static uint32_t fibonacci(uint32_t n) { return n < 2 ? n : fibonacci(n - 1) + fibonacci(n - 2); }

static uint32_t ackermann(uint32_t m, uint32_t n) {
    return m == 0 ? n + 1 : n == 0 ? ackermann(m - 1, 1) : ackermann(m - 1, ackermann(m, n - 1));
}

static uint32_t moves;

static void hanoi(uint32_t n, uint32_t from, uint32_t to, uint32_t by) {
    if (n == 0) return;
    hanoi(n - 1, from, by, to);
    moves = moves * 7 + from * 3 + to;
    hanoi(n - 1, by, to, from);
}

static int odd(uint32_t n);
static int even(uint32_t n) { return n == 0 ? 1 : odd(n - 1); }
static int odd(uint32_t n) { return n == 0 ? 0 : even(n - 1); }

static uint32_t many(uint32_t a, uint32_t b, uint32_t c, uint32_t d, uint32_t e, uint32_t f, uint32_t g, uint32_t h, uint32_t i, uint32_t j) {
    if (a == 0) return b + 2 * c + 3 * d + 4 * e + 5 * f + 6 * g + 7 * h + 8 * i + 9 * j;
    return many(a - 1, j, b, c, d, e, f, g, h, i) + a;
}

static void permutations(uint32_t *items, int from, int count, uint32_t *sum) {
    if (from == count) {
        uint32_t value = 0;
        for (int i = 0; i < count; i++) value = value * 10 + items[i];
        *sum = *sum * 31 + value;
        return;
    }
    for (int i = from; i < count; i++) {
        uint32_t t = items[from];
        items[from] = items[i], items[i] = t;
        permutations(items, from + 1, count, sum);
        t = items[from];
        items[from] = items[i], items[i] = t;
    }
}

static int queens(int row, uint32_t columns, uint32_t left, uint32_t right) {
    if (row == 7) return 1;
    int count = 0;
    for (int i = 0; i < 7; i++) {
        uint32_t bit = 1u << i;
        if ((columns | left | right) & bit) continue;
        count += queens(row + 1, columns | bit, (left | bit) << 1, (right | bit) >> 1);
    }
    return count;
}

void program(uint32_t *block) {
    for (uint32_t n = 0; n < 18; n++) emit(fibonacci(n));
    for (uint32_t n = 0; n < 4; n++) emit(ackermann(2, n)), emit(ackermann(3, n));
    hanoi(10, 1, 2, 3);
    emit(moves);
    emit((uint32_t)even(1000)), emit((uint32_t)odd(501));
    emit(many(20, block[0], block[1], block[2], block[3], block[4], block[5], block[6], block[7], block[8]));
    uint32_t items[6] = {1, 2, 3, 4, 5, 6}, sum = 0;
    permutations(items, 0, 6, &sum);
    emit(sum);
    emit((uint32_t)queens(0, 0, 0, 0));
    block[0] = sum;
}
