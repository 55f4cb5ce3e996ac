// A program that stops with a trap, deep in calls, after it has emitted and stored.
#include "panel.h"

static uint32_t descend(uint32_t *block, uint32_t n) {
    emit(n);
    block[n] = n * n;
    if (n == 37) trap(n - 30);
    return descend(block, n + 1) + n;
}

void program(uint32_t *block) {
    block[0] = 1;
    emit(descend(block, 1));
}
