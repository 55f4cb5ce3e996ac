// Runs a program natively, and writes its log, how it stopped, and its block.
#include <stdio.h>
#include <stdlib.h>

#include "panel.h"

static uint32_t block[BLOCK_WORDS];

static _Noreturn void stopped(void) {
    for (int i = 0; i < BLOCK_WORDS; i++) printf("block %d %u\n", i, block[i]);
    exit(0);
}

void emit(uint32_t value) { printf("log %u\n", value); }

_Noreturn void trap(uint32_t number) {
    printf("stop trap %u\n", number);
    stopped();
}

int main(void) {
    fill_block(block);
    program(block);
    printf("stop exit\n");
    stopped();
}
