// Runs an image on the proved emulator, and writes its log, how it stopped, and its block: runner CODE DATA. The input block is the
// program's block, then DATA (its constants and variables). Its steps and sizes go to standard error.
#include <stdio.h>
#include <stdlib.h>
#include <string.h>

#include "block.h"
#include "emulator_c.h"

enum { LOG_ROOM = 1 << 20, BLOCK_BYTES = BLOCK_WORDS * 4, BLOCK_START = 0x100000 };

static const uint64_t limit = 1000000000;

static uint8_t memory[PANEL_MEMORY], code[PANEL_CODE], input[PANEL_INPUT];
static uint32_t registers[PANEL_REGISTERS], log_words[LOG_ROOM];

// The bytes of a file, padded to whole words.
static size_t read_file(const char *name, uint8_t *bytes, size_t room) {
    FILE *file = fopen(name, "rb");
    if (file == NULL) {
        perror(name);
        exit(1);
    }
    size_t size = fread(bytes, 1, room, file);
    if (fgetc(file) != EOF) {
        fprintf(stderr, "%s: longer than %zu bytes\n", name, room);
        exit(1);
    }
    fclose(file);
    return (size + 3) / 4 * 4;
}

int main(int count, char **words) {
    if (count != 3) {
        fprintf(stderr, "usage: runner CODE DATA\n");
        return 1;
    }
    size_t code_size = read_file(words[1], code, sizeof code);
    fill_block((uint32_t *)input);
    size_t input_size = BLOCK_BYTES + read_file(words[2], input + BLOCK_BYTES, sizeof input - BLOCK_BYTES);
    uint32_t pc, number;
    size_t logged;
    uint64_t steps;
    uint32_t stop = panel_run(code, code_size, input, input_size, memory, sizeof memory, registers, PANEL_REGISTERS, log_words, LOG_ROOM,
                              limit, &pc, &logged, &steps, &number);
    for (size_t i = 0; i < logged; i++) printf("log %u\n", log_words[i]);
    switch (stop) {
    case PANEL_EXIT: printf("stop exit\n"); break;
    case PANEL_TRAP: printf("stop trap %u\n", number); break;
    case PANEL_FAULT: printf("stop fault %u at %x\n", number, pc); break;
    case PANEL_LIMIT: printf("stop limit\n"); break;
    default: printf("stop unknown\n"); break;
    }
    const uint32_t *block = (const uint32_t *)(memory + BLOCK_START);
    for (int i = 0; i < BLOCK_WORDS; i++) printf("block %d %u\n", i, block[i]);
    fprintf(stderr, "%6zu words of code, %9llu steps, %6zu words of log", code_size / 4, (unsigned long long)steps, logged);
}
