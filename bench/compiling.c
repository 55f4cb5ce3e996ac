// Times `doorlang_check` and `doorlang_compile` on a file's text: compiling TEXT TIMES. Prints the seconds of each, and the words of the image.
#define _POSIX_C_SOURCE 199309L
#include <stdio.h>
#include <stdlib.h>
#include <time.h>

#include "doorlang.h"

static uint8_t text[DOORLANG_TEXT + 1], image[DOORLANG_CODE];
static uint32_t tokens[DOORLANG_TOKENS], tree[DOORLANG_TREE], starts[DOORLANG_STARTS], core[DOORLANG_CORE];

static double cpu(void) {
    struct timespec now;
    clock_gettime(CLOCK_PROCESS_CPUTIME_ID, &now);
    return (double)now.tv_sec + (double)now.tv_nsec * 1e-9;
}

static size_t loaded(const char *name) {
    FILE *file = fopen(name, "rb");
    if (file == NULL) {
        perror(name);
        exit(1);
    }
    size_t size = fread(text, 1, sizeof text, file);
    fclose(file);
    return size;
}

static void expect_accepted(uint32_t answer, size_t place) {
    if (answer == DOORLANG_ACCEPTED) return;
    fprintf(stderr, "compiling: answer %u at byte %zu\n", answer, place);
    exit(1);
}

int main(int argc, char **argv) {
    int times = argc > 2 ? atoi(argv[2]) : 1;
    size_t size = argc > 1 ? loaded(argv[1]) : 0, place = 0, elements = 0, made = 0;
    double began = cpu();
    for (int i = 0; i < times; i++) {
        expect_accepted(doorlang_check(text, size, tokens, DOORLANG_TOKENS, tree, DOORLANG_TREE, starts, DOORLANG_STARTS, core, DOORLANG_CORE, &place,
                                       &elements), place);
    }
    double checked = cpu();
    for (int i = 0; i < times; i++) {
        expect_accepted(doorlang_compile(text, size, image, sizeof image, tokens, DOORLANG_TOKENS, tree, DOORLANG_TREE, starts, DOORLANG_STARTS, core,
                                         DOORLANG_CORE, &made, &place), place);
    }
    printf("%.9f %.9f %zu\n", (checked - began) / times, (cpu() - checked) / times, made / 4);
    return 0;
}
