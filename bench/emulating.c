// Times the proved emulator against the C interpreter on one image, and compares where they end.
#define _POSIX_C_SOURCE 199309L
#include <math.h>
#include <stdio.h>
#include <stdlib.h>
#include <string.h>
#include <time.h>

#include "emulator_c.h"
#include "image.h"

enum { COUNT = 1000, LOG_ROOM = 4096, MOST_RUNNERS = 4 };

typedef uint32_t Run(const uint8_t *code, size_t code_size, const uint8_t *input, size_t input_size, uint8_t *memory, size_t memory_size,
                     uint32_t *registers, size_t register_count, uint32_t *log, size_t log_room, uint64_t limit, uint32_t *pc,
                     size_t *logged, uint64_t *steps, uint32_t *number);

Run interpreter_gcc, interpreter_clang;

// Where a run ended: all of the machine.
typedef struct {
    uint8_t memory[PANEL_MEMORY];
    uint32_t registers[PANEL_REGISTERS];
    uint32_t log[LOG_ROOM];
    size_t logged;
    uint64_t steps;
    uint32_t pc, stop, number;
} End;

typedef struct {
    const char *name;
    Run *run;
    double best;
    End end;
} Runner;

static Runner runners[MOST_RUNNERS];
static int runner_count;

static void add_runner(const char *name, Run *run) { runners[runner_count++] = (Runner){.name = name, .run = run, .best = INFINITY}; }

static double seconds(void) {
    struct timespec now;
    clock_gettime(CLOCK_PROCESS_CPUTIME_ID, &now);
    return (double)now.tv_sec + (double)now.tv_nsec * 1e-9;
}

// The words to be sorted: the same at every run.
static void fill(uint32_t *input) {
    uint32_t seed = 2463534242u;
    for (int i = 0; i < COUNT; i++) {
        seed ^= seed << 13;
        seed ^= seed >> 17;
        seed ^= seed << 5;
        input[i] = seed;
    }
}

static double timed(Runner *runner, const uint32_t *input, uint64_t limit) {
    End *end = &runner->end;
    memset(end, 0, sizeof *end);
    double began = seconds();
    end->stop = runner->run((const uint8_t *)image, sizeof image, (const uint8_t *)input, COUNT * 4, end->memory, PANEL_MEMORY,
                            end->registers, PANEL_REGISTERS, end->log, LOG_ROOM, limit, &end->pc, &end->logged, &end->steps,
                            &end->number);
    return seconds() - began;
}

static int same(const End *a, const End *b) {
    return memcmp(a->memory, b->memory, PANEL_MEMORY) == 0 && memcmp(a->registers, b->registers, sizeof a->registers) == 0 &&
           a->logged == b->logged && memcmp(a->log, b->log, sizeof a->log) == 0 && a->steps == b->steps && a->pc == b->pc &&
           a->stop == b->stop && a->number == b->number;
}

static double average_load(void) {
    double load = -1;
    FILE *file = fopen("/proc/loadavg", "r");
    if (file != NULL) {
        if (fscanf(file, "%lf", &load) != 1) load = -1;
        fclose(file);
    }
    return load;
}

int main(int count, char **words) {
    uint64_t limit = count > 1 ? strtoull(words[1], NULL, 10) : 100000000;
    int rounds = count > 2 ? atoi(words[2]) : 7;
    double target = 1.5;
    uint32_t input[COUNT];
    fill(input);
    add_runner("proved emulator", panel_run);
#ifdef WITH_GCC
    add_runner("C, gcc -O2", interpreter_gcc);
#endif
#ifdef WITH_CLANG
    add_runner("C, clang -O2", interpreter_clang);
#endif
    printf("%llu steps, %d rounds, best of each; load at the start %.2f\n", (unsigned long long)limit, rounds, average_load());
    for (int round = 1; round <= rounds; round++) {
        double fastest = INFINITY, proved = 0;
        for (int k = 0; k < runner_count; k++) {
            double time = timed(&runners[k], input, limit);
            if (time < runners[k].best) runners[k].best = time;
            if (k == 0) proved = time;
            else if (time < fastest) fastest = time;
        }
        printf("round %d: proved %.3f s, C %.3f s, ratio %.2f\n", round, proved, fastest, proved / fastest);
    }
    double fastest = INFINITY;
    int different = 0;
    for (int k = 0; k < runner_count; k++) {
        const Runner *r = &runners[k];
        int agrees = same(&r->end, &runners[0].end);
        if (k > 0 && r->best < fastest) fastest = r->best;
        if (!agrees) different = 1;
        printf("%-16s %.3f s, %6.1f million steps a second; stop %u, pc %x, %llu steps, %zu words of log%s\n", r->name, r->best,
               (double)r->end.steps / r->best / 1e6, r->end.stop, r->end.pc, (unsigned long long)r->end.steps, r->end.logged,
               agrees ? "" : ": DIFFERENT");
    }
    double ratio = runners[0].best / fastest;
    printf("load at the end %.2f\n", average_load());
    printf("ratio of the best times, proved to the faster C: %.2f (to reach: at most %.1f)\n", ratio, target);
    if (different) return 1;
    return ratio > target ? 2 : 0;
}
