// Times the proved reader against the plain one in C on texts of 65,536 bytes, and compares the trees: reading PROGRAM [TIMES [ROUNDS]].
#define _DEFAULT_SOURCE
#include <math.h>
#include <stdio.h>
#include <stdlib.h>
#include <string.h>
#include <sys/resource.h>
#include <sys/wait.h>
#include <time.h>
#include <unistd.h>

#include "reader.h"

enum { SIZE = 65536, MOST_RUNNERS = 3 };

static const char alarm_text[] =
    "var smoke: int[4];\nvar door: int[2];\nfn alarm(z: int): bool { return smoke[z] >= 70 || smoke[z] < 0; }\nfn main() {\n"
    "  let n: int = 0;\n  let z: int = 0;\n  while z < 4 {\n    if alarm(z) { n = n + 1; emit z; }\n    z = z + 1;\n  }\n"
    "  if n >= 2 { door[0] = 1; door[1] = 1; emit 100; }\n  else { if n == 1 { door[0] = 1; } }\n}\n";
static const char dense_text[] = "fn f(){a=1;a=b;c=d;a=1;a=b;c=d;a=1;a=b;c=d;a=1;a=b;c=d;}";

typedef struct {
    const char *name;
    Reader *read;
    double best;
} Runner;

static Runner runners[MOST_RUNNERS];
static int runner_count;
static char text[SIZE + 1];
static uint32_t room[TOKEN_ROOM + 3], tree[TREE_ROOM];

static double cpu(void) {
    struct timespec now;
    clock_gettime(CLOCK_PROCESS_CPUTIME_ID, &now);
    return (double)now.tv_sec + (double)now.tv_nsec * 1e-9;
}

// The text: copies, and blanks up to the size.
static void fill(const char *piece) {
    size_t n = strlen(piece), at = 0;
    memset(text, ' ', SIZE);
    for (; at + n <= SIZE; at += n) memcpy(text + at, piece, n);
}

// The request to read the text so many times, as the program takes it on a line.
static FILE *request(unsigned long times) {
    FILE *file = tmpfile();
    if (file == NULL) exit(1);
    fprintf(file, "m %lx ", times);
    for (size_t i = 0; i < SIZE; i++) {
        if (text[i] == '\n') fputs("\\n", file);
        else fputc(text[i], file);
    }
    fputc('\n', file);
    fflush(file);
    return file;
}

// What the program answers, and the processor time that it took.
static double answered(const char *program, unsigned long times, char *answer, size_t size) {
    FILE *in = request(times), *out = tmpfile();
    struct rusage used;
    int status;
    if (out == NULL) exit(1);
    pid_t child = fork();
    if (child == 0) {
        lseek(fileno(in), 0, SEEK_SET);
        dup2(fileno(in), 0);
        dup2(fileno(out), 1);
        execl(program, program, (char *)NULL);
        _exit(127);
    }
    if (child < 0 || wait4(child, &status, 0, &used) != child || status != 0) {
        fprintf(stderr, "reading: %s did not run\n", program);
        exit(1);
    }
    rewind(out);
    if (fgets(answer, (int)size, out) == NULL) answer[0] = 0;
    fclose(in);
    fclose(out);
    return (double)(used.ru_utime.tv_sec + used.ru_stime.tv_sec) + (double)(used.ru_utime.tv_usec + used.ru_stime.tv_usec) * 1e-6;
}

static double timed(Runner *runner, unsigned long times, char *answer, size_t size) {
    size_t words = 0, items = 0;
    uint32_t sum = 0;
    double began = cpu();
    for (unsigned long i = 0; i < times; i++) words = runner->read(text, SIZE, room, tree, &items);
    double took = cpu() - began;
    if (words == (size_t)-1) {
        snprintf(answer, size, "unreadable\n");
        return took;
    }
    for (size_t i = 0; i < words; i++) sum = sum * 31 + tree[i];
    snprintf(answer, size, "tree of %zu words %zu sum %08x\n", items, words, sum);
    return took;
}

// The scale: a pass over the text that only looks for semicolons.
static double passed(unsigned long times, size_t *seen) {
    double began = cpu();
    for (unsigned long i = 0; i < times; i++)
        for (const char *p = text; (p = memchr(p, ';', (size_t)(text + SIZE - p))) != NULL; p++) ++*seen;
    return cpu() - began;
}

static void say(const char *name, double seconds, unsigned long times) {
    printf("  %-12s %8.3f s %9.1f MB/s\n", name, seconds, (double)times * SIZE / seconds * 1e-6);
}

static int compare(const char *title, const char *piece, const char *program, unsigned long times, int rounds) {
    char proved[100], other[100];
    double best = INFINITY, pass = INFINITY, faster = INFINITY;
    size_t seen = 0;
    fill(piece);
    for (int i = 0; i < runner_count; i++) runners[i].best = INFINITY;
    for (int round = 0; round < rounds; round++) {
        best = fmin(best, answered(program, times, proved, sizeof proved));
        for (int i = 0; i < runner_count; i++) {
            runners[i].best = fmin(runners[i].best, timed(&runners[i], times, other, sizeof other));
            if (strcmp(proved, other) != 0) {
                printf("%s: the proved reader says %s%s says %s", title, proved, runners[i].name, other);
                return 1;
            }
        }
        pass = fmin(pass, passed(times, &seen));
    }
    printf("%s: %s", title, proved);
    say("proved", best, times);
    for (int i = 0; i < runner_count; i++) {
        say(runners[i].name, runners[i].best, times);
        faster = fmin(faster, runners[i].best);
    }
    say("memchr", pass, times);
    printf("  proved to the faster in C: %.2f; semicolons passed: %zu\n", best / faster, seen);
    return 0;
}

int main(int argc, char **argv) {
    unsigned long times = argc > 2 ? strtoul(argv[2], NULL, 10) : 1000;
    int rounds = argc > 3 ? atoi(argv[3]) : 7;
    if (argc < 2 || times == 0 || rounds < 1) {
        fprintf(stderr, "usage: reading PROGRAM [TIMES [ROUNDS]]\n");
        return 1;
    }
#ifdef WITH_GCC
    runners[runner_count++] = (Runner){.name = "C by gcc", .read = reader_gcc};
#endif
#ifdef WITH_CLANG
    runners[runner_count++] = (Runner){.name = "C by clang", .read = reader_clang};
#endif
    printf("%lu times %d bytes, best of %d rounds\n", times, SIZE, rounds);
    return compare("text Z, over and over", alarm_text, argv[1], times, rounds) || compare("short tokens", dense_text, argv[1], times, rounds);
}
