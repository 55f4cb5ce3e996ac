// A panel's program that embeds the tool chain: it runs texts at both ends, and shows each answer of each function of include/doorlang.h, with what is
// told and what stays as it was. Before every call all results and figures are filled with a pattern.
#include <stdio.h>
#include <string.h>

#include "doorlang.h"

static int passed, failed;

static void expect(int holds, const char *what) {
    if (holds) {
        passed++;
    } else {
        failed++;
        printf("FAILED: %s\n", what);
    }
}

// What is lent: working room, and room for results.
enum { ROOM = 4, PATTERN = 0xa5 };
static uint32_t tokens[DOORLANG_TOKENS], tree[DOORLANG_TREE], starts[DOORLANG_STARTS], core[DOORLANG_CORE];
static uint32_t arrays[DOORLANG_ELEMENTS], logs[ROOM], registers[DOORLANG_REGISTERS];
static uint8_t image[DOORLANG_CODE], memory[DOORLANG_MEMORY];

// How much of it is lent, and what bounds a run: a test takes the usual, and changes what it is about.
struct terms {
    size_t tokens, tree, starts, core, arrays, logs, room, registers, image, memory;
    uint64_t fuel, limit;
};
static const struct terms usual = {
    DOORLANG_TOKENS, DOORLANG_TREE,      DOORLANG_STARTS, DOORLANG_CORE,   DOORLANG_ELEMENTS, ROOM,
    ROOM,            DOORLANG_REGISTERS, DOORLANG_CODE,   DOORLANG_MEMORY, 1000,              1000000,
};
static struct terms lent;

// What is told.
struct figures {
    uint64_t fuel_left, steps;
    size_t logged, place, elements, size;
    uint32_t outcome, stop, number, pc;
};
static struct figures told;

static struct figures untold(void) {
    struct figures f;
    memset(&f, PATTERN, sizeof f);
    return f;
}

static int tells(struct figures f) { return memcmp(&told, &f, sizeof f) == 0; }

static void fill(void) {
    memset(arrays, PATTERN, sizeof arrays);
    memset(logs, PATTERN, sizeof logs);
    memset(registers, PATTERN, sizeof registers);
    memset(image, PATTERN, sizeof image);
    memset(memory, PATTERN, sizeof memory);
    told = untold();
}

// Whether a buffer of so many bytes has the pattern from one byte on.
static int kept(const void *buffer, size_t size, size_t from) {
    const uint8_t *bytes = buffer;
    while (from < size && bytes[from] == PATTERN) {
        from++;
    }
    return from >= size;
}

static int results_kept(void) {
    return kept(arrays, sizeof arrays, 0) && kept(logs, sizeof logs, 0) && kept(registers, sizeof registers, 0) && kept(image, sizeof image, 0)
        && kept(memory, sizeof memory, 0);
}

// A refusal tells nothing, or the place and nothing else.
static int nothing_told(void) { return results_kept() && tells(untold()); }

static int only_place(size_t place) {
    struct figures f = untold();
    f.place = place;
    return results_kept() && tells(f);
}

static uint32_t check(const char *text, size_t size) {
    fill();
    return doorlang_check((const uint8_t *)text, size, tokens, lent.tokens, tree, lent.tree, starts, lent.starts, core, lent.core, &told.place,
                          &told.elements);
}

static uint32_t interpret(const char *text, const void *input, size_t input_size) {
    fill();
    return doorlang_interpret((const uint8_t *)text, strlen(text), input, input_size, arrays, lent.arrays, logs, lent.logs, lent.room, lent.fuel,
                              tokens, lent.tokens, tree, lent.tree, starts, lent.starts, core, lent.core, &told.outcome, &told.number,
                              &told.fuel_left, &told.logged, &told.place);
}

static uint32_t compile(const char *text) {
    fill();
    return doorlang_compile((const uint8_t *)text, strlen(text), image, lent.image, tokens, lent.tokens, tree, lent.tree, starts, lent.starts, core,
                            lent.core, &told.size, &told.place);
}

static uint32_t emulate(const void *code, size_t code_size, const void *input, size_t input_size) {
    fill();
    return doorlang_emulate(code, code_size, input, input_size, memory, lent.memory, registers, lent.registers, logs, lent.logs, lent.room, lent.limit,
                            &told.stop, &told.number, &told.pc, &told.steps, &told.logged);
}

// Texts of document 01 §6, and some that are refused.
static const char text_g[] =
    "fn gcd(a: int, b: int): int {\n"
    "  while b != 0 { let t: int = a % b; a = b; b = t; }\n"
    "  return a;\n"
    "}\n"
    "fn main() { emit gcd(12, 18); emit gcd(-12, 18); emit gcd(5, 0); }\n";
static const char text_z[] =
    "var smoke: int[4];\n"
    "var door: int[2];\n"
    "fn alarm(z: int): bool { return smoke[z] >= 70 || smoke[z] < 0; }\n"
    "fn main() {\n"
    "  let n: int = 0;\n"
    "  let z: int = 0;\n"
    "  while z < 4 {\n"
    "    if alarm(z) { n = n + 1; emit z; }\n"
    "    z = z + 1;\n"
    "  }\n"
    "  if n >= 2 { door[0] = 1; door[1] = 1; emit 100; }\n"
    "  else { if n == 1 { door[0] = 1; } }\n"
    "}\n";
static const char division[] = "fn main() { emit 1; emit 7 / (3 - 3); emit 2; }";
static const char endless[] = "fn main() { while true { } }";
static const char unreadable[] = "fn Main() { }";
static const char cut_short[] = "fn main() { ";
static const char broken[] = "fn main() { emit x; }";
static const uint32_t smoke[] = {99, 20, 0xffffffff, 5, 0, 0};
static const uint32_t released[] = {99, 20, 0xffffffff, 5, 1, 1};

static void test_check(void) {
    static char longest[DOORLANG_TEXT + 1];
    struct figures f = untold();
    lent = usual;
    memset(longest, ' ', sizeof longest);
    memcpy(longest, endless, strlen(endless));

    f.elements = 0;
    expect(check(text_g, strlen(text_g)) == DOORLANG_ACCEPTED && tells(f) && results_kept(), "check: text G, which has no arrays");
    expect(check(longest, DOORLANG_TEXT) == DOORLANG_ACCEPTED && tells(f) && results_kept(), "check: the longest text");
    f.elements = 6;
    expect(check(text_z, strlen(text_z)) == DOORLANG_ACCEPTED && tells(f) && results_kept(), "check: text Z, which has 6 elements");
    expect(check(longest, DOORLANG_TEXT + 1) == DOORLANG_UNREADABLE && only_place(DOORLANG_TEXT), "check: answer 1, too long a text");
    expect(check(unreadable, strlen(unreadable)) == DOORLANG_UNREADABLE && only_place(3), "check: answer 1, a capital letter");
    expect(check(cut_short, strlen(cut_short)) == DOORLANG_UNREADABLE && only_place(strlen(cut_short)), "check: answer 1, the text ends too soon");
    expect(check(broken, strlen(broken)) == DOORLANG_BROKEN && only_place(17), "check: answer 2, no such name");
    expect(check(broken, 0) == DOORLANG_BROKEN && only_place(0), "check: answer 2, an empty text has no main");
}

static void test_interpret(void) {
    static const uint32_t log_g[] = {6, 6, 5}, log_z[] = {0, 2, 100};
    struct figures f = untold();
    lent = usual;

    f.outcome = DOORLANG_FINISHED, f.number = 0, f.fuel_left = 1000 - 97, f.logged = 3;
    expect(interpret(text_g, smoke, 0) == DOORLANG_ACCEPTED && tells(f), "interpret: text G finishes, with fuel 97");
    expect(memcmp(logs, log_g, sizeof log_g) == 0 && kept(logs, sizeof logs, 12) && kept(arrays, sizeof arrays, 0), "interpret: the log of text G");
    f.fuel_left = 1000 - 108;
    expect(interpret(text_z, smoke, sizeof smoke) == DOORLANG_ACCEPTED && tells(f), "interpret: text Z finishes, with fuel 108");
    expect(memcmp(logs, log_z, sizeof log_z) == 0 && kept(logs, sizeof logs, 12), "interpret: the log of text Z");
    expect(memcmp(arrays, released, sizeof released) == 0 && kept(arrays, sizeof arrays, sizeof released), "interpret: the arrays of text Z");
    f.outcome = DOORLANG_TRAPPED, f.number = DOORLANG_DIVISION, f.fuel_left = 1000 - 8, f.logged = 1;
    expect(interpret(division, smoke, 0) == DOORLANG_ACCEPTED && tells(f), "interpret: trap 1, with fuel 8");
    expect(logs[0] == 1 && kept(logs, sizeof logs, 4), "interpret: the log of trap 1");
    f.outcome = DOORLANG_OUT_OF_FUEL, f.number = 0, f.fuel_left = 0, f.logged = 0;
    expect(interpret(endless, smoke, 0) == DOORLANG_ACCEPTED && tells(f) && kept(logs, sizeof logs, 0), "interpret: out of fuel");
    lent.room = 0;
    f.outcome = DOORLANG_TRAPPED, f.number = DOORLANG_LOG_FULL, f.fuel_left = 1000 - 2;
    expect(interpret(division, smoke, 0) == DOORLANG_ACCEPTED && tells(f) && kept(logs, sizeof logs, 0), "interpret: trap 4");
}

static void test_interpret_refuses(void) {
    lent = usual;
    expect(interpret(unreadable, smoke, 3) == DOORLANG_UNREADABLE && only_place(3), "interpret: answer 1");
    expect(interpret(broken, smoke, 3) == DOORLANG_BROKEN && only_place(17), "interpret: answer 2");
    expect(interpret(text_z, smoke, 3) == DOORLANG_BAD_INPUT && nothing_told(), "interpret: answer 5, a block that is not whole words");
    expect(interpret(text_z, smoke, 20) == DOORLANG_BAD_INPUT && nothing_told(), "interpret: answer 5, a word too few");
    expect(interpret(text_g, smoke, 4) == DOORLANG_BAD_INPUT && nothing_told(), "interpret: answer 5, a word too many");
    lent.arrays = 5;
    expect(interpret(text_z, smoke, sizeof smoke) == DOORLANG_NO_ROOM && nothing_told(), "interpret: answer 6, arrays");
    lent = usual, lent.room = ROOM + 1;
    expect(interpret(text_z, smoke, sizeof smoke) == DOORLANG_NO_ROOM && nothing_told(), "interpret: answer 6, log");
}

static void test_compile(void) {
    struct figures f = untold();
    size_t size;
    lent = usual;

    expect(compile(text_g) == DOORLANG_ACCEPTED && told.size > 0 && told.size % 4 == 0 && told.size < 600, "compile: text G is some words");
    size = f.size = told.size;
    expect(tells(f) && kept(image, sizeof image, size) && !kept(image, size, size - 4), "compile: nothing beyond the image is written");
    lent.image = size;
    expect(compile(text_g) == DOORLANG_ACCEPTED && tells(f), "compile: an image as long as its buffer");
    lent.image = size - 1;
    expect(compile(text_g) == DOORLANG_TOO_LONG && nothing_told(), "compile: answer 3, a byte too few");
    lent.image = 0;
    expect(compile(text_g) == DOORLANG_TOO_LONG && nothing_told(), "compile: answer 3, no buffer");
    expect(compile(unreadable) == DOORLANG_UNREADABLE && only_place(3), "compile: answer 1");
    expect(compile(broken) == DOORLANG_BROKEN && only_place(17), "compile: answer 2");
}

// Working room that is a word short is answer 6 at once, whichever buffer it is and whatever the text.
static void test_working_room(void) {
    size_t *const sizes[] = {&lent.tokens, &lent.tree, &lent.starts, &lent.core};
    size_t i;
    for (i = 0; i < 4; i++) {
        lent = usual;
        --*sizes[i];
        expect(check(unreadable, strlen(unreadable)) == DOORLANG_NO_ROOM && nothing_told(), "check: answer 6, working room");
        expect(interpret(broken, smoke, 3) == DOORLANG_NO_ROOM && nothing_told(), "interpret: answer 6, working room");
        expect(compile(text_g) == DOORLANG_NO_ROOM && nothing_told(), "compile: answer 6, working room");
    }
}

// Document 03: lui x5, 0x100; lw x10, 0(x5); addi x10, x10, 1; sw x10, 4(x5); emit x10; exit. Then each other stop.
static const uint32_t next[] = {0x001002b7, 0x0002a503, 0x00150513, 0x00a2a223, 0x00100893, 0x00000073, 0x00000893, 0x00000073};
static const uint32_t trap[] = {0x00200893, 0x00700513, 0x00000073};
static const uint32_t unknown[] = {0};
static const uint32_t loop[] = {0x0000006f};

static void test_emulate(void) {
    static const uint32_t block[] = {41, 0};
    struct figures f = untold();
    uint32_t second;
    lent = usual;

    f.stop = DOORLANG_EXIT, f.number = 0, f.pc = 0x101c, f.steps = 8, f.logged = 1;
    expect(emulate(next, sizeof next, block, sizeof block) == DOORLANG_ACCEPTED && tells(f), "emulate: exit after 8 steps");
    expect(logs[0] == 42 && kept(logs, sizeof logs, 4), "emulate: the log is 42, and no more is written");
    memcpy(&second, memory + DOORLANG_ARRAYS + 4, 4);
    expect(registers[0] == 0 && registers[10] == 42 && second == 42, "emulate: registers and memory");
    f.stop = DOORLANG_TRAP, f.number = 7, f.pc = 0x1008, f.steps = 3, f.logged = 0;
    expect(emulate(trap, sizeof trap, block, 0) == DOORLANG_ACCEPTED && tells(f), "emulate: trap 7");
    f.stop = DOORLANG_FAULT, f.number = 2, f.pc = 0x1000, f.steps = 1;
    expect(emulate(unknown, sizeof unknown, block, 0) == DOORLANG_ACCEPTED && tells(f), "emulate: fault 2");
    f.stop = DOORLANG_LIMIT, f.number = 0, f.steps = lent.limit = 100;
    expect(emulate(loop, sizeof loop, block, 0) == DOORLANG_ACCEPTED && tells(f), "emulate: limit");
    lent.room = 0;
    f.stop = DOORLANG_TRAP, f.number = DOORLANG_LOG_FULL, f.pc = 0x1014, f.steps = 6;
    expect(emulate(next, sizeof next, block, sizeof block) == DOORLANG_ACCEPTED && tells(f), "emulate: trap 4");
}

static void test_emulate_refuses(void) {
    static const uint8_t much[DOORLANG_INPUT + 4];
    lent = usual;
    expect(emulate(next, 3, smoke, 3) == DOORLANG_BAD_CODE && nothing_told(), "emulate: answer 4, code that is not whole words");
    expect(emulate(much, DOORLANG_CODE + 4, smoke, 0) == DOORLANG_BAD_CODE && nothing_told(), "emulate: answer 4, too long a code");
    expect(emulate(next, sizeof next, smoke, 5) == DOORLANG_BAD_INPUT && nothing_told(), "emulate: answer 5, a block that is not whole words");
    expect(emulate(next, sizeof next, much, sizeof much) == DOORLANG_BAD_INPUT && nothing_told(), "emulate: answer 5, too long a block");
    lent.memory--;
    expect(emulate(next, sizeof next, smoke, 0) == DOORLANG_NO_ROOM && nothing_told(), "emulate: answer 6, memory");
    lent = usual, lent.registers--;
    expect(emulate(next, sizeof next, smoke, 0) == DOORLANG_NO_ROOM && nothing_told(), "emulate: answer 6, registers");
    lent = usual, lent.room = ROOM + 1;
    expect(emulate(next, sizeof next, smoke, 0) == DOORLANG_NO_ROOM && nothing_told(), "emulate: answer 6, log");
}

// A text that ends does so in the same way at both ends, in at most the steps that are stated for its fuel.
static void both_ends(const char *text, const void *input, size_t input_size, const char *what) {
    static uint32_t source_arrays[DOORLANG_ELEMENTS], source_log[ROOM];
    static uint8_t code[DOORLANG_CODE];
    struct figures source;
    size_t size;
    uint32_t stop;
    lent = usual, lent.fuel = 1000000, lent.limit = DOORLANG_STEPS_FOR_FUEL * lent.fuel + DOORLANG_STEPS_BESIDES;

    if (interpret(text, input, input_size) != DOORLANG_ACCEPTED) {
        expect(0, what);
        return;
    }
    source = told;
    stop = source.outcome == DOORLANG_FINISHED ? DOORLANG_EXIT : DOORLANG_TRAP;
    memcpy(source_arrays, arrays, sizeof arrays);
    memcpy(source_log, logs, sizeof logs);
    if (compile(text) != DOORLANG_ACCEPTED) {
        expect(0, what);
        return;
    }
    size = told.size;
    memcpy(code, image, size);
    expect(emulate(code, size, input, input_size) == DOORLANG_ACCEPTED && told.stop == stop && told.number == source.number
               && told.steps <= DOORLANG_STEPS_FOR_FUEL * (lent.fuel - source.fuel_left) + DOORLANG_STEPS_BESIDES && told.logged == source.logged
               && memcmp(logs, source_log, sizeof logs) == 0 && memcmp(memory + DOORLANG_ARRAYS, source_arrays, input_size) == 0,
           what);
}

// A piece n times, another once, and a third n times, within a text.
static const char *nested(const char *before, const char *opened, int n, const char *inside, const char *closed, const char *after) {
    static char text[DOORLANG_TEXT + 1];
    size_t size = (size_t)sprintf(text, "%s", before);
    int i;
    for (i = 0; i < n; i++) {
        size += (size_t)sprintf(text + size, "%s", opened);
    }
    size += (size_t)sprintf(text + size, "%s", inside);
    for (i = 0; i < n; i++) {
        size += (size_t)sprintf(text + size, "%s", closed);
    }
    sprintf(text + size, "%s", after);
    return text;
}

// The deepest and the longest texts, for which the stack that the header asks for is enough: tests/embedding/run gives no more.
static void test_deep(void) {
    both_ends(nested("fn f(n: int) { ", "while n > 0 { ", 29, "f(n - 1); return; ", "} ", "} fn main() { f(62); emit 1; }"), smoke, 0,
              "deep: 64 activations, each call within 29 loops");
    both_ends(nested("fn main() { emit ", "(", 31, "1", ")", "; }"), smoke, 0, "deep: 31 parentheses");
    both_ends(nested("fn main() { let a: int = 1; emit ", "a * (a - ", 31, "a", ")", "; }"), smoke, 0, "deep: operands that wait");
    both_ends(nested("fn main() { emit 1", "+1", 32700, "", "", "; }"), smoke, 0, "long: a chain of operators");
    both_ends(nested("fn main() { let a: int = 0; ", "a=1;", 16370, "", "", "}"), smoke, 0, "long: a block of statements");
    both_ends(nested("fn f(): bool { return true; } fn main() { if f()", "&&f()", 13000, "", "", "{ emit 1; } }"), smoke, 0, "long: a chain of conditions");
}

// The example of include/doorlang.h, which tests/embedding/run takes from there.
static void test_example(void) {
#include "example.inc"
    expect(answer == DOORLANG_ACCEPTED && stop == DOORLANG_EXIT && logged == 1 && log[0] == 100 && memory[DOORLANG_ARRAYS + 4] == 1,
           "the header's example");
}

int main(void) {
    test_check();
    test_interpret();
    test_interpret_refuses();
    test_compile();
    test_working_room();
    test_emulate();
    test_emulate_refuses();
    both_ends(text_g, smoke, 0, "both ends: text G");
    both_ends(text_z, smoke, sizeof smoke, "both ends: text Z");
    both_ends(division, smoke, 0, "both ends: trap 1");
    both_ends("fn main() { while true { emit 1; } }", smoke, 0, "both ends: trap 4");
    test_deep();
    test_example();

    printf("%d passed, %d failed\n", passed, failed);
    return failed != 0;
}
