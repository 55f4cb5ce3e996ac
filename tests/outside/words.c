// Compares decode and encode of crate `processor` with LLVM's disassembler and assembler.
//
//   words sample BINARY            write a sample of words, each followed by a word 0
//   words disassembled BINARY TEXT compare how llvm-objdump reads the sample with how decode does
//   words source TEXT              write every instruction form with edge and random fields, in assembly language
//   words assembled BINARY         compare the words that llvm-mc made of that with decode and encode
//
// The word 0 after each word keeps the disassembler in step: it takes a word whose lower two bits aren't 3 for two bytes long.
#include <inttypes.h>
#include <stdio.h>
#include <stdlib.h>
#include <string.h>

#include "emulator_c.h"

enum { UNIFORM = 200000, IN_TABLE = 200000, ONE_BIT_OFF = 100000, PER_FORM = 2000, SHOWN = 10 };

// How an instruction's operands are written, by its row.
typedef enum { UPPER, JUMP, JUMP_REGISTER, BRANCH, LOAD, STORE, IMMEDIATE, SHIFT, REGISTERS, FENCE, ALONE } Kind;

// A form: a name of document 03 §3's table, with its opcode and the number of the second column.
typedef struct {
    const char *name;
    uint32_t opcode, key;
    Kind kind;
} Form;

static const Form forms[] = {
    {"lui", 0x37, 0, UPPER},          {"auipc", 0x17, 0, UPPER},        {"jal", 0x6f, 0, JUMP},           {"jalr", 0x67, 0, JUMP_REGISTER},
    {"beq", 0x63, 0, BRANCH},         {"bne", 0x63, 1, BRANCH},         {"blt", 0x63, 4, BRANCH},         {"bge", 0x63, 5, BRANCH},
    {"bltu", 0x63, 6, BRANCH},        {"bgeu", 0x63, 7, BRANCH},        {"lb", 0x03, 0, LOAD},            {"lh", 0x03, 1, LOAD},
    {"lw", 0x03, 2, LOAD},            {"lbu", 0x03, 4, LOAD},           {"lhu", 0x03, 5, LOAD},           {"sb", 0x23, 0, STORE},
    {"sh", 0x23, 1, STORE},           {"sw", 0x23, 2, STORE},           {"addi", 0x13, 0, IMMEDIATE},     {"slti", 0x13, 2, IMMEDIATE},
    {"sltiu", 0x13, 3, IMMEDIATE},    {"xori", 0x13, 4, IMMEDIATE},     {"ori", 0x13, 6, IMMEDIATE},      {"andi", 0x13, 7, IMMEDIATE},
    {"slli", 0x13, 1, SHIFT},         {"srli", 0x13, 5, SHIFT},         {"srai", 0x13, 0x105, SHIFT},     {"add", 0x33, 0, REGISTERS},
    {"sub", 0x33, 0x100, REGISTERS},  {"sll", 0x33, 1, REGISTERS},      {"slt", 0x33, 2, REGISTERS},      {"sltu", 0x33, 3, REGISTERS},
    {"xor", 0x33, 4, REGISTERS},      {"srl", 0x33, 5, REGISTERS},      {"sra", 0x33, 0x105, REGISTERS},  {"or", 0x33, 6, REGISTERS},
    {"and", 0x33, 7, REGISTERS},      {"mul", 0x33, 8, REGISTERS},      {"mulh", 0x33, 9, REGISTERS},     {"mulhsu", 0x33, 10, REGISTERS},
    {"mulhu", 0x33, 11, REGISTERS},   {"div", 0x33, 12, REGISTERS},     {"divu", 0x33, 13, REGISTERS},    {"rem", 0x33, 14, REGISTERS},
    {"remu", 0x33, 15, REGISTERS},    {"fence", 0x0f, 0, FENCE},        {"ecall", 0x73, 0, ALONE},        {"ebreak", 0x73, 0, ALONE},
};

enum { FORMS = sizeof forms / sizeof *forms };

// An instruction: a form and its fields, those that it hasn't 0.
typedef struct {
    const Form *form;
    uint32_t rd, rs1, rs2, imm;
} Instruction;

static uint64_t state = 88172645463325252u;

static uint32_t random_word(void) {
    state ^= state << 13;
    state ^= state >> 7;
    state ^= state << 17;
    return (uint32_t)(state >> 16);
}

// ---- What decode says

// The form with these columns; ecall and ebreak are told apart by the immediate.
static const Form *form_of(uint32_t opcode, uint32_t key, uint32_t imm) {
    for (int i = 0; i < FORMS; i++)
        if (forms[i].opcode == opcode && forms[i].key == key) return &forms[i] + (opcode == 0x73 ? imm : 0);
    return NULL;
}

// Whether decode knows the word; its columns must be those of a form.
static int decoded(uint32_t word, Instruction *is) {
    uint32_t opcode, key;
    panel_decode(word, &opcode, &key, &is->rd, &is->rs1, &is->rs2, &is->imm);
    if (opcode == 0) return 0;
    is->form = form_of(opcode, key, is->imm);
    if (is->form == NULL) {
        fprintf(stderr, "word %08" PRIx32 ": decode gives opcode %" PRIx32 ", column %" PRIx32 ", which is no form\n", word, opcode, key);
        exit(1);
    }
    if (is->form->kind == ALONE) is->imm = 0;
    return 1;
}

// An instruction in assembly language, with the operands as llvm-objdump writes them where the word lies at an address. (The assembler
// reads the target of a jump or a branch as a distance, as if the word lay at 0.)
static void written(const Instruction *is, uint32_t address, char *text, size_t room) {
    const char *name = is->form->name;
    uint32_t d = is->rd, a = is->rs1, b = is->rs2;
    int32_t imm = (int32_t)is->imm;
    switch (is->form->kind) {
    case UPPER: snprintf(text, room, "%s x%u, %u", name, d, is->imm >> 12); break;
    case JUMP: snprintf(text, room, "%s x%u, %u", name, d, address + is->imm); break;
    case JUMP_REGISTER:
    case LOAD: snprintf(text, room, "%s x%u, %d(x%u)", name, d, imm, a); break;
    case BRANCH: snprintf(text, room, "%s x%u, x%u, %u", name, a, b, address + is->imm); break;
    case STORE: snprintf(text, room, "%s x%u, %d(x%u)", name, b, imm, a); break;
    case IMMEDIATE: snprintf(text, room, "%s x%u, x%u, %d", name, d, a, imm); break;
    case SHIFT: snprintf(text, room, "%s x%u, x%u, %u", name, d, a, b); break;
    case REGISTERS: snprintf(text, room, "%s x%u, x%u, x%u", name, d, a, b); break;
    case FENCE: snprintf(text, room, "%s %u, %u", name, is->imm >> 4 & 15, is->imm & 15); break;
    case ALONE: snprintf(text, room, "%s", name); break;
    }
}

// ---- What the disassembler says

// A set of a fence as its number: i 8, o 4, r 2, w 1.
static uint32_t fence_set(const char *letters, size_t size) {
    uint32_t set = 0;
    if (size == 7 && memcmp(letters, "unknown", 7) == 0) return 0; // the empty set, in older versions
    for (size_t i = 0; i < size; i++) {
        const char *at = strchr("wroi", letters[i]);
        if (at != NULL && *at != 0) set |= 1u << (at - "wroi");
    }
    return set;
}

// A line of llvm-objdump, in the way of `written`: single spaces, numbers in decimal, sets of a fence as numbers, no symbol at the end.
static void normal(const char *line, char *text, size_t room) {
    size_t n = 0;
    while (*line == ' ' || *line == '\t') line++;
    int fence = strncmp(line, "fence", 5) == 0 && (line[5] == ' ' || line[5] == '\t'), operands = 0;
    while (*line != 0 && *line != '\n' && n + 16 < room) {
        if (*line == ' ' || *line == '\t') {
            while (*line == ' ' || *line == '\t') line++;
            if (*line == '<' || *line == '#' || *line == '\n' || *line == 0) break;
            text[n++] = ' ';
            operands = 1;
        } else if (strncmp(line, "0x", 2) == 0) {
            char *end;
            n += (size_t)snprintf(text + n, room - n, "%lu", strtoul(line, &end, 16));
            line = end;
        } else if (fence && operands && *line >= 'a' && *line <= 'z') {
            size_t size = strspn(line, "abcdefghijklmnopqrstuvwxyz");
            n += (size_t)snprintf(text + n, room - n, "%u", fence_set(line, size));
            line += size;
        } else {
            text[n++] = *line++;
        }
    }
    text[n] = 0;
}

// ---- The sample

static uint32_t random_instruction_word(void) {
    const Form *form = &forms[random_word() % FORMS];
    uint32_t word = random_word();
    switch (form->kind) {
    case UPPER:
    case JUMP: return (word & ~0x7fu) | form->opcode;
    case REGISTERS:
    case SHIFT: return (word & 0x01ff8f80) | (form->key >> 3) << 25 | (form->key & 7) << 12 | form->opcode;
    case FENCE: return (word & 0x0ff00000) | form->opcode;
    case ALONE: return (uint32_t)(form == &forms[FORMS - 1]) << 20 | form->opcode;
    default: return (word & ~0x707fu) | form->key << 12 | form->opcode;
    }
}

static uint32_t sample_word(int i) {
    if (i < UNIFORM) return random_word();
    if (i < UNIFORM + IN_TABLE) return (random_word() & ~0x7fu) | forms[random_word() % FORMS].opcode;
    return random_instruction_word() ^ 1u << random_word() % 32;
}

static FILE *opened(const char *name, const char *mode) {
    FILE *file = fopen(name, mode);
    if (file == NULL) {
        perror(name);
        exit(1);
    }
    return file;
}

static void sample(const char *name) {
    FILE *file = opened(name, "wb");
    for (int i = 0; i < UNIFORM + IN_TABLE + ONE_BIT_OFF; i++) {
        uint32_t words[2] = {sample_word(i), 0};
        fwrite(words, sizeof words, 1, file);
    }
    fclose(file);
}

// Where document 03 is narrower than the manual: opcode 73 has two words only, and there is no fence.i.
static int left_out(uint32_t word) { return word % 128 == 0x73 || (word % 128 == 0x0f && word / 4096 % 8 == 1); }

// Where it is wider than the disassembler: a fence is one by opcode and funct3 alone, and the manual reserves its other fields.
static int reserved_fence(uint32_t word) { return word % 128 == 0x0f && word / 4096 % 8 == 0 && (word & 0xf00f8f80) != 0; }

// Where the disassembler is laxer than the manual: a shift's amount of 32 or more is one of RV64 only, which older versions read all the same.
// (The assembler refuses it for RV32.)
static int wide_shift(uint32_t word, const char *told) {
    uint32_t funct3 = word / 4096 % 8, above = word >> 26;
    return word % 128 == 0x13 && (word >> 25 & 1) == 1 &&
           ((funct3 == 1 && above == 0 && strncmp(told, "slli ", 5) == 0) || (funct3 == 5 && above == 0 && strncmp(told, "srli ", 5) == 0) ||
            (funct3 == 5 && above == 0x10 && strncmp(told, "srai ", 5) == 0));
}

static int disassembled(const char *binary, const char *listing) {
    FILE *words = opened(binary, "rb"), *lines = opened(listing, "r");
    uint32_t pair[2], address = 0;
    int count = 0, known = 0, unknown = 0, more = 0, less = 0, wide = 0, different = 0;
    char line[256], expected[256], told[256];
    while (fread(pair, sizeof pair, 1, words) == 1) {
        char *end = line;
        do {
            if (fgets(line, sizeof line, lines) == NULL) {
                fprintf(stderr, "%s: no line for address %" PRIx32 "\n", listing, address);
                exit(1);
            }
        } while (strtoul(line, &end, 16) != address || end == line || *end != ':');
        normal(end + 1, told, sizeof told);
        int is_known = strcmp(told, "<unknown>") != 0 && strcmp(told, "") != 0;
        Instruction is;
        int ours = decoded(pair[0], &is), agrees = 0;
        uint32_t again = panel_recode(pair[0]);
        strcpy(expected, "<unknown>");
        if (ours) written(&is, address, expected, sizeof expected);
        if (ours && is_known) {
            agrees = strcmp(expected, told) == 0 || (strcmp(told, "fence.tso") == 0 && pair[0] == 0x8330000f);
            known++;
        } else if (ours) {
            agrees = reserved_fence(pair[0]);
            more++;
        } else if (is_known && wide_shift(pair[0], told)) {
            agrees = 1;
            wide++;
        } else if (is_known) {
            agrees = left_out(pair[0]);
            less++;
        } else {
            agrees = 1;
            unknown++;
        }
        if (again != (ours ? pair[0] : 0)) agrees = 0;
        if (!agrees && different++ < SHOWN)
            printf("word %08" PRIx32 ": decode says '%s', the disassembler '%s'; encoded again it is %08" PRIx32 "\n", pair[0], expected, told, again);
        count++;
        address += sizeof pair;
    }
    fclose(words);
    fclose(lines);
    printf("%d sampled words: %d known to both, %d unknown to both; known to one: %d fences with reserved fields, %d system words that "
           "document 03 leaves out, %d shifts of RV64; %d different\n",
           count, known, unknown, more, less, wide, different);
    return different != 0 || count != UNIFORM + IN_TABLE + ONE_BIT_OFF;
}

// ---- The forms

// A field of so many bits: at the edges first, then random.
static uint32_t field(int turn, int bits, int place) {
    uint32_t most = bits == 32 ? 0xffffffff : (1u << bits) - 1;
    const uint32_t edges[] = {0, most, most >> 1, (most >> 1) + 1, 1, most - 1};
    return turn < 36 ? edges[(place == 0 ? turn : turn / 6) % 6] : random_word() & most;
}

static uint32_t extended(uint32_t value, int bits) { return (uint32_t)((int32_t)(value << (32 - bits)) >> (32 - bits)); }

// The instruction of a form at a turn. The same sequence at each run, so that it needn't be written down.
static Instruction of_form(const Form *form, int turn) {
    Instruction is = {form, 0, 0, 0, 0};
    uint32_t d = field(turn, 5, 0), a = field(turn, 5, 1), b = field(turn, 5, turn % 2), wide = field(turn, 20, 1);
    switch (form->kind) {
    case UPPER: is.rd = d, is.imm = wide << 12; break;
    case JUMP: is.rd = d, is.imm = extended(wide << 1, 21); break;
    case JUMP_REGISTER:
    case LOAD:
    case IMMEDIATE: is.rd = d, is.rs1 = a, is.imm = extended(wide & 0xfff, 12); break;
    case BRANCH: is.rs1 = a, is.rs2 = b, is.imm = extended((wide & 0xfff) << 1, 13); break;
    case STORE: is.rs1 = a, is.rs2 = b, is.imm = extended(wide & 0xfff, 12); break;
    case SHIFT:
    case REGISTERS: is.rd = d, is.rs1 = a, is.rs2 = b; break;
    case FENCE: is.imm = (wide & 0xf0 ? wide & 0xf0 : 0x10) | (wide & 0xf ? wide & 0xf : 1); break; // no empty set: the assembler has none
    case ALONE: break;
    }
    return is;
}

// The assembler wants the sets of a fence in letters.
static void fence_source(uint32_t imm, char *text, size_t room) {
    char sets[2][8];
    for (int k = 0; k < 2; k++) {
        uint32_t set = k == 0 ? imm >> 4 & 15 : imm & 15;
        char *at = sets[k];
        for (int i = 3; i >= 0; i--)
            if (set >> i & 1) *at++ = "wroi"[i];
        *at = 0;
    }
    snprintf(text, room, "fence %s, %s", sets[0], sets[1]);
}

static void source(const char *name) {
    FILE *file = opened(name, "w");
    char text[256];
    fprintf(file, ".option norvc\n.option norelax\n");
    for (int i = 0; i < FORMS; i++)
        for (int turn = 0; turn < PER_FORM; turn++) {
            Instruction is = of_form(&forms[i], turn);
            if (is.form->kind == FENCE) fence_source(is.imm, text, sizeof text);
            else written(&is, 0, text, sizeof text);
            // a distance is signed to the assembler
            if (is.form->kind == JUMP) snprintf(text, sizeof text, "jal x%u, %d", is.rd, (int32_t)is.imm);
            if (is.form->kind == BRANCH) snprintf(text, sizeof text, "%s x%u, x%u, %d", is.form->name, is.rs1, is.rs2, (int32_t)is.imm);
            fprintf(file, "%s\n", text);
        }
    fclose(file);
}

static int assembled(const char *binary) {
    FILE *words = opened(binary, "rb");
    int count = 0, different = 0;
    char text[256];
    for (int i = 0; i < FORMS; i++)
        for (int turn = 0; turn < PER_FORM; turn++) {
            Instruction meant = of_form(&forms[i], turn), is;
            uint32_t word;
            if (fread(&word, sizeof word, 1, words) != 1) {
                fprintf(stderr, "%s: too short\n", binary);
                exit(1);
            }
            int agrees = decoded(word, &is) && is.form == meant.form && is.rd == meant.rd && is.rs1 == meant.rs1 && is.rs2 == meant.rs2 &&
                         is.imm == meant.imm && panel_recode(word) == word;
            if (!agrees && different++ < SHOWN) {
                written(&meant, 0, text, sizeof text);
                printf("'%s' is assembled to %08" PRIx32 ", which decodes otherwise\n", text, word);
            }
            count++;
        }
    int whole = fgetc(words) == EOF;
    fclose(words);
    printf("%d instructions of %d forms assembled, decoded and encoded again; %d different%s\n", count, FORMS, different,
           whole ? "" : "; the assembler made more words");
    return different != 0 || !whole;
}

int main(int count, char **words) {
    if (count == 3 && strcmp(words[1], "sample") == 0) return sample(words[2]), 0;
    if (count == 4 && strcmp(words[1], "disassembled") == 0) return disassembled(words[2], words[3]);
    if (count == 3 && strcmp(words[1], "source") == 0) return source(words[2]), 0;
    if (count == 3 && strcmp(words[1], "assembled") == 0) return assembled(words[2]);
    fprintf(stderr, "usage: words sample BINARY | disassembled BINARY TEXT | source TEXT | assembled BINARY\n");
    return 1;
}
