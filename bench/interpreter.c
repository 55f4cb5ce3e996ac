// The plain C switch interpreter: one loop that fetches a word, switches on its opcode and carries it out, as small emulators in C do
// (mini-rv32ima is the best known of the kind). Written from document 03, with all of its checks.
#include "interpreter.h"

#include <string.h>

typedef uint32_t u32;
typedef int32_t i32;
typedef uint64_t u64;
typedef int64_t i64;

enum { CODE_START = 0x1000, DATA_START = 0x100000, MEMORY_END = 0x200000 };
enum { EXIT = 1, TRAP = 2, FAULT = 3, LIMIT = 4 };

static inline u32 word_at(const uint8_t *memory, u32 at) {
    u32 value;
    memcpy(&value, memory + at, 4);
    return value;
}

static inline u32 half_at(const uint8_t *memory, u32 at) {
    uint16_t value;
    memcpy(&value, memory + at, 2);
    return value;
}

// An access of so many bytes faults, unless it is aligned and lies in the upper half of memory.
static inline int reaches(u32 at, u32 size) { return at >= DATA_START && at < MEMORY_END && (at & (size - 1)) == 0; }

static inline u32 imm_i(u32 w) { return (u32)((i32)w >> 20); }
static inline u32 imm_s(u32 w) { return (u32)((i32)(w & 0xfe000000) >> 20) | (w >> 7 & 0x1f); }
static inline u32 imm_b(u32 w) { return (u32)((i32)(w & 0x80000000) >> 19) | (w << 4 & 0x800) | (w >> 20 & 0x7e0) | (w >> 7 & 0x1e); }
static inline u32 imm_j(u32 w) { return (u32)((i32)(w & 0x80000000) >> 11) | (w & 0xff000) | (w >> 9 & 0x800) | (w >> 20 & 0x7fe); }

static inline u32 divide(u32 a, u32 b) { return b == 0 ? 0xffffffff : b == 0xffffffff ? 0 - a : (u32)((i32)a / (i32)b); }
static inline u32 remain(u32 a, u32 b) { return b == 0 ? a : b == 0xffffffff ? 0 : (u32)((i32)a % (i32)b); }

u32 INTERPRETER(const uint8_t *code, size_t code_size, const uint8_t *input, size_t input_size, uint8_t *memory, size_t memory_size,
                u32 *x, size_t register_count, u32 *log, size_t log_room, u64 limit, u32 *last_pc, size_t *logged, u64 *steps,
                u32 *number) {
    memset(memory, 0, memory_size);
    memcpy(memory + CODE_START, code, code_size);
    memcpy(memory + DATA_START, input, input_size);
    memset(x, 0, register_count * sizeof *x);
    u32 pc = CODE_START;
    const u32 code_end = CODE_START + (u32)code_size;
    u32 stop = LIMIT;
    u64 n = 0;
    *logged = 0;
    *number = 0;
    while (n < limit) {
        if (pc % 4 != 0 || pc < CODE_START || pc >= code_end) {
            stop = FAULT;
            *number = 1;
            goto stopped;
        }
        const u32 w = word_at(memory, pc);
        n++;
        const u32 rd = w >> 7 & 31, rs1 = w >> 15 & 31, rs2 = w >> 20 & 31, funct3 = w >> 12 & 7, funct7 = w >> 25;
        u32 next = pc + 4;
        u32 value;
        switch (w & 0x7f) {
        case 0x37: value = w & 0xfffff000; break;
        case 0x17: value = pc + (w & 0xfffff000); break;
        case 0x6f:
            value = next;
            next = pc + imm_j(w);
            break;
        case 0x67:
            if (funct3 != 0) goto unknown;
            value = next;
            next = (x[rs1] + imm_i(w)) & ~1u;
            break;
        case 0x63: {
            const u32 a = x[rs1], b = x[rs2];
            int taken;
            switch (funct3) {
            case 0: taken = a == b; break;
            case 1: taken = a != b; break;
            case 4: taken = (i32)a < (i32)b; break;
            case 5: taken = (i32)a >= (i32)b; break;
            case 6: taken = a < b; break;
            case 7: taken = a >= b; break;
            default: goto unknown;
            }
            pc = taken ? pc + imm_b(w) : next;
            continue;
        }
        case 0x03: {
            const u32 at = x[rs1] + imm_i(w);
            switch (funct3) {
            case 0:
                if (!reaches(at, 1)) goto unreached;
                value = (u32)(i32)(int8_t)memory[at];
                break;
            case 1:
                if (!reaches(at, 2)) goto unreached;
                value = (u32)(i32)(int16_t)half_at(memory, at);
                break;
            case 2:
                if (!reaches(at, 4)) goto unreached;
                value = word_at(memory, at);
                break;
            case 4:
                if (!reaches(at, 1)) goto unreached;
                value = memory[at];
                break;
            case 5:
                if (!reaches(at, 2)) goto unreached;
                value = half_at(memory, at);
                break;
            default: goto unknown;
            }
            break;
        }
        case 0x23: {
            const u32 at = x[rs1] + imm_s(w), b = x[rs2];
            const uint16_t half = (uint16_t)b;
            switch (funct3) {
            case 0:
                if (!reaches(at, 1)) goto unreached;
                memory[at] = (uint8_t)b;
                break;
            case 1:
                if (!reaches(at, 2)) goto unreached;
                memcpy(memory + at, &half, 2);
                break;
            case 2:
                if (!reaches(at, 4)) goto unreached;
                memcpy(memory + at, &b, 4);
                break;
            default: goto unknown;
            }
            pc = next;
            continue;
        }
        case 0x13: {
            const u32 a = x[rs1], imm = imm_i(w);
            switch (funct3) {
            case 0: value = a + imm; break;
            case 1:
                if (funct7 != 0) goto unknown;
                value = a << rs2;
                break;
            case 2: value = (i32)a < (i32)imm; break;
            case 3: value = a < imm; break;
            case 4: value = a ^ imm; break;
            case 5:
                if (funct7 == 0) value = a >> rs2;
                else if (funct7 == 0x20) value = (u32)((i32)a >> rs2);
                else goto unknown;
                break;
            case 6: value = a | imm; break;
            default: value = a & imm; break;
            }
            break;
        }
        case 0x33: {
            const u32 a = x[rs1], b = x[rs2];
            switch (funct7 << 3 | funct3) {
            case 0x000: value = a + b; break;
            case 0x100: value = a - b; break;
            case 0x001: value = a << (b & 31); break;
            case 0x002: value = (i32)a < (i32)b; break;
            case 0x003: value = a < b; break;
            case 0x004: value = a ^ b; break;
            case 0x005: value = a >> (b & 31); break;
            case 0x105: value = (u32)((i32)a >> (b & 31)); break;
            case 0x006: value = a | b; break;
            case 0x007: value = a & b; break;
            case 0x008: value = a * b; break;
            case 0x009: value = (u32)((u64)((i64)(i32)a * (i32)b) >> 32); break;
            case 0x00a: value = (u32)((u64)((i64)(i32)a * (i64)b) >> 32); break;
            case 0x00b: value = (u32)((u64)a * b >> 32); break;
            case 0x00c: value = divide(a, b); break;
            case 0x00d: value = b == 0 ? 0xffffffff : a / b; break;
            case 0x00e: value = remain(a, b); break;
            case 0x00f: value = b == 0 ? a : a % b; break;
            default: goto unknown;
            }
            break;
        }
        case 0x0f:
            if (funct3 != 0) goto unknown;
            pc = next;
            continue;
        case 0x73:
            if (w == 0x00100073) {
                stop = FAULT;
                *number = 4;
                goto stopped;
            }
            if (w != 0x00000073) goto unknown;
            if (x[17] == 1 && *logged < log_room) {
                log[(*logged)++] = x[10];
                pc = next;
                continue;
            }
            stop = x[17] == 0 ? EXIT : x[17] <= 2 ? TRAP : FAULT;
            *number = x[17] == 0 ? 0 : x[17] == 1 ? 4 : x[17] == 2 ? x[10] : 5;
            goto stopped;
        default: goto unknown;
        }
        if (rd != 0) x[rd] = value;
        pc = next;
    }
    goto stopped;
unknown:
    stop = FAULT;
    *number = 2;
    goto stopped;
unreached:
    stop = FAULT;
    *number = 3;
stopped:
    *last_pc = pc;
    *steps = n;
    return stop;
}
