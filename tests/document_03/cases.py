#!/usr/bin/env python3
"""Writes crates/document_03/stdin and stdout: the cases of document 03, and what must be answered.

The answers come from `run` and `name` below, a second reading of document 03 that shares nothing with the emulator, and the
tables of document 03 section 6 are typed in by hand and held against it. Run it again after a change; it must leave both files as they are.

A line of stdin is `"` and a title, `d` and a word to decode, or `r` and numbers in hex: room, limit, lent memory, registers and log,
bytes of code and of input; then for code and for input how many pairs of a count and a word, and those; then how many times the run is
gone on with, and for each what is put into x0's place and the limit.
"""
import os
import sys

MASK = 0xFFFFFFFF


# ---- words (section 2)
def r(f7, b, a, f3, d, o):
    return (f7 & 127) << 25 | (b & 31) << 20 | (a & 31) << 15 | (f3 & 7) << 12 | (d & 31) << 7 | o


def i(imm, a, f3, d, o):
    return (imm & 0xFFF) << 20 | (a & 31) << 15 | f3 << 12 | (d & 31) << 7 | o


def s(imm, b, a, f3):
    return r(imm >> 5, b, a, f3, imm & 31, 0x23)


def b(imm, y, x, f3):
    return (imm >> 12 & 1) << 31 | (imm >> 5 & 63) << 25 | y << 20 | x << 15 | f3 << 12 | (imm >> 1 & 15) << 8 | (imm >> 11 & 1) << 7 | 0x63


def u(imm, d, o):
    return (imm & 0xFFFFF) << 12 | d << 7 | o


def j(imm, d):
    return (imm >> 20 & 1) << 31 | (imm >> 1 & 1023) << 21 | (imm >> 11 & 1) << 20 | (imm >> 12 & 255) << 12 | d << 7 | 0x6F


R = {"add": (0, 0), "sub": (0, 32), "sll": (1, 0), "slt": (2, 0), "sltu": (3, 0), "xor": (4, 0), "srl": (5, 0), "sra": (5, 32), "or": (6, 0), "and": (7, 0),
     "mul": (0, 1), "mulh": (1, 1), "mulhsu": (2, 1), "mulhu": (3, 1), "div": (4, 1), "divu": (5, 1), "rem": (6, 1), "remu": (7, 1)}
I = {"add": 0, "slt": 2, "sltu": 3, "xor": 4, "or": 6, "and": 7}
SHIFT = {"sll": (1, 0), "srl": (5, 0), "sra": (5, 32)}
B = {"beq": 0, "bne": 1, "blt": 4, "bge": 5, "bltu": 6, "bgeu": 7}
L = {"lb": 0, "lh": 1, "lw": 2, "lbu": 4, "lhu": 5}
S = {"sb": 0, "sh": 1, "sw": 2}
ECALL, EBREAK, NOP = 0x73, 0x100073, 0x13


def op(n, d, x, y): return r(R[n][1], y, x, R[n][0], d, 0x33)
def opi(n, d, x, imm): return i(imm, x, I[n], d, 0x13)
def shift(n, d, x, k): return r(SHIFT[n][1], k, x, SHIFT[n][0], d, 0x13)
def branch(n, x, y, to): return b(to & 0x1FFF, y, x, B[n])
def load(n, d, x, imm): return i(imm, x, L[n], d, 0x03)
def store(n, y, x, imm): return s(imm & 0xFFF, y, x, S[n])
def lui(d, v): return u(v, d, 0x37)
def auipc(d, v): return u(v, d, 0x17)
def jal(d, to): return j(to & 0x1FFFFF, d)
def jalr(d, x, imm): return i(imm, x, 0, d, 0x67)
def addi(d, x, imm): return opi("add", d, x, imm)


def li(d, v):
    """A constant: the upper part is one larger where bit 11 is set."""
    return [lui(d, (v + 0x800) >> 12), addi(d, d, v & 0xFFF)]


# ---- the processor, read from document 03 a second time
def signed(v, n=32):
    v &= (1 << n) - 1
    return v - (1 << n) if v >> (n - 1) else v


def trunc(x, y):
    q = abs(x) // abs(y)
    return q if (x < 0) == (y < 0) else -q


def alu(n, x, y):
    sx, sy = signed(x), signed(y)
    k = y & 31
    return {
        "add": lambda: x + y, "sub": lambda: x - y, "sll": lambda: x << k, "slt": lambda: sx < sy, "sltu": lambda: x < y,
        "xor": lambda: x ^ y, "srl": lambda: x >> k, "sra": lambda: sx >> k, "or": lambda: x | y, "and": lambda: x & y,
        "mul": lambda: x * y, "mulh": lambda: sx * sy >> 32, "mulhsu": lambda: sx * y >> 32, "mulhu": lambda: x * y >> 32,
        "div": lambda: MASK if y == 0 else trunc(sx, sy), "divu": lambda: MASK if y == 0 else x // y,
        "rem": lambda: x if y == 0 else sx - sy * trunc(sx, sy), "remu": lambda: x if y == 0 else x % y,
    }[n]() & MASK


COND = {"beq": lambda x, y: x == y, "bne": lambda x, y: x != y, "blt": lambda x, y: signed(x) < signed(y),
        "bge": lambda x, y: signed(x) >= signed(y), "bltu": lambda x, y: x < y, "bgeu": lambda x, y: x >= y}


def key(table, value):
    return next((k for k, v in table.items() if v == value), None)


def name(w):
    """What a word is: its name and its fields, or None."""
    f7, y, x, f3, d, o = w >> 25, w >> 20 & 31, w >> 15 & 31, w >> 12 & 7, w >> 7 & 31, w & 127
    imm = signed(w >> 20, 12) & MASK
    if o == 0x37: return ("lui", d, w & 0xFFFFF000)
    if o == 0x17: return ("auipc", d, w & 0xFFFFF000)
    if o == 0x6F:
        return ("jal", d, signed((w >> 31) << 20 | (w >> 12 & 255) << 12 | (w >> 20 & 1) << 11 | (w >> 21 & 1023) << 1, 21) & MASK)
    if o == 0x67 and f3 == 0: return ("jalr", d, x, imm)
    if o == 0x63 and key(B, f3):
        return (key(B, f3), x, y, signed((w >> 31) << 12 | (w >> 7 & 1) << 11 | (w >> 25 & 63) << 5 | (w >> 8 & 15) << 1, 13) & MASK)
    if o == 0x03 and key(L, f3): return (key(L, f3), d, x, imm)
    if o == 0x23 and key(S, f3): return (key(S, f3), x, y, signed(f7 << 5 | d, 12) & MASK)
    if o == 0x13 and key(I, f3): return (key(I, f3) + "i", d, x, imm)
    if o == 0x13 and key(SHIFT, (f3, f7)): return (key(SHIFT, (f3, f7)) + "i", d, x, y)
    if o == 0x33 and key(R, (f3, f7)): return (key(R, (f3, f7)), d, x, y)
    if o == 0x0F and f3 == 0: return ("fence", d, x, imm)
    if w == ECALL: return ("ecall", 0, 0)
    if w == EBREAK: return ("ebreak", 0, 0)
    return None


class Machine:
    def __init__(self, code, data):
        self.size = len(code)
        self.memory = bytearray(0x200000)
        self.memory[0x1000:0x1000 + len(code)] = code
        self.memory[0x100000:0x100000 + len(data)] = data
        self.x = [0] * 32
        self.pc, self.log, self.steps, self.stop = 0x1000, [], 0, None

    def put(self, d, v):
        if d:
            self.x[d] = v & MASK

    def reach(self, at, n):
        return at % n == 0 and 0x100000 <= at and at + n <= 0x200000

    def step(self, room):
        """One instruction; the stop that it makes, or None."""
        if self.pc % 4 or not 0x1000 <= self.pc < 0x1000 + self.size:
            return "fault 1"
        self.steps += 1
        ins = name(int.from_bytes(self.memory[self.pc:self.pc + 4], "little"))
        if ins is None:
            return "fault 2"
        n, f, x, to = ins[0], ins[1:], self.x, self.pc + 4
        if n == "lui": self.put(f[0], f[1])
        elif n == "auipc": self.put(f[0], self.pc + f[1])
        elif n == "jal":
            self.put(f[0], to)
            to = self.pc + f[1]
        elif n == "jalr":
            target = x[f[1]] + f[2] & MASK & ~1
            self.put(f[0], to)
            to = target
        elif n in B:
            if COND[n](x[f[0]], x[f[1]]): to = self.pc + f[2]
        elif n in L:
            at, size = x[f[1]] + f[2] & MASK, {"b": 1, "h": 2, "w": 4}[n[1]]
            if not self.reach(at, size): return "fault 3"
            v = int.from_bytes(self.memory[at:at + size], "little")
            self.put(f[0], v if n.endswith("u") else signed(v, 8 * size))
        elif n in S:
            at, size = x[f[0]] + f[2] & MASK, {"b": 1, "h": 2, "w": 4}[n[1]]
            if not self.reach(at, size): return "fault 3"
            self.memory[at:at + size] = (x[f[1]] & (1 << 8 * size) - 1).to_bytes(size, "little")
        elif n == "ecall":
            if x[17] == 0: return "exit"
            if x[17] == 1:
                if len(self.log) >= room: return "trap 4"
                self.log.append(x[10])
            elif x[17] == 2: return "trap %d" % x[10]
            else: return "fault 5"
        elif n == "ebreak": return "fault 4"
        elif n == "fence": pass
        elif n.endswith("i") and n[:-1] in I: self.put(f[0], alu(n[:-1], x[f[1]], f[2]))
        elif n.endswith("i") and n[:-1] in SHIFT: self.put(f[0], alu(n[:-1], x[f[1]], f[2]))
        else: self.put(f[0], alu(n, x[f[1]], x[f[2]]))
        self.pc = to & MASK
        return None

    def go(self, room, limit):
        """Up to so many steps more, if the limit, or nothing yet, stopped it."""
        if self.stop in (None, "limit"):
            self.stop = None
            for _ in range(limit):
                self.stop = self.step(room)
                if self.stop: break
            self.stop = self.stop or "limit"
        return "%s steps %d pc %x x10 %x log%s kept" % (self.stop, self.steps, self.pc, self.x[10], "".join(" %08x" % v for v in self.log))


# ---- cases
asks, answers = [], []


def title(text):
    asks.append('"' + text)
    answers.append(text)


def word(w):
    asks.append("d %x" % w)
    n = name(w)
    answers.append("%08x %s %08x" % ((w, "unknown 0 0", 0) if n is None else (w, " ".join([n[0]] + ["%x" % f for f in n[1:]]), w)))


def spread(pairs):
    return b"".join(w.to_bytes(4, "little") * n for n, w in pairs)


def run(code, data=(), room=8, limit=100, memory=0x200040, registers=40, log=64, code_size=None, data_size=None, more=()):
    """One run; code and data are words, or pairs of a count and a word. Returns the first answer."""
    code = [c if isinstance(c, tuple) else (1, c) for c in code]
    data = [c if isinstance(c, tuple) else (1, c) for c in data]
    text, block = spread(code), spread(data)
    cs = len(text) if code_size is None else code_size
    ds = len(block) if data_size is None else data_size
    asks.append("r " + " ".join("%x" % n for n in [room, limit, memory, registers, log, cs, ds, len(code)] + [v for p in code for v in p]
                                + [len(data)] + [v for p in data for v in p] + [len(more)] + [v for p in more for v in p]))
    if cs % 4 or cs > 524288: refused = 4
    elif ds % 4 or ds > 0x100000: refused = 5
    elif memory < 0x200000 or registers < 32 or log < room: refused = 6
    else: refused = 0
    if refused:
        answers.append("refused %d kept" % refused)
        return answers[-1]
    m = Machine(text[:cs], block[:ds])
    first = m.go(room, limit)
    answers.append(first)
    for x0, limit in more:
        answers.append(m.go(room, limit))
    return first


EXIT = [addi(17, 0, 0), ECALL]
LOG = [addi(17, 0, 1), ECALL]
BASE = lui(5, 0x100)  # x5: where the input block lies
EDGES = [0, 1, 31, 0x7FFFFFFF, 0x80000000, MASK, 0x12345678]

title("document 03 section 6: encodings, both ways")
for w, text in [
    (0xFFF50513, "addi a a ffffffff"), (0x12346537, "lui a 12346000"), (0x00001297, "auipc 5 1000"), (0x010000EF, "jal 1 10"),
    (0xFFDFF06F, "jal 0 fffffffc"), (0x00008067, "jalr 0 1 0"), (0x00B50463, "beq a b 8"), (0xFE051CE3, "bne a 0 fffffff8"),
    (0x7EB56FE3, "bltu a b ffe"), (0xFFC42503, "lw a 8 fffffffc"), (0xFEA42E23, "sw 8 a fffffffc"), (0x00B601A3, "sb c b 3"),
    (0x0025D503, "lhu a b 2"), (0x00251513, "slli a a 2"), (0x41F55513, "srai a a 1f"), (0x40C58533, "sub a b c"),
    (0x00C5B533, "sltu a b c"), (0x02C58533, "mul a b c"), (0x02C5A533, "mulhsu a b c"), (0x02C5C533, "div a b c"), (0x02C5F533, "remu a b c"),
]:
    word(w)
    assert answers[-1] == "%08x %s %08x" % (w, text, w), answers[-1]

title("document 03 section 6: the constant whose bit 11 is set")
assert run([0x12346537, 0xFFF50513] + LOG + EXIT).endswith("log 12345fff kept")

title("document 03 section 6: runs")
for code, stop, steps in [
    ([0x00000073], "exit", 1), ([0x00200893, 0x00700513, 0x00000073], "trap 7", 3),
    ([0x00100893, 0x02A00513, 0x00000073, 0x00000893, 0x00000073], "exit", 5), ([0x00000013], "fault 1", 1), ([0x00000000], "fault 2", 1),
    ([0x00002223], "fault 3", 1), ([0x00102503], "fault 3", 1), ([0x00100073], "fault 4", 1), ([0x0000006F], "limit", 100),
]:
    assert run(code).startswith("%s steps %d pc " % (stop, steps))
title("document 03 section 4: one nop alone, with limit 1, ends with limit")
assert run([NOP], limit=1).startswith("limit steps 1 pc 1004")

title("images of document 01's text G and of f(62), the words of which stand in codegen's vectors too")
assert run(
    [0x00110137, 0x0012F1B7, 0x00100893, 0x08C000EF, 0x00000893, 0x00000073, 0x00100513, 0x00200893, 0x00000073, 0x00200513, 0x00200893, 0x00000073,
     0x00300513, 0x00200893, 0x00000073, 0x00311463, 0xFF1FF0EF, 0x00112023, 0x00012623, 0x00812203, 0x02020863, 0x00412203, 0x00812283, 0x00029463,
     0xFB9FF0EF, 0x02526CB3, 0x01912623, 0x00812203, 0x00412223, 0x00C12203, 0x00412423, 0xFD1FF06F, 0x00412503, 0x00012083, 0x00008067, 0x00000513,
     0x00012083, 0x00008067, 0x00311463, 0xF95FF0EF, 0x00112023, 0x00C00213, 0x7C412223, 0x01200213, 0x7C412423, 0x7C010113, 0xF85FF0EF, 0x84010113,
     0x00000073, 0xFF400213, 0x7C412223, 0x01200213, 0x7C412423, 0x7C010113, 0xF65FF0EF, 0x84010113, 0x00000073, 0x00500213, 0x7C412223, 0x7C012423,
     0x7C010113, 0xF49FF0EF, 0x84010113, 0x00000073, 0x00000513, 0x00012083, 0x00008067],
    limit=1000).startswith("exit steps 130 ")
assert answers[-1].endswith("log 00000006 00000006 00000005 kept")
assert run(
    [0x00110137, 0x0012F1B7, 0x00100893, 0x090000EF, 0x00000893, 0x00000073, 0x00100513, 0x00200893, 0x00000073, 0x00200513, 0x00200893, 0x00000073,
     0x00300513, 0x00200893, 0x00000073, 0x00311463, 0xFF1FF0EF, 0x00112023, 0x00412203, 0x00021A63, 0x00000513, 0x00012083, 0x00008067, 0x0340006F,
     0x00412203, 0xFFF20C93, 0x7D912223, 0x7C010113, 0xFCDFF0EF, 0x84010113, 0x00050C93, 0x00100213, 0x01920CB3, 0x000C8513, 0x00012083, 0x00008067,
     0x00000513, 0x00012083, 0x00008067, 0x00311463, 0xF91FF0EF, 0x00112023, 0x03E00213, 0x7C412223, 0x7C010113, 0xF89FF0EF, 0x84010113, 0x00000073,
     0x00000513, 0x00012083, 0x00008067],
    limit=2000).startswith("exit steps 1016 ")
assert answers[-1].endswith("log 0000003e kept")

title("every instruction, and words that are none")
for n in R: word(op(n, 31, 1, 30))
for n in I: word(opi(n, 1, 31, 0x800))
for n in SHIFT: word(shift(n, 2, 3, 31))
for n in B: word(branch(n, 31, 1, -4096))
for n in L: word(load(n, 31, 2, 0x7FF))
for n in S: word(store(n, 31, 2, 0x800))
for w in [lui(31, 0xFFFFF), auipc(0, 0x80000), jal(31, -1048576), jal(1, 1048574), jalr(31, 30, 0x800), 0x0FF0000F, ECALL, EBREAK]: word(w)
for w in [0, MASK, 0x00001067, 0x00002063, 0x00003063, 0x00003003, 0x00006003, 0x00007003, 0x00003023, 0x02001013, 0x02005013, 0x60005013,
          0x02002033 | 4 << 25, 0x40001033, 0x40004033, 0x40007033, 0x0000100F, 0x00200073, 0x00000F73, 0x10500073, 0x0000202F, 0x0000001B]:
    word(w)

title("operations on two registers, each with every pair of seven operands")
pairs = [(x, y) for x in EDGES for y in EDGES]
for n in R:
    code = [BASE, addi(17, 0, 1)]
    for k in range(len(pairs)):
        code += [load("lw", 6, 5, 8 * k), load("lw", 7, 5, 8 * k + 4), op(n, 10, 6, 7), ECALL]
    run(code + EXIT, [v for p in pairs for v in p], room=64, limit=1000)
title("the division's special cases: -2147483648 by -1, and by 0, with div, rem, divu, remu; then -7 by 2, 7 by -2, -7 by -2")
for x, y in [(0x80000000, MASK), (0x80000000, 0), (7, 0), (-7 & MASK, 2), (7, -2 & MASK), (-7 & MASK, -2 & MASK)]:
    run([*li(6, x), *li(7, y), addi(17, 0, 1)] + [w for n in ("div", "rem", "divu", "remu") for w in (op(n, 10, 6, 7), ECALL)] + EXIT)
title("operations on a register and an immediate: 0, 1, -1, 2047, -2048")
for n in I:
    code = [BASE, addi(17, 0, 1)]
    for k in range(len(EDGES)):
        code += [load("lw", 6, 5, 4 * k)] + [w for imm in (0, 1, -1, 2047, -2048) for w in (opi(n, 10, 6, imm), ECALL)]
    run(code + EXIT, EDGES, room=64, limit=1000)
title("shifts by 0, 1 and 31")
for n in SHIFT:
    code = [BASE, addi(17, 0, 1)]
    for k in range(len(EDGES)):
        code += [load("lw", 6, 5, 4 * k)] + [w for amount in (0, 1, 31) for w in (shift(n, 10, 6, amount), ECALL)]
    run(code + EXIT, EDGES, room=64, limit=1000)
title("register shifts use the low 5 bits: by 32, 33 and 63")
for n in SHIFT:
    run([*li(6, 0x87654321), addi(17, 0, 1)] + [w for k in (32, 33, 63) for w in (addi(7, 0, k), op(n, 10, 6, 7), ECALL)] + EXIT)

title("branches, forward over one instruction, with every pair of seven operands: 1 where taken")
for n in B:
    code = [BASE, addi(17, 0, 1)]
    for k in range(len(pairs)):
        code += [load("lw", 6, 5, 8 * k), load("lw", 7, 5, 8 * k + 4), addi(10, 0, 1), branch(n, 6, 7, 8), addi(10, 0, 0), ECALL]
    run(code + EXIT, [v for p in pairs for v in p], room=64, limit=1000)
title("a branch backward: the sum of 1 to 10")
run([addi(6, 0, 10), op("add", 10, 10, 6), addi(6, 6, -1), branch("bne", 6, 0, -8)] + LOG + EXIT)
title("a branch to itself")
run([branch("beq", 0, 0, 0)], limit=5)

title("loads: lb, lbu at 0 to 3, lh, lhu at 0 and 2, lw, each after the end of the block too")
code = [BASE, addi(17, 0, 1)]
for n, offsets in [("lb", range(5)), ("lbu", range(5)), ("lh", (0, 2, 4)), ("lhu", (0, 2, 4)), ("lw", (0, 4))]:
    for k in offsets: code += [load(n, 10, 5, k), ECALL]
run(code + EXIT, [0x80FF7F01], room=64)
title("loads with a negative offset, and from the last bytes of memory")
run([lui(5, 0x200), addi(17, 0, 1)] + [w for n, k in [("lw", -4), ("lh", -2), ("lb", -1), ("lbu", -1), ("lhu", -2)] for w in (load(n, 10, 5, k), ECALL)]
    + EXIT, [(0x3FFFF, 0), (1, 0xF1F2F3F4)])
title("stores: a word, then a half and a byte into it, each read back")
run([BASE, *li(6, 0x11223344), *li(7, 0xAABBCCDD), addi(17, 0, 1), store("sw", 6, 5, 0)]
    + [w for n, k in [("sb", 1), ("sh", 2), ("sb", 0), ("sw", 0)] for w in (store(n, 7, 5, k), load("lw", 10, 5, 0), ECALL)] + EXIT, limit=100)
title("stores to the first and to the last bytes that a program may touch")
run([BASE, lui(6, 0x200), *li(7, 0x89ABCDEF), addi(17, 0, 1), store("sw", 7, 6, -4), load("lw", 10, 6, -4), ECALL, store("sb", 7, 6, -1), load("lb", 10, 6, -1),
     ECALL, store("sh", 7, 5, 0), load("lhu", 10, 5, 0), ECALL] + EXIT)

title("jal and jalr: links, rd = rs1, bit 0 cleared, x0 as a link")
run([jal(10, 8), EBREAK] + LOG + EXIT)
run([auipc(10, 0), jalr(10, 10, 12), EBREAK] + LOG + EXIT)
run([auipc(6, 0), jalr(10, 6, 13), EBREAK] + LOG + EXIT)
run([auipc(6, 0), jalr(0, 6, 12), EBREAK, addi(10, 0, 0)] + LOG + EXIT)
run([jal(0, 12), addi(10, 0, 7), jal(0, 8), jal(0, -8)] + LOG + EXIT)
title("lui and auipc with the top bit set")
run([lui(10, 0x80000), addi(17, 0, 1), ECALL, auipc(10, 0xFFFFF), ECALL, auipc(10, 0x7FFFF), ECALL] + EXIT)
title("x0 as a destination of each kind")
run([BASE, *li(6, 0xDEADBEEF), lui(0, 0x12345), auipc(0, 1), addi(0, 6, 1), op("add", 0, 6, 6), shift("sll", 0, 6, 1), load("lw", 0, 5, 0), op("mul", 0, 6, 6),
     jal(0, 4), op("add", 10, 0, 0)] + LOG + EXIT, [MASK])
title("fence does nothing")
run([addi(10, 0, 5), 0x0FF0000F, 0x0000000F] + LOG + EXIT)

title("fault 1: no code, after the end, below the code, above it, odd, halfway, around the end of the address space")
for code in [[], [NOP, NOP], [jal(0, -4)], [jal(0, -4096)], [jal(0, 1048574)], [jal(0, 2)], [jalr(0, 0, 0)], [jalr(10, 0, -1)], [lui(6, 2), jalr(0, 6, 2)],
             [branch("beq", 0, 0, 6)], [lui(6, 0x100), jalr(0, 6, 0)]]:
    run(code)
title("fault 2, after something was done")
for w in [0, MASK, 0x00001067, 0x00200073]:
    run([addi(10, 0, 3), w])
title("fault 3: not aligned, below 0x100000, past the end of memory, around the end of the address space; rd stays")
for n, k in [("lh", 1), ("lh", 3), ("lw", 1), ("lw", 2), ("lw", 3), ("lhu", 1), ("lw", -4), ("lh", -2), ("lb", -1), ("lbu", -1), ("lhu", -2)]:
    run([BASE, addi(10, 0, 3), load(n, 10, 5, k)], [MASK])
for n, k in [("sh", 1), ("sw", 1), ("sw", 2), ("sw", 3), ("sw", -4), ("sh", -2), ("sb", -1)]:
    run([BASE, addi(10, 0, 3), store(n, 10, 5, k)], [MASK])
for n, k in [("lb", 0), ("lh", 0), ("lw", 0), ("lbu", 0), ("lhu", 0), ("lw", -2), ("lw", -1), ("lh", -1)]:
    run([lui(5, 0x200), addi(10, 0, 3), load(n, 10, 5, k)])
for n, k in [("sb", 0), ("sh", 0), ("sw", 0), ("sw", -2), ("sh", -1)]:
    run([lui(5, 0x200), addi(10, 0, 3), store(n, 10, 5, k)])
for w in [load("lw", 10, 0, -4), load("lb", 10, 0, 0), store("sw", 10, 0, -4), load("lw", 0, 0, 0)]:
    run([addi(10, 0, 3), w])
title("a load of the code, and a store to it")
run([auipc(5, 0), load("lw", 10, 5, 0)])
run([auipc(5, 0), store("sw", 5, 5, 0)])
title("fault 4 and fault 5")
run([addi(10, 0, 9), EBREAK])
for v in (3, 4, -1): run([addi(17, 0, v), ECALL])
title("traps: 0, 1, 7, 4294967295")
for v in (0, 1, 7, -1): run([addi(17, 0, 2), addi(10, 0, v), ECALL])
title("the log: room 0, full after two, exactly full")
run([addi(10, 0, 6)] + LOG + EXIT, room=0)
run([addi(10, 0, 6), addi(17, 0, 1), ECALL, ECALL, ECALL] + EXIT, room=2)
run([addi(10, 0, 6), addi(17, 0, 1), ECALL, ECALL] + EXIT, room=2)
run([addi(10, 0, 6)] + LOG + EXIT, room=0, log=0)

title("limits: 0, one less than the steps, as many, one more")
for k in (0, 4, 5, 6): run([0x00100893, 0x02A00513, 0x00000073, 0x00000893, 0x00000073], limit=k)
title("a limit at a fault 1, which counts no step: with limit 1 the limit comes first, with 2 the fault")
for k in (1, 2): run([NOP], limit=k)
title("gone on with: step by step, past the stop, with something in x0's place")
run([0x00100893, 0x02A00513, 0x00000073, 0x00000893, 0x00000073], limit=0, more=[(0, 1)] * 6)
run([addi(17, 0, 1), op("add", 10, 0, 0), ECALL, addi(10, 0, 1), ECALL] + EXIT, limit=0, more=[(0xDEADBEEF, 2), (MASK, 1), (1, 100)])
run([jal(0, 0)], limit=7, more=[(5, 0), (6, 3), (7, 90)])
run([EBREAK], more=[(1, 100)])

title("code of 524,288 bytes, and input of 1 MiB")
run([(131072, NOP)], limit=200000)
run([jal(0, 524284)] + [(131070, NOP)] + [ECALL])
run([BASE, lui(6, 0x200), load("lw", 10, 5, 0), addi(17, 0, 1), ECALL, load("lw", 10, 6, -4), ECALL, load("lw", 10, 5, 4), ECALL] + EXIT,
    [1, (0x3FFFE, 0x77777777), 2])
run(EXIT, [])
title("refused: code a byte or a word too long, no whole words")
for cs in (524289, 524292): run([(131073, NOP)], code_size=cs)
for cs in (1, 2, 3, 5): run([NOP, NOP], code_size=cs)
title("refused: input a byte or a word too long, no whole words")
for ds in (0x100001, 0x100004): run(EXIT, [(0x40001, 1)], data_size=ds)
for ds in (1, 2, 3, 7): run(EXIT, [1, 2], data_size=ds)
title("refused: memory, registers, log a little too short; then exactly long enough")
run(EXIT, memory=0x1FFFFF)
run(EXIT, memory=0)
run(EXIT, registers=31)
run(EXIT, registers=0)
run(EXIT, room=8, log=7)
run(EXIT, room=1, log=0)
run(EXIT, memory=0x200000, registers=32, room=8, log=8)
title("refused for more than one reason: the smallest number")
run([NOP], [1], code_size=2, data_size=3, memory=0)
run([NOP], [1], data_size=3, memory=0)

here = os.path.join(os.path.dirname(os.path.abspath(__file__)), "..", "..", "crates", "document_03")
for file, lines in (("stdin", asks), ("stdout", answers)):
    text = "\n".join(lines) + "\n"
    path = os.path.join(here, file)
    if "--check" in sys.argv[1:]:
        if open(path).read() != text:
            sys.exit("document_03/%s is not what the cases make" % file)
    else:
        with open(path, "w") as out:
            out.write(text)
