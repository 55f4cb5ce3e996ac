#!/usr/bin/env python3
"""Runs the command-line program: every command, every answer, bad usage, and files of every kind.

    tests/command_line/cases.py PROGRAM      the last line is 'N passed, M failed'

A row is a title, the arguments, the files that they name, and what must come of it: the exit status, standard output whole, and what
standard error has in it. PROGRAM is the launcher, which sets the exit status. Answer 6 has no row: the program lends what is stated.
"""
import os
import struct
import subprocess
import sys
import tempfile

sys.path.insert(0, os.path.join(os.path.dirname(os.path.abspath(__file__)), "..", "document_01"))
from texts import G as GCD, Z as ZONES

ACCEPTED, REFUSED, STOPPED, USAGE = 0, 1, 2, 64
SECONDS = 60


def code(*words):
    """An image of these words."""
    return b"".join(struct.pack("<I", w) for w in words)


# Words of document 03 section 6 and of its formats.
ECALL, EBREAK, NOP, LOOP = 0x00000073, 0x00100073, 0x00000013, 0x0000006F
CALL_EXIT, CALL_EMIT, CALL_TRAP = 0x00000893, 0x00100893, 0x00200893


def x10(n):
    """addi x10, x0, n"""
    return (n & 0xFFF) << 20 | 0x513


EXIT = code(ECALL)
EMIT_42 = code(CALL_EMIT, x10(42), ECALL, CALL_EXIT, ECALL)
# lw x10, 0(x5); addi x10, x10, 1; sw x10, 4(x5), where x5 is the block's start
NEXT = code(0x001002B7, 0x0002A503, 0x00150513, 0x00A2A223, ECALL)
# -2147483648 and -1, logged
LEAST = code(CALL_EMIT, 0x80000537, ECALL, x10(-1), ECALL, CALL_EXIT, ECALL)


def registers(**set_):
    return "registers: " + " ".join("0x%08x" % set_.get("x%d" % i, 0) for i in range(32)) + "\n"


def ran(stop, steps, pc, log="", arrays="", **set_):
    """The lines of exec."""
    line = lambda key, value: "%s:%s\n" % (key, " " + value if value else "")
    return ("answer: 0\nstop: %s\nsteps: %d\npc: 0x%08x\n" % (stop, steps, pc) + line("log", log) + line("arrays", arrays) + registers(**set_))


def row(title, arguments, files, status, out, *said):
    return title, arguments.split(), files, status, out, said


def exec_rows():
    """Every stop of document 03 section 4, every answer of section 5, every option."""
    yield row("exit", "exec i", {"i": EXIT}, ACCEPTED, ran("exit", 1, 0x1000), "i: the run ended by exit")
    yield row("a trap", "exec i", {"i": code(CALL_TRAP, x10(7), ECALL)}, STOPPED, ran("trap 7", 3, 0x1008, x10=7, x17=2), "i: ")
    yield row("a trap that is a large number", "exec i", {"i": code(CALL_TRAP, x10(-1), ECALL)}, STOPPED,
              ran("trap 4294967295", 3, 0x1008, x10=0xFFFFFFFF, x17=2))
    yield row("trap 1 in words", "exec i", {"i": code(CALL_TRAP, x10(1), ECALL)}, STOPPED, ran("trap 1", 3, 0x1008, x10=1, x17=2), "zero")
    yield row("a log", "exec i", {"i": EMIT_42}, ACCEPTED, ran("exit", 5, 0x1010, "42", x10=42))
    yield row("a log below zero", "exec i", {"i": LEAST}, ACCEPTED, ran("exit", 7, 0x1018, "-2147483648 -1", x10=0xFFFFFFFF))
    yield row("fault 1 after the code's end", "exec i", {"i": code(NOP)}, STOPPED, ran("fault 1", 1, 0x1004), "fault 1")
    yield row("fault 2", "exec i", {"i": code(0)}, STOPPED, ran("fault 2", 1, 0x1000), "unknown")
    yield row("fault 3", "exec i", {"i": code(0x00002223)}, STOPPED, ran("fault 3", 1, 0x1000), "fault 3")
    yield row("fault 4", "exec i", {"i": code(EBREAK)}, STOPPED, ran("fault 4", 1, 0x1000), "ebreak")
    yield row("fault 5", "exec i", {"i": code(0x00300893, ECALL)}, STOPPED, ran("fault 5", 2, 0x1004, x17=3), "fault 5")
    yield row("limit", "exec i --limit 100", {"i": code(LOOP)}, STOPPED, ran("limit", 100, 0x1000), "limit")
    yield row("limit 0", "exec i --limit 0", {"i": EXIT}, STOPPED, ran("limit", 0, 0x1000))
    yield row("limit 1 on one nop", "exec --limit 1 i", {"i": code(NOP)}, STOPPED, ran("limit", 1, 0x1004))
    yield row("the largest limit", "exec i --limit 18446744073709551615", {"i": EXIT}, ACCEPTED, ran("exit", 1, 0x1000))
    yield row("trap 4 at a full log", "exec i --room 0", {"i": EMIT_42}, STOPPED, ran("trap 4", 3, 0x1008, x10=42, x17=1), "the log is full")
    yield row("the largest room", "exec i --room 65536", {"i": EMIT_42}, ACCEPTED, ran("exit", 5, 0x1010, "42", x10=42))
    yield row("an input text", "exec i --input n", {"i": NEXT, "n": b"41 0"}, ACCEPTED, ran("exit", 5, 0x1010, "", "41 42", x5=0x100000, x10=42))
    yield row("an input text in lines", "exec i --input n", {"i": EXIT, "n": b"\n 1\t-2\r\n\n-0 007\n"}, ACCEPTED, ran("exit", 1, 0x1000, "", "1 -2 0 7"))
    yield row("the ends of the range", "exec i --input n", {"i": EXIT, "n": b"-2147483648 2147483647"}, ACCEPTED,
              ran("exit", 1, 0x1000, "", "-2147483648 2147483647"))
    yield row("an empty input text", "exec i --input n", {"i": EXIT, "n": b""}, ACCEPTED, ran("exit", 1, 0x1000))
    yield row("an input text of more than a buffer", "exec i --input n", {"i": EXIT, "n": b"12345 " * 20000}, ACCEPTED,
              ran("exit", 1, 0x1000, "", " ".join(["12345"] * 20000)))
    yield row("a raw block", "exec --block b i", {"i": NEXT, "b": struct.pack("<iii", -3, 0, 9)}, ACCEPTED,
              ran("exit", 5, 0x1010, "", "-3 -2 9", x5=0x100000, x10=0xFFFFFFFE))
    yield row("an empty image", "exec i", {"i": b""}, STOPPED, ran("fault 1", 0, 0x1000))
    yield row("a text as image", "exec i", {"i": b"fn main() { }\n\n\n"}, STOPPED, ran("fault 2", 1, 0x1000))
    yield row("the longest image", "exec i", {"i": code(ECALL) + bytes(524284)}, ACCEPTED, ran("exit", 1, 0x1000))
    yield row("the longest block", "exec i --block b", {"i": EXIT, "b": bytes(1048576)}, ACCEPTED, ran("exit", 1, 0x1000, "", " ".join(["0"] * 262144)))
    yield row("answer 4: not whole words", "exec i", {"i": EXIT + b"\0"}, REFUSED, "answer: 4\n", "i: the code")
    yield row("answer 4: too long", "exec i", {"i": bytes(524292)}, REFUSED, "answer: 4\n", "longer")
    yield row("answer 4: much too long", "exec i", {"i": bytes(5000000)}, REFUSED, "answer: 4\n")
    yield row("answer 4 before answer 5", "exec i --block b", {"i": b"\0", "b": b"\0"}, REFUSED, "answer: 4\n")
    yield row("answer 5: not whole words", "exec i --block b", {"i": EXIT, "b": b"\1\2\3"}, REFUSED, "answer: 5\n", "b: the input block")
    yield row("answer 5: too long", "exec i --block b", {"i": EXIT, "b": bytes(1048580)}, REFUSED, "answer: 5\n", "input block")


def number_rows():
    """Numbers out of range, and what is no number."""
    for option, most in (("--room", 65536), ("--limit", 2**64 - 1)):
        yield row("%s too large" % option, "exec i %s %d" % (option, most + 1), {"i": EXIT}, USAGE, "", option, "the most is %d" % most)
        yield row("%s much too large" % option, "exec i %s %s" % (option, "9" * 300), {"i": EXIT}, USAGE, "", "the most is")
        for wrong in ("x", "12x", "-1", "+1", "1.5", "0x10"):
            yield row("%s %s" % (option, wrong), "exec i %s %s" % (option, wrong), {"i": EXIT}, USAGE, "", option + " " + wrong, "no decimal number", "usage: doorlang")
    for command in ("run", "compare"):
        yield row("--fuel too large for " + command, "%s t --fuel %d" % (command, 2**64), {"t": GCD}, USAGE, "", "--fuel", "the most is %d" % (2**64 - 1))
        yield row("--fuel that is no number for " + command, command + " t --fuel x", {"t": GCD}, USAGE, "", "--fuel x", "no decimal number")
        yield row("--room too large for " + command, command + " t --room 65537", {"t": GCD}, USAGE, "", "--room", "the most is 65536")
        yield row("an input that is no number for " + command, command + " t --input n", {"t": GCD, "n": b"1 two"}, USAGE, "", "n: number 2 is not a decimal")
    for title, text, said in (("a word", b"1 2 three", "number 3 is not a decimal"), ("a dash", b"1 - 2", "number 2 is not a decimal"),
                              ("two dashes", b"--1", "number 1 is not a decimal"), ("a dash inside", b"1-2", "number 1 is not a decimal"),
                              ("a plus", b"+1", "number 1 is not a decimal"), ("a fraction", b"1.5", "number 1 is not a decimal"),
                              ("a dash at the end", b"1 -", "number 2 is not a decimal"), ("binary garbage", bytes(range(256)), "number 1 is not a decimal"),
                              ("above the range", b"0 2147483648", "number 2 is not between"), ("below the range", b"-2147483649", "number 1 is not between"),
                              ("far above the range", b"9" * 100000, "number 1 is not between"), ("too many", b"0 " * 262145, "more numbers")):
        yield row("input: " + title, "exec i --input n", {"i": EXIT, "n": text}, USAGE, "", "n: ", said)


def usage_rows():
    """Bad usage names what is wrong and prints the usage."""
    for title, arguments, *said in (("no command", "", "no command"), ("an unknown command", "fly i", "no such command", "fly"),
                                    ("no file", "exec", "lacks a file"), ("two files", "exec i j", "a file more", "j"),
                                    ("an unknown option", "exec i --loud 3", "no such option", "--loud"), ("a short option", "exec -i", "no such option", "-i"),
                                    ("an option of another command", "exec i --fuel 3", "no such option", "--fuel"), ("an option twice", "exec i --room 1 --room 1", "twice", "--room"),
                                    ("no value", "exec i --limit", "no value", "--limit"), ("input and block", "exec i --input a --block b", "--input and --block"),
                                    ("one file for build", "build i", "lacks a file"), ("no file for compare", "compare", "lacks a file"), ("two files for compare", "compare i j", "a file more", "j"),
                                    ("a limit for compare", "compare i --limit 3", "no such option", "--limit"), ("a memory for compare", "compare i --memory m", "no such option", "--memory"),
                                    ("input and block for compare", "compare i --input a --block b", "--input and --block"), ("help with a file", "help i", "a file more", "i"), ("help with an option", "help --room 3", "no such option", "--room"),
                                    ("an option as a value", "exec i --memory --limit", "no value", "--memory"), ("an option as a number", "exec i --room --limit 3", "no value", "--room"),
                                    ("many arguments", "exec" + " i" * 40, "more arguments")):
        yield row(title, arguments, {"i": EXIT, "j": EXIT}, USAGE, "", *said, "usage: doorlang")
    yield "an empty name", ["exec", ""], {}, USAGE, "", ("cannot read",)
    yield "a name that is too long", ["exec", "n" * 5000], {}, USAGE, "", ("longer than",)


def file_rows():
    """Files that cannot be read or written."""
    yield row("a missing image", "exec none", {}, USAGE, "", "cannot read none", "No such file")
    yield row("a folder as image", "exec .", {}, USAGE, "", "cannot read .")
    yield row("a missing input", "exec i --input none", {"i": EXIT}, USAGE, "", "cannot read none")
    yield row("a folder as input", "exec i --input .", {"i": EXIT}, USAGE, "", "cannot read .")
    yield row("a missing block", "exec i --block none", {"i": EXIT}, USAGE, "", "cannot read none")
    for command, more in (("check", ""), ("run", ""), ("build", " o"), ("compare", "")):
        yield row("a missing text for " + command, command + " none" + more, {}, USAGE, "", "cannot read none", "No such file")
        yield row("a folder as text for " + command, command + " ." + more, {}, USAGE, "", "cannot read .")
    for command in ("run", "compare"):
        yield row("a missing input for " + command, command + " t --input none", {"t": GCD}, USAGE, "", "cannot read none")
        yield row("a folder as block for " + command, command + " t --block .", {"t": GCD}, USAGE, "", "cannot read .")
    yield row("an endless image", "exec /dev/zero", {}, REFUSED, "answer: 4\n")
    yield row("memory that cannot be written", "exec i --memory none/m", {"i": EXIT}, USAGE, "", "cannot write none/m")
    yield row("an image over its text", "build t t", {"t": GCD}, USAGE, "", "t: the image would replace its text")
    for option, files in (("", {"i": EXIT}), ("--block b ", {"i": EXIT, "b": bytes(8)}), ("--input b ", {"i": EXIT, "b": b"1 2"})):
        over = "b" if option else "i"
        yield row("memory over %s %s" % (option, over), "exec i %s--memory %s" % (option, over), files, USAGE, "", over + ": the memory would replace")
    yield row("memory on a full device", "exec i --memory /dev/full", {"i": EXIT}, USAGE, "", "cannot write /dev/full")


ECHO = b"fn f(x: int): int { emit x; return x; }\n"
DEPTH = b"fn f(n: int): int { if n == 0 { return 0; } else { return 1 + f(n - 1); } }\n"


def main_of(body, before=b""):
    return before + b"fn main() { " + body + b" }\n"


# Document 01 section 6: a text, its arrays, the outcome, the log, the arrays after it, and the fuel used.
RUNS = (
    ("text G", GCD, "", "finished", "6 6 5", "", 97),
    ("text Z, quiet", ZONES, "10 20 30 69 0 0", "finished", "", "10 20 30 69 0 0", 96),
    ("text Z, one", ZONES, "10 70 30 5 0 0", "finished", "1", "10 70 30 5 1 0", 101),
    ("text Z, two", ZONES, "99 20 -1 5 0 0", "finished", "0 2 100", "99 20 -1 5 1 1", 108),
    ("nothing", main_of(b""), "", "finished", "", "", 0),
    ("one emit", main_of(b"emit 1;"), "", "finished", "1", "", 2),
    ("trap 1", main_of(b"emit 1; emit 7 / (3 - 3); emit 2;"), "", "trap 1", "1", "", 8),
    ("signs", main_of(b"let m: int = -2147483647 - 1; emit m / -1; emit m % -1; emit -7 / 2; emit -7 % 2; emit 7 / -2; emit 7 % -2; emit -m;"), "", "finished",
     "-2147483648 0 -3 -1 -3 1 -2147483648", "", 38),
    ("wrapping", main_of(b"emit 2147483647 + 1; emit 65536 * 65536; emit 65537 * 65537;"), "", "finished", "-2147483648 0 131073", "", 12),
    ("trap 2", main_of(b"a[2] = 5; emit a[2]; emit a[3];", b"var a: int[3];\n"), "0 0 0", "trap 2", "5", "0 0 5", 9),
    ("left to right", main_of(b"emit f(1) + f(2) * f(3);", ECHO), "", "finished", "1 2 3 7", "", 21),
    ("index, value, test", main_of(b"a[f(1)] = f(0); a[f(2)] = f(9) / 0;", ECHO + b"var a: int[2];\n"), "0 0", "trap 1", "1 0 2 9", "0 0", 28),
    ("64 activations", main_of(b"emit f(62);", DEPTH), "", "finished", "62", "", 691),
    ("65 activations", main_of(b"emit f(63);", DEPTH), "", "trap 3", "", "", 696),
)

# A text whose image is too long: seven operands wait in registers, which each call saves and restores.
WAITING = b"t * t + (" * 7
LONG_IMAGE = main_of(b"let t: int = 1; emit " + WAITING + b"f()" + b"+f()" * 16000 + b")" * 7 + b";", b"fn f(): int { return 1; }\n")

# Document 01 section 6: texts that are refused, the answer, and the place that is said.
REFUSALS = (
    ("a number too large", main_of(b"emit 2147483648;"), 1, "t:1:18"),
    ("a leading zero", main_of(b"emit 01;"), 1, "t:1:18"),
    ("a letter after a number", main_of(b"emit 12a;"), 1, "t:1:"),
    ("a long name", main_of(b"let " + b"n" * 33 + b": int = 0;"), 1, "t:1:"),
    ("a chain of comparisons", main_of(b"if 1 < 2 < 3 { }"), 1, "t:1:"),
    ("32 parentheses", main_of(b"emit " + b"(" * 32 + b"1" + b")" * 32 + b";"), 1, "t:1:"),
    ("an upper-case letter", b"fn Main() { }\n", 1, "t:1:4"),
    ("a fault in the third line", b"# a\n# b\n  @\n", 1, "t:3:3"),
    ("binary garbage", bytes(range(256)), 1, "t:1:1"),
    ("a text that is too long", b" " * 65536 + b"\n", 1, "t:1:65537: the text is longer than 65536 bytes"),
    ("a huge text", b"#" * 1000000, 1, "the text is longer than 65536 bytes"),
    ("a text that ends too soon", b"fn main() {\n", 1, "t:2:1: the text ends too soon"),
    ("the empty text", b"", 2, "t:1:1: there is no function main"),
    ("no main", b"fn f() { }\n", 2, "t:2:1: there is no function main"),
    ("a let that hides", main_of(b"let a: int = 1; let a: int = 2;"), 2, "t:1:33: a rule of names"),
    ("a let in its own value", main_of(b"let a: int = a;"), 2, "t:1:"),
    ("an order of bools", main_of(b"if true < false { }"), 2, "t:1:"),
    ("an array without index", main_of(b"emit a;", b"var a: int[1];\n"), 2, "t:2:"),
    ("a while at the end", b"fn f(): int { while true { return 1; } }\n" + main_of(b""), 2, "t:"),
    ("an if without else at the end", b"fn f(): int { if true { return 1; } }\n" + main_of(b""), 2, "t:"),
)


def lines(**values):
    return "".join("%s:%s\n" % (key.replace("_", "-"), " " + str(value) if value != "" else "") for key, value in values.items())


# K and K0 of docs/CLAIMS.md.
STEPS_FOR_FUEL, STEPS_BESIDES = 128, 80


def text_rows():
    """Every answer to a text, and every vector of its run."""
    for title, text, answer, said in REFUSALS:
        for command in ("check t", "run t", "build t i", "compare t"):
            yield row("%s: %s" % (command, title), command, {"t": text}, REFUSED, "answer: %d\n" % answer, said)
    for title, text, arrays, outcome, log, after, fuel in RUNS:
        status = ACCEPTED if outcome == "finished" else STOPPED
        yield row("check: " + title, "check t", {"t": text}, ACCEPTED, "answer: 0\n", "accepted")
        yield row("run: " + title, "run t --input n", {"t": text, "n": arrays.encode()}, status,
                  lines(answer=0, outcome=outcome, fuel=fuel, log=log, arrays=after))
    yield row("run: zeros", "run t", {"t": ZONES}, ACCEPTED, lines(answer=0, outcome="finished", fuel=96, log="", arrays="0 0 0 0 0 0"))
    yield row("run: a raw block", "run t --block b", {"t": ZONES, "b": struct.pack("<6i", 99, 20, -1, 5, 0, 0)}, ACCEPTED,
              lines(answer=0, outcome="finished", fuel=108, log="0 2 100", arrays="99 20 -1 5 1 1"))
    yield row("run: out of fuel", "run t --fuel 1000", {"t": main_of(b"while true { }")}, STOPPED, lines(answer=0, outcome="out of fuel", fuel=1000, log="", arrays=""), "fuel")
    yield row("run: no fuel", "run t --fuel 0", {"t": main_of(b"emit 1;")}, STOPPED, lines(answer=0, outcome="out of fuel", fuel=0, log="", arrays=""))
    yield row("run: trap 4", "run t --room 2", {"t": main_of(b"emit 1; emit 2; emit 3;")}, STOPPED, lines(answer=0, outcome="trap 4", fuel=6, log="1 2", arrays=""), "full")
    for command in ("run", "compare"):
        for title, numbers in (("too few", b"1 2 3 4 5"), ("too many", b"1 2 3 4 5 6 7"), ("none", b"")):
            yield row("%s: answer 5, %s" % (command, title), command + " t --input n", {"t": ZONES, "n": numbers}, REFUSED, "answer: 5\n",
                      "n: it has %d numbers" % len(numbers.split()))
        yield row(command + ": answer 5, not whole words", command + " t --block b", {"t": ZONES, "b": bytes(23)}, REFUSED, "answer: 5\n", "b: it has 23 bytes")
        yield row(command + ": answer 1 before 5", command + " t --block b", {"t": b"@", "b": bytes(3)}, REFUSED, "answer: 1\n")
    for command in ("build t i", "compare t"):
        yield row(command + ": answer 3", command, {"t": LONG_IMAGE}, REFUSED, "answer: 3\n", "does not fit")
    yield row("compare: answer 3 before 5", "compare t --block b", {"t": LONG_IMAGE, "b": bytes(3)}, REFUSED, "answer: 3\n")
    yield row("compare: out of fuel", "compare t --fuel 1000", {"t": main_of(b"while true { }")}, STOPPED,
              lines(answer=0, outcome="out of fuel", fuel=1000, log="", arrays="", image_stop="limit", image_steps=STEPS_FOR_FUEL * 1000 + STEPS_BESIDES, image_log="", image_arrays="", agree="yes"))


def examples():
    """Each program of examples/: its name, text, input and expected lines."""
    folder = os.path.join(os.path.dirname(os.path.abspath(__file__)), "..", "..", "examples")
    read = lambda name: open(os.path.join(folder, name), "rb").read()
    for name in sorted(f[:-5] for f in os.listdir(folder) if f.endswith(".rule")):
        yield name, read(name + ".rule"), read(name + ".txt"), read(name + ".expected").decode()


def example_rows():
    for name, text, numbers, expected in examples():
        status = ACCEPTED if "outcome: finished" in expected else STOPPED
        yield row("example " + name, "run t --input n", {"t": text, "n": numbers}, status, expected)


def run(program, folder, arguments, **more):
    more.setdefault("stdout", subprocess.PIPE)
    return subprocess.run([program, *arguments], cwd=folder, stdin=subprocess.DEVNULL, stderr=subprocess.PIPE, timeout=SECONDS, **more)


class Suite:
    def __init__(self, program):
        self.program, self.passed, self.failed = program, 0, 0

    def judge(self, title, *wrongs):
        wrongs = [w for w in wrongs if w]
        if wrongs:
            self.failed += 1
            print("FAILED: %s: %s" % (title, "; ".join(wrongs)))
        else:
            self.passed += 1

    def row(self, title, arguments, files, status, out, said):
        with tempfile.TemporaryDirectory() as folder:
            for name, content in files.items():
                with open(os.path.join(folder, name), "wb") as f:
                    f.write(content)
            got = run(self.program, folder, arguments)
            error = got.stderr.decode(errors="replace")
            self.judge(title,
                       got.returncode != status and "status %d, not %d" % (got.returncode, status),
                       got.stdout.decode(errors="replace") != out and "wrote %r, not %r" % (got.stdout[:300], out[:300]),
                       *("standard error lacks %r: %r" % (s, error[:300]) for s in said if s not in error),
                       {name: open(os.path.join(folder, name), "rb").read() for name in os.listdir(folder)} != files and "left other files")

    def built(self, title, text, arrays, outcome, log, after):
        """An image that build writes runs as its text does."""
        with tempfile.TemporaryDirectory() as folder:
            for name, content in (("t", text), ("n", arrays.encode())):
                with open(os.path.join(folder, name), "wb") as f:
                    f.write(content)
            made = run(self.program, folder, ["build", "t", "i"])
            words = os.path.getsize(os.path.join(folder, "i")) // 4 if made.returncode == 0 else 0
            got = run(self.program, folder, ["exec", "i", "--input", "n"])
            wrote = dict(line.split(":", 1) for line in got.stdout.decode().splitlines())
            wanted = {"stop": outcome.replace("finished", "exit"), "log": log, "arrays": after}
            self.judge("build: " + title, made.returncode != 0 and "build ends with %d" % made.returncode,
                       made.stdout.decode() != "answer: 0\nwords: %d\n" % words and "build wrote %r" % made.stdout,
                       *("%s is %r, not %r" % (k, wrote.get(k), v) for k, v in wanted.items() if wrote.get(k, "").strip() != v))

    def builds(self):
        for title, text, arrays, outcome, log, after, _ in RUNS:
            self.built(title, text, arrays, outcome, log, after)
        for name, text, numbers, expected in examples():
            wanted = dict(line.split(":", 1) for line in expected.splitlines())
            self.built("example " + name, text, numbers.decode(), *(wanted[k].strip() for k in ("outcome", "log", "arrays")))
        with tempfile.TemporaryDirectory() as folder:
            with open(os.path.join(folder, "t"), "wb") as f:
                f.write(GCD)
            got = run(self.program, folder, ["build", "t", "none/i"])
            self.judge("build: an image that cannot be written", got.returncode != USAGE and "status %d" % got.returncode, got.stdout and "wrote %r" % got.stdout)

    def compared(self, title, files, options=""):
        """compare writes the lines of run, then those of the image's run, which does the same."""
        with tempfile.TemporaryDirectory() as folder:
            for name, content in files.items():
                with open(os.path.join(folder, name), "wb") as f:
                    f.write(content)
            ran = run(self.program, folder, ["run", "t", *options.split()])
            got = run(self.program, folder, ["compare", "t", *options.split()])
        own, both = ran.stdout.decode(), got.stdout.decode()
        said = b"as far as the fuel went, the image logs the same" if b"out of fuel" in ran.stdout else b"the image does the same"
        of = {key: value.strip() for key, value in (line.split(":", 1) for line in both.splitlines())}
        image = lines(image_stop=of.get("image-stop", ""), image_steps=of.get("image-steps", ""), image_log=of.get("image-log", ""), image_arrays=of.get("image-arrays", ""), agree="yes")
        if of.get("outcome") == "out of fuel":
            same = "fault" not in of["image-stop"] and of["image-log"].split()[:len(of["log"].split())] == of["log"].split()
        else:
            same = [of.get(k) for k in ("outcome", "log", "arrays")] == [of.get(k, "").replace("exit", "finished") for k in ("image-stop", "image-log", "image-arrays")]
        self.judge("compare: " + title,
                   got.returncode != ran.returncode and "status %d, not %d" % (got.returncode, ran.returncode),
                   both != own + image and "wrote %r" % both[:300],
                   not same and "not the same: %r" % both[:300],
                   int(of.get("image-steps", 0)) > STEPS_FOR_FUEL * int(of.get("fuel", 0)) + STEPS_BESIDES and "too many steps",
                   got.stderr != ran.stderr + b"doorlang: t: " + said + b"\n" and "said %r" % got.stderr)

    def compares(self):
        for title, text, arrays, *_ in RUNS:
            self.compared(title, {"t": text, "n": arrays.encode()}, "--input n")
        for name, text, numbers, _ in examples():
            self.compared("example " + name, {"t": text, "n": numbers}, "--input n")
            for fuel in (0, 1, 50):
                self.compared("example %s, fuel %d" % (name, fuel), {"t": text, "n": numbers}, "--input n --fuel %d" % fuel)
            for room in (0, 1):
                self.compared("example %s, room %d" % (name, room), {"t": text, "n": numbers}, "--input n --room %d" % room)
        self.compared("zeros", {"t": ZONES})
        self.compared("a raw block", {"t": ZONES, "b": struct.pack("<6i", 99, 20, -1, 5, 0, 0)}, "--block b")
        self.compared("no fuel, and an image that ends", {"t": main_of(b"emit 1;")}, "--fuel 0")
        self.compared("the largest fuel", {"t": GCD}, "--fuel 18446744073709551615")
        self.compared("trap 4 at a full log", {"t": main_of(b"emit 1; emit 2; emit 3;")}, "--room 2")
        self.compared("the largest room", {"t": main_of(b"while true { emit 7; }")}, "--room 65536")

    def memory(self):
        """--memory writes the memory of document 03 section 1 after the run."""
        with tempfile.TemporaryDirectory() as folder:
            for name, content in (("i", NEXT), ("n", b"41 0"), ("b", b"\0")):
                with open(os.path.join(folder, name), "wb") as f:
                    f.write(content)
            got = run(self.program, folder, ["exec", "i", "--input", "n", "--memory", "m"])
            with open(os.path.join(folder, "m"), "rb") as f:
                memory = f.read()
            wanted = (bytes(0x1000) + NEXT).ljust(0x100000, b"\0") + struct.pack("<II", 41, 42)
            self.judge("memory", got.returncode != 0 and "status %d" % got.returncode, memory != wanted.ljust(0x200000, b"\0") and "another memory")
            got = run(self.program, folder, ["exec", "b", "--memory", "none"])
            self.judge("no memory of a refused run", got.returncode != REFUSED and "status %d" % got.returncode, os.path.exists(os.path.join(folder, "none")) and "it is there")

    def no_output(self):
        """Standard output that cannot be written is no success: a full device, a reader that went away, none at all."""
        gone, pipe = os.pipe()
        os.close(gone)
        with tempfile.TemporaryDirectory() as folder, open("/dev/full", "wb") as full:
            for name, content in (("i", EXIT), ("t", GCD), ("w", b"@")):
                with open(os.path.join(folder, name), "wb") as f:
                    f.write(content)
            for arguments in ("exec i", "run t", "compare t", "check t", "help", "check w", "exec w"):
                for title, more in (("a full output", {"stdout": full}), ("a reader that went away", {"stdout": pipe}), ("no output", {"preexec_fn": lambda: os.close(1)})):
                    got = run(self.program, folder, arguments.split(), **more)
                    self.judge("%s with %s" % (arguments, title), got.returncode != USAGE and "status %d" % got.returncode, not got.stderr and "said nothing")
        os.close(pipe)

    def help(self):
        for word in ("help", "--help", "-h"):
            got = run(self.program, ".", [word])
            self.judge(word, got.returncode != 0 and "status %d" % got.returncode, not got.stdout.startswith(b"usage: doorlang check") and "no usage", got.stderr and "said something")


def main(program):
    suite = Suite(os.path.abspath(program))
    for rows in (exec_rows, text_rows, example_rows, number_rows, usage_rows, file_rows):
        for one in rows():
            suite.row(*one)
    suite.memory()
    suite.builds()
    suite.compares()
    suite.no_output()
    suite.help()
    print("%d passed, %d failed" % (suite.passed, suite.failed))
    return 1 if suite.failed else 0


if __name__ == "__main__":
    sys.exit(main(sys.argv[1]))
