"""Cases of document 01 section 5 and of document 03 section 5: runs, interpreted and compiled, and what `meaning` says of them.

A line is a letter, numbers in hex, and bytes. `i` is a run, interpreted; `u` the same with every fuel from 0 up to the given one; `e` a run, interpreted,
and then compiled and emulated; `f` that with how many words the image has and how many steps it ran. The numbers of a run: bits that say which of
the four buffers of working room is a word short; the fuel, of which the emulated run has a hundred steps for each unit and a thousand besides; the
log's room; how many words of log and of arrays are lent; how many bytes the input block has. The bytes are the block's, then the text's. `o` is a text
compiled into a buffer: those bits, the bytes of the buffer, and the text."""
import meaning
import rules
from asking import answers, escaped, line, main, spread, title
from figures import FIGURES, LONG
from programs import programs
from texts import DOWN, ENDLESS, F, G, RUNS, Z

MASK = 2**32 - 1
LONGEST = 524288
FEW = 16  # so many words of arrays are said one by one


def mixed(words):
    s = 0
    for w in words: s = (s * 31 + w) % 2**32
    return s


def said(log, arrays):
    log, arrays = [v & MASK for v in log], [v & MASK for v in arrays]
    shown = "".join(" %x" % w for w in arrays) if len(arrays) <= FEW else " %d sum %08x" % (len(arrays), mixed(arrays))
    return "log%s arrays%s kept" % ("".join(" %x" % w for w in log), shown)


def refusal(text, short, room, log, arrays, size):
    """The answer and its place, or the text's items."""
    if short: return 6, 0, None
    number, at, items = rules.check(text)
    if number: return number, at, None
    elements = sum(i[3] for i in items if i[0] == "array")
    if size != 4 * elements: return 5, 0, None
    if arrays < elements or log < room: return 6, 0, None
    return 0, 0, items


def bytes_of(words, size):
    """The bytes of a block, so many, in pieces of equal words."""
    pieces, left = [], size
    for w in words:
        word = (w & MASK).to_bytes(4, "little")
        if left < 4: word = word[:left]
        left -= len(word)
        if pieces and pieces[-1][1] == word: pieces[-1] = (pieces[-1][0] + 1, word)
        elif word: pieces.append((1, word))
    assert left == 0
    return [word if n == 1 else (n, word) for n, word in pieces]


def run(kind, pieces, block=(), fuel=5000, room=64, short=0, log=None, arrays=None, size=None):
    """One line; the run, or None where it is refused."""
    pieces = [pieces] if isinstance(pieces, bytes) else pieces
    text, log = spread(pieces), room + 3 if log is None else log
    size = 4 * len(block) if size is None else size
    arrays = size // 4 + 2 if arrays is None else arrays
    head = "%s %s %s" % (kind, " ".join("%x" % n for n in (short, fuel, room, log, arrays, size)), escaped(bytes_of(block, size) + list(pieces)))
    number, at, items = refusal(text, short, room, log, arrays, size)
    if number:
        assert kind == "i"
        line(head, "answer %d at %d kept" % (number, at))
        return None
    if kind == "u":
        line(head, *[interpreted(meaning.Run(items, list(block), n, room)) for n in range(fuel + 1)])
        return None
    r = meaning.Run(items, list(block), fuel, room)
    line(head, interpreted(r))
    if kind in "ef": emulated(r, text, block, kind == "f")
    return r


def interpreted(r):
    return "%s fuel %d %s" % (r.outcome, r.used, said(r.log, r.words))


def emulated(r, text, block, counted):
    """The same, but that a run out of fuel is at its limit."""
    figures = " words %d steps %d" % FIGURES[text, tuple(block)] if counted else ""
    answers.append("%s%s %s" % (r.outcome.replace("out of fuel", "limit"), figures, said(r.log, r.words)))


def document():
    title("document 01 section 6: texts G and Z, the bodies of main, and an endless one; interpreted, and compiled with words and steps")
    for text, block, outcome, log, fuel, arrays in RUNS:
        r = run("f", text, block)
        assert (r.outcome, r.log, r.used) == (outcome, log, fuel) and arrays in (None, r.words), text
    r = run("e", ENDLESS, fuel=1000)
    assert (r.outcome, r.log, r.used) == ("out of fuel", [], 1000)
    assert run("e", main(b"emit --5;")).log == [5]
    assert run("e", main(b"if true == false { emit 1; } else { emit 2; }")).log == [2]
    title("text G with every fuel from 0 to 98, and text Z with every fuel from 0 to 109")
    run("u", G, fuel=98)
    run("u", Z, [99, 20, -1, 5, 0, 0], fuel=109)


POSITIONS = [b"emit %s;", b"let x: int = %s;", b"y = %s;", b"a[%s] = f(5);", b"a[f(1)] = %s;", b"emit a[%s];", b"f(%s);", b"g(f(1), %s, f(2));", b"emit g(f(1), %s, f(2));", b"emit f(f(%s));", b"emit -(%s);", b"emit f(1) + %s;", b"emit %s + f(1);", b"emit f(3) * %s - f(4);",
             b"if %s == 0 { emit 1; } else { emit 2; }", b"if f(1) == %s { emit 1; }", b"while %s < 3 { emit 1; }", b"if t(true) && %s == 1 { emit 1; }", b"if t(false) || %s == 1 { emit 1; }", b"if %s == 1 || t(true) { emit 1; }", b"if !(%s == 1) { emit 1; }",
             b"if t(false) && %s == 1 { emit 1; } else { emit 2; }", b"if t(true) || %s == 1 { emit 3; }", b"emit r(%s);", b"emit h();", b"if true { while true { emit %s; } }"]
HELPERS = F + b"fn t(b: bool): bool { emit 7; return b; } fn g(x: int, y: int, z: int): int { return x + y * z; } fn r(x: int): int { return x / (x - x) + %s; } fn h(): int { return %s; } fn deep(n: int): int { return deep(n - 1); } "


def traps():
    for what, e in (("1", b"f(6) / (y - y)"), ("1, by a remainder", b"(f(6) % (y - y))"), ("2", b"a[f(3)]"), ("2, below 0", b"a[-f(1)]"), ("3", b"deep(0)")):
        title("trap %s in every position" % what)
        for p in POSITIONS: position(p, e)
    title("trap 2 of a write: the index is tested after the value, at 0, at the size, below 0, and far away")
    for i in (b"0", b"2", b"3", b"4", b"-1", b"-2147483647 - 1", b"2147483647", b"65536", b"1073741824", b"1073741826"): run("e", b"var b: int[2]; " + F + b"var a: int[3]; var c: int[2]; " + main(b"a[%s] = f(9); emit a[%s];" % (i, i)), [1, 2, 3, 4, 5, 6, 7])
    run("e", F + b"var a: int[2]; " + main(b"a[f(2)] = f(9) / 0;"), [1, 2])
    run("e", F + b"var a: int[2]; " + main(b"a[f(2)] = f(9);"), [1, 2])
    run("e", F + b"var a: int[2]; " + main(b"a[a[f(0)]] = a[f(1)]; emit a[0]; emit a[1];"), [1, 7])
    run("e", b"var a: int[3]; fn w(i: int, v: int): int { a[i] = v; return i; } " + main(b"a[w(1, 5)] = w(2, 6) + a[1]; emit a[0]; emit a[1]; emit a[2];"), [0, 0, 0])
    title("trap 4: the log full at once, after one, after two, exactly full; and a trap in what would be logged")
    for room in (0, 1, 2, 3, 4):
        run("e", main(b"emit 1; emit 2; emit 3;"), room=room)
        run("e", F + main(b"emit f(1) + f(2);"), room=room)
    run("e", main(b""), room=0)
    run("e", main(b"emit 1 / 0;"), room=0)
    run("e", b"var a: int[1]; " + main(b"emit a[1];"), [0], room=0)
    run("e", b"var a: int[1]; " + main(b"a[0] = 5; emit 1; a[0] = 6;"), [0], room=0)


def position(place, e):
    """An expression that traps, in its place, with what is logged and stored before it."""
    text = b"var a: int[3]; " + HELPERS.replace(b"%s", e.replace(b"y", b"1")) + main(b"let y: int = 1; a[2] = 4; " + place.replace(b"%s", e))
    run("e", text, [1, 2, 3])


def activations():
    title("activations: 64 and 65 at once, by one function, by two that call each other, by statements, by main itself")
    for n in (61, 62, 63, 64): run("e", DOWN + main(b"emit f(%d);" % n))
    even = b"fn even(n: int): bool { if n == 0 { return true; } else { return odd(n - 1); } } fn odd(n: int): bool { if n == 0 { return false; } else { return even(n - 1); } } "
    for n in (61, 62, 63): run("e", even + main(b"if even(%d) { emit 1; } else { emit 0; }" % n))
    down = b"var a: int[1]; fn f(n: int) { a[0] = a[0] + 1; emit n; if n > 0 { g(n - 1); } emit n; } fn g(n: int) { f(n); } "
    for n in (31, 30, 32): run("e", down + main(b"f(%d);" % n), [0], room=200)
    run("e", b"var a: int[1]; " + main(b"a[0] = a[0] + 1; emit a[0]; if a[0] < 64 { main(); } emit a[0];"), [0], room=200)
    run("e", b"var a: int[1]; " + main(b"a[0] = a[0] + 1; emit a[0]; main();"), [0], room=200)
    title("activations: trap 3 comes after the arguments are evaluated, and before the function begins")
    run("e", F + b"fn deep(n: int, m: int): int { if n == 62 { return deep(n + 1, f(n)); } else { return deep(n + 1, 0); } } " + main(b"emit deep(1, 0);"))
    run("e", b"fn deep(n: int, m: int): int { return deep(n + 1, 1 / (62 - n)); } " + main(b"emit deep(1, 0);"))
    run("e", b"fn deep(n: int, m: int): int { return deep(n + 1, 1 / (63 - n)); } " + main(b"emit deep(1, 0);"))
    run("e", b"fn deep(n: int, m: int): int { return deep(n + 1, 1 / (64 - n)); } " + main(b"emit deep(1, 0);"))
    run("e", b"fn deep(n: int) { if n > 0 { deep(n - 1); deep(n - 1); } } " + main(b"deep(6); emit 1;"))
    title("activations: 64 of a function with 64 locals, as deep in blocks and in an expression as may be")
    lets = b"".join(b"let v%d: int = n * %d + %d;" % (k, k + 1, k) for k in range(55))
    many = b"fn f(n: int, p1: int, p2: int, p3: int, p4: int, p5: int, p6: int, p7: int): int { " + lets + b"if n == 0 { return p7; } let s: int = %s; return s + v0 + v54 + p7; } "
    for n in (62, 63):
        run("e", [many.split(b"%s")[0], (30, b"(1 + "), b"f(n - 1, p2, p3, p4, p5, p6, p7, p1 + v7)", (30, b")"), many.split(b"%s")[1], main(b"emit f(%d, 1, 2, 3, 4, 5, 6, 7);" % n)], fuel=50000)
        run("e", [b"fn f(n: int): int { ", (29, b"if n > 0 { "), b"return -f(n - 1);", (29, b" }"), b" return 5; } ", main(b"emit f(%d);" % n)], fuel=50000)
        run("e", [b"fn f(n: int): int { if n == 0 { return 1; } else { return ", (14, b"-(1 - "), b"f(n - 1)", (14, b")"), b"; } } ", main(b"emit f(%d);" % n)], fuel=50000)


def arithmetic():
    values = [0, 1, -1, 2, -2, 3, 7, -7, 10, 2147483647, -2147483647, -2147483648, 65536, 46341, 4095, 2048]
    title("arithmetic: every operator on two of sixteen numbers, from arrays and from locals")
    for sign in ("+", "-", "*"):
        run("e", b"var a: int[16]; " + main(b"let i: int = 0; while i < 16 { let j: int = 0; while j < 16 { emit a[i] %s a[j]; j = j + 1; } i = i + 1; }" % sign.encode()), values, room=256, fuel=9000)
    for sign in ("/", "%"):
        run("e", b"var a: int[16]; " + main(b"let i: int = 0; while i < 16 { let j: int = 1; while j < 16 { emit a[i] %s a[j]; j = j + 1; } i = i + 1; }" % sign.encode()), values, room=256, fuel=9000)
    for sign in ("==", "!=", "<", "<=", ">", ">="):
        run("e", b"var a: int[16]; " + main(b"let i: int = 0; while i < 16 { let x: int = a[i]; let s: int = 0; let j: int = 0; while j < 16 { s = s + s; if x %s a[j] { s = s + 1; } j = j + 1; } emit s; i = i + 1; }" % sign.encode()), values, room=256, fuel=9000)
    for sign in (b"==", b"!="):
        run("e", main(b"let t: bool = true; let f: bool = false; let x: bool = t %s f; if x { emit 1; } if f %s t { emit 2; } if t %s t { emit 3; } if f %s f { emit 4; }" % ((sign,) * 4)))
    title("arithmetic: on numbers that stand in the text")
    for sign in ("+", "-", "*", "/", "%"):
        run("e", main(b"".join(b"emit %s %s %s;" % (number(a), sign.encode(), number(b)) for a in values for b in (1, -1, 3, -7, 2147483647, -2147483648, 2048, -2048, 2047, 4096))), room=200)
    for sign in ("==", "!=", "<", "<=", ">", ">="):
        run("e", main(b"".join(b"if %s %s %s { emit %d; }" % (number(a), sign.encode(), number(b), k) for k, (a, b) in enumerate((a, b) for a in (0, 1, -1, 2147483647, -2147483648) for b in (0, 1, -1, 2147483647, -2147483648)))), room=200)
    title("arithmetic: a number, added, taken away, compared, multiplied; negated; `a - b - c`; -7 / 2")
    for n in (0, 1, 2047, 2048, 2049, 4095, 4096, 65535, 65536, 2147481600, 2147483646, 2147483647): run("e", main(b"let x: int = 5; emit %d; emit x + %d; emit x - %d; emit x * %d; emit -%d; emit x + -%d; if x < %d { emit 1; } if %d <= x { emit 2; } if x == %d { emit 3; } if x > -%d { emit 4; }" % ((n,) * 10)))
    run("e", main(b"let a: int = 10; let b: int = 3; let c: int = 2; emit a - b - c; emit a - (b - c); emit a / b / c; emit a / (b / c); emit a % b * c; emit a * b % c; emit -a - -b; emit -7 / 2; emit - - -a; emit a - b * c - a;"))


def number(n):
    """In parentheses, if it is below 0."""
    return b"(-2147483647 - 1)" if n == -2**31 else b"%d" % n if n >= 0 else b"(-%d)" % -n


def skipping():
    title("`&&` and `||` evaluate their right side only if needed")
    head = b"fn t(n: int, b: bool): bool { emit n; return b; } "
    for a in (b"true", b"false"):
        for b in (b"true", b"false"):
            for c in (b"true", b"false"):
                sides = b"t(1, %s)" % a, b"t(2, %s)" % b, b"t(3, %s)" % c
                body = b"".join(b"if %s { emit 10; } else { emit 20; } let v%d: bool = %s; if v%d { emit 30; }" % (e, k, e, k) for k, e in enumerate(
                    x % sides for x in (b"%s && %s && %s", b"%s || %s || %s", b"%s && %s || %s", b"%s || %s && %s", b"(%s || %s) && %s", b"!(%s && !%s) == %s", b"%s != %s && %s")))
                run("e", head + main(body), room=200)
    run("e", head + main(b"let n: int = 0; while t(n, n < 3) && t(10, true) || t(20, n < 5) { n = n + 1; }"), room=200)
    run("e", head + main(b"emit 1; if false && t(1, true) || true || t(2, 1 / 0 == 0) { emit 2; }"))


def statements():
    title("statements: loops, returns out of them, dropped results, locals that begin anew, arrays across calls")
    for text, block in ((main(b"let i: int = 0; while i < 3 { let x: int = i * i; emit x; i = i + 1; } emit i;"), []), (b"fn f(): int { while true { return 3; } return 4; } " + main(b"emit f(); f();"), []), (b"fn f(n: int) { while true { if n == 0 { return; } emit n; n = n - 1; } } " + main(b"f(3); f(0);"), []),
                        (b"var a: int[2]; fn add(k: int) { a[0] = a[0] + k; a[1] = a[1] + 1; } " + main(b"add(5); add(-2); emit a[0]; emit a[1]; return; emit 9;"), [10, 20]), (b"fn f(x: int): int { x = x + 1; return x; } " + main(b"let x: int = 1; emit f(x); emit x; x = f(f(x)); emit x;"), []),
                        (b"fn f(a: bool, b: bool): bool { return a && !b; } " + main(b"let x: bool = f(true, false); if x { emit 1; } x = !x; if x { emit 2; } if x == false { emit 3; }"), []), (main(b"if true { } else { emit 1; } while false { emit 2; } if false { emit 3; } else { } emit 4;"), []),
                        (b"fn g(n: int): int { let x: int = n; if n > 0 { let y: int = g(n - 1); x = x + y; } let z: int = x; return z; } " + main(b"emit g(10);"), []), (main(b"return;"), []), (main(b"return; return;"), []), (b"fn f() { return; } " + main(b"f(); emit 1; f();"), [])): run("e", text, block)
    title("arrays: the largest, the most of them, first and last elements")
    run("e", b"var a: int[4096]; var b: int[4096]; var c: int[4096]; var d: int[4096]; " + main(b"a[0] = 1; a[4095] = 2; b[0] = 3; b[4095] = 4; c[0] = 5; c[4095] = 6; d[0] = 7; d[4095] = 8; emit a[4095] + b[0]; emit d[4095]; emit d[4094]; emit d[4096];"), [9] * 16384)
    run("e", b"".join(b"var a%d:int[%d];" % (k, k + 1) for k in range(64)) + main(b"".join(b"a%d[%d]=%d;" % (k, k, k + 1) for k in range(64)) + b"emit a63[0]; emit a63[63]; emit a0[0];"), [3] * 2080)
    run("e", b"var a: int[1]; " + main(b"a[a[0]] = 7; emit a[0]; emit a[a[0]];"), [0])


def refused():
    title("refused: input blocks that are too short, too long, or no whole words; then as they must be")
    for size in (0, 1, 4, 20, 23, 25, 27, 28): run("i", Z, [1] * 7, size=size)
    run("i", Z, [1] * 6)
    for size in (1, 3, 4): run("i", G, [1], size=size)
    run("i", b"var a: int[4096]; " + main(b""), [1] * 4095)
    run("i", b"var a: int[4096]; " + main(b""), [1] * 4097)
    title("refused: arrays or log lent too short; the smaller answer first; then exactly long enough")
    run("i", Z, [1] * 6, arrays=5)
    run("i", Z, [1] * 6, arrays=0)
    run("i", Z, [1] * 6, arrays=6)
    for log in (7, 8): run("i", G, room=8, log=log)
    run("i", G, room=1, log=0)
    run("i", main(b""), room=0, log=0)
    run("i", main(b"emit 1;"), room=0, log=0)
    run("i", Z, [1] * 5, arrays=0, room=8, log=0)
    run("i", main(b"emit x;"), [1], room=8, log=0)
    run("i", main(b"emit 01;"), [1], room=8, log=0)
    title("refused: working room a word short, whatever else; unreadable texts and broken rules")
    for short in (1, 2, 4, 8):
        run("i", G, short=short)
        run("i", b"\x00", [1], short=short, room=8, log=0)
    for text in (b"", b"\x00", main(b"emit 1"), main(b"emit true;"), b"fn main(): int { return 1; }"): run("i", text)


def images():
    title("compiled: unreadable texts, broken rules, working room a word short")
    for text in (b"", b"\x00", main(b"emit 1"), main(b"emit true;")): compiled([text])
    for short in (1, 2, 4, 8): compiled([G], short)
    title("compiled: an image that just fits its buffer, and buffers that are too short for it")
    for text in (G, main(b"")):
        size = 4 * FIGURES[text, ()][0]
        for room in (size, size + 1, size + 64, size - 1, size - 4, 0): compiled([text], 0, room, size)
    title("compiled: an image of 524,288 bytes, and one that is longer")
    for room in (LONGEST, LONGEST + 16, LONGEST - 1): compiled(long_text(LONG[1]), 0, room, LONGEST)
    compiled(long_text(LONG[1] + 1), 0, LONGEST + 16, LONGEST + 8)


def long_text(sums):
    return [b"var a:int[9];fn f(b:int,x:int){x=x", (LONG[0], b"/a[b]"), b";x=x", (sums, b"+b"), b";}fn main(){}"]


def compiled(pieces, short=0, room=4096, size=0):
    """A text whose image has so many bytes, compiled into a buffer of so many."""
    number, at = (6, 0) if short else rules.check(spread(pieces))[:2]
    if not number and (room < size or LONGEST < size): number = 3
    line("o %x %x %s" % (short, room, escaped(pieces)), "answer %d at %d kept" % (number, at) if number else "image of %d bytes kept" % size)


def chosen():
    title("random programs")
    endless = 0
    for text, block in programs():
        r = meaning.Run(rules.check(text)[2], block, 4000, 64)
        if r.outcome == "out of fuel":
            endless += 1
            if endless <= 12: run("i", text, block, fuel=400 + 37 * endless)
        elif r.used >= 12: run("e", text, block, fuel=4000)


def cases():
    document()
    traps()
    activations()
    arithmetic()
    skipping()
    statements()
    refused()
    images()
    chosen()
