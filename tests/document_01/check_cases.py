"""Cases of document 01 section 4: texts, and the answer and place that `rules` gives them.

A line is `c`, a number in hex whose bits say which of the four buffers of working room is a word short, and a text."""
import random

import rules
from asking import escaped, line, main, spread, title
from programs import programs
from reading import tokens
from texts import BROKEN, G, KEPT, RUNS, Z


def ask(*pieces, short=0):
    """One text; its answer."""
    number, at, _ = (6, 0, None) if short else rules.check(spread(pieces))
    line("c %x %s" % (short, escaped(pieces)), "answer %d at %d" % (number, at))
    return number


def kept(*pieces): assert ask(*pieces) == 0, pieces


def broken(*pieces): assert ask(*pieces) == 2, pieces


def either(before, number, *pieces):
    """A text with so many, which is accepted, and with one more, which is not."""
    for n in (number, number + 1): assert ask(*[p(n) if callable(p) else p for p in (before,) + pieces]) == (0 if n == number else 2)


def document():
    title("document 01 section 6: accepted, and broken rules")
    for text in [r[0] for r in RUNS[:2] + RUNS[4:]] + KEPT: kept(text)
    for text in BROKEN: broken(text)
    for body in (b"emit 2147483648;", b"emit 01;", b"emit 12a;", b"if 1 < 2 < 3 { }"): assert ask(main(body)) == 1


def limits():
    empty = main(b"")
    title("sizes: elements, arrays, elements in all, functions, parameters, parameters and lets")
    for n in (0, 1, 2, 4095, 4096, 4097, 65536, 2147483647): ask(b"var a: int[%d]; " % n + empty)
    def arrays(n, size): return b"".join(b"var a%d:int[%d];" % (k, size) for k in range(n))
    either(lambda n: arrays(n, 1), 64, empty)
    either(lambda n: arrays(n, 4096), 4, empty)
    either(lambda n: arrays(4, 4095) + b"var b:int[%d];" % n, 4, empty)
    either(lambda n: arrays(63, 256) + b"var b:int[%d];" % n, 256, empty)
    def functions(n): return b"".join(b"fn f%d(){}" % k for k in range(n))
    either(lambda n: functions(n - 1), 256, empty)
    either(empty, 256, lambda n: functions(n - 1))
    broken(functions(256))
    broken(functions(257))
    def given(n): return b",".join(b"p%d:int" % k for k in range(n))
    either(lambda n: b"fn f(" + given(n) + b"){}", 8, empty)
    broken(b"fn f(" + given(300) + b"){}", empty)
    def lets(n, x=b"v"): return b"".join(b"let %s%d:int=1;" % (x, k) for k in range(n))
    for parameters in (0, 1, 7, 8): either(lambda n: b"fn f(" + given(parameters) + b"){" + lets(n - parameters) + b"}", 64, empty)
    title("sizes: lets of blocks that have ended stay counted")
    either(lambda n: b"fn f(){while true{" + lets(32) + b"}if true{" + lets(n - 32) + b"}}", 64, empty)
    either(lambda n: b"fn f(){if true{" + lets(30) + b"}else{" + lets(n - 30) + b"}}", 64, empty)
    either(lambda n: b"fn f(){if true{" + lets(20) + b"}" + lets(n - 20) + b"}", 64, empty)
    either(lambda n: b"fn f(){" + b"".join(b"if true{let a:int=1;}" for _ in range(n)) + b"}", 64, empty)
    kept(b"fn f(){" + lets(64) + b"}fn g(){" + lets(64) + b"}" + empty)


def names():
    empty = main(b"")
    title("names of arrays and functions: all different, in any order")
    for text in (b"var a: int[1]; var a: int[1]; ", b"fn f() { } fn f() { } ", b"var f: int[1]; fn f() { } ", b"fn f() { } var f: int[1]; ", b"fn main() { } ", b"var main: int[1]; ", b"fn f() { } fn g() { } fn f(a: int) { } "):
        broken(text + empty)
        broken(empty + text)
    kept(b"var a: int[1]; fn b() { } var c: int[1]; " + empty + b" fn d() { } var e: int[1];")
    kept(main(b"f(); emit a[0];") + b" fn f() { } var a: int[1];")
    kept(b"fn f() { g(); } fn g() { h(); f(); } fn h() { h(); main(); } " + empty)
    kept(b"var ", (32, b"a"), b": int[1]; var ", (31, b"a"), b"b: int[1]; ", empty)
    broken(b"var ", (32, b"a"), b": int[1]; fn ", (32, b"a"), b"() { } ", empty)
    title("main: without parameters or result, and there")
    for text in (b"", b"# main\n", b"fn f() { }", b"fn main(a: int) { }", b"fn main(): int { return 1; }", b"fn main(): bool { return true; }", b"var main: int[1];", b"fn main_() { }", b"fn mai() { }", b"fn f(main: int) { }", b"   \n"): broken(text)
    kept(b"fn main(){return;}")
    title("locals: a name is another's")
    for text in (main(b"let a: int = 1; let a: int = 1;"), main(b"let a: int = 1; let a: bool = true;"), main(b"let a: int = 1; while true { let a: int = 1; }"), main(b"let a: int = 1; if true { if true { } else { let a: int = 1; } }"),
                 main(b"let main: int = 1;"), main(b"let f: int = 1;") + b"fn f() { }", b"var a: int[1]; " + main(b"let a: int = 1;"), main(b"let a: int = 1;") + b"var a: int[1];", b"fn f(a: int) { let a: int = 1; } " + empty,
                 b"fn f(a: int, a: int) { } " + empty, b"fn f(a: int, b: int, a: bool) { } " + empty, b"fn f(f: int) { } " + empty, b"fn f(main: int) { } " + empty, b"fn f(g: int) { } fn g() { } " + empty,
                 b"fn f(a: int) { } var a: int[1]; " + empty, b"fn f(a: int) { if true { let a: int = 1; } } " + empty): broken(text)
    title("locals: a name twice where the first is visible no more, or not yet")
    for text in (main(b"if true { let a: int = 1; } let a: int = 2; emit a;"), main(b"if true { let a: int = 1; emit a; } else { let a: bool = true; if a { } }"), main(b"while true { let a: int = 1; } while true { let a: int = 1; emit a; }"),
                 b"fn f(a: int) { } fn g(a: bool) { let b: int = 1; } " + main(b"let a: int = 1; let b: bool = true;"), main(b"if true { let a: int = 1; if true { let b: int = a; } let b: int = a; }")): kept(text)
    title("locals: visible from the end of the let to the end of the block")
    for body in (b"emit a;", b"emit a; let a: int = 1;", b"let a: int = a;", b"let a: int = 1 + a;", b"let a: bool = true && a;", b"if true { let a: int = 1; } emit a;", b"if true { let a: int = 1; } else { emit a; }", b"while a == 1 { let a: int = 1; }",
                 b"if true { if true { let a: int = 1; } emit a; }", b"a = 1;", b"a = 1; let a: int = 2;", b"while true { a = 1; let a: int = 1; }", b"a[0] = 1;", b"emit a[0];", b"f();", b"emit f();", b"emit f(a);"): broken(main(body))
    for body in (b"let a: int = 1; emit a;", b"let a: int = 1; let b: int = a; a = b;", b"let a: int = 1; if a == 1 { emit a; while a == 1 { a = a + a; } }", b"while true { let a: int = 1; a = a; emit a; }"): kept(main(body))
    kept(b"fn f(a: int, b: bool): int { if b { return a; } else { if true { a = a + 1; b = !b; } return a; } } " + main(b"emit f(1, true);"))
    broken(b"fn f(a: int) { } " + main(b"emit a;"))
    title("names: one kind of thing where another is wanted")
    head = b"var a: int[3]; fn f(): int { return 1; } fn g() { } "
    for body in (b"emit a;", b"a = 1;", b"emit f;", b"f = 1;", b"emit f[0];", b"f[0] = 1;", b"emit a(0);", b"a(0);", b"a();", b"emit g();", b"emit g;", b"let x: int = 1; emit x[0];", b"let x: int = 1; x[0] = 1;", b"let x: int = 1; x();",
                 b"let x: int = 1; emit x();", b"emit main();", b"let x: int = g();", b"if g() { }", b"emit -g();", b"emit a[g()];", b"emit f() + g();"): broken(head + main(body))
    for body in (b"emit a[0];", b"a[0] = f();", b"f();", b"g();", b"main();", b"emit a[a[a[0]]];", b"a[a[0]] = a[f()];", b"emit f() + f();"): kept(head + main(body))


def types():
    signs = {"+": "i", "-": "i", "*": "i", "/": "i", "%": "i", "<": "i", "<=": "i", ">": "i", ">=": "i", "==": "ib", "!=": "ib", "&&": "b", "||": "b"}
    values = {"i": b"x", "b": b"y"}
    head = b"let x: int = 1; let y: bool = true; "
    title("types: every operator with every two types, and what it gives")
    for sign, takes in signs.items():
        for a in "ib":
            for b in "ib":
                for kind in (b"int", b"bool"):
                    right = a == b and a in takes and (kind == b"int") == (sign in "+-*/%")
                    text = main(head + b"let z: %s = %s %s %s;" % (kind, values[a], sign.encode(), values[b]))
                    (kept if right else broken)(text)
    for sign, takes in (("-", "i"), ("!", "b")):
        for a in "ib":
            for kind in (b"int", b"bool"):
                (kept if a == takes and (kind == b"int") == (a == "i") else broken)(main(head + b"let z: %s = %s%s;" % (kind, sign.encode(), values[a])))
    title("types: conditions, emit, indices, elements, assignments, lets")
    arrays = b"var a: int[3]; "
    for body in (b"if %s { }", b"if %s { } else { }", b"while %s { }", b"let z: bool = %s;", b"y = %s;", b"if !%s { }", b"if (%s) { }"):
        broken(arrays + main(head + body % b"x"))
        kept(arrays + main(head + body % b"y"))
    for body in (b"emit %s;", b"emit a[%s];", b"a[%s] = 1;", b"a[1] = %s;", b"let z: int = %s;", b"x = %s;", b"emit -%s;", b"emit (((%s)));", b"emit -(%s);"):
        broken(arrays + main(head + body % b"y"))
        kept(arrays + main(head + body % b"x"))
    for body in (b"let z: bool = a[0];", b"y = a[0];", b"if a[0] { }", b"emit true;", b"emit 1 < 2;", b"emit !1;", b"let z: int = false;", b"let z: bool = 0;", b"if 1 { }", b"while 1 + 1 { }", b"emit 1 + 2 * (3 - true);", b"emit 1 == 1;",
                 b"if true < false { }", b"if true == 1 { }", b"if 1 != false { }", b"if 1 < 2 == 3 < 4 { }", b"if (1 < 2) < (3 < 4) { }", b"if 1 && 2 { }", b"if true || 1 { }", b"if 1 || true { }", b"emit -true;", b"emit - -true;"): ask(arrays + main(head + body))
    for body in (b"if (1 < 2) == (3 < 4) { }", b"if !(1 < 2) != !true { }", b"if true == false { }", b"emit --5;", b"if !!true { }", b"emit 1 - -1;", b"let z: bool = 1 == 1 == true;"): ask(main(body))
    title("calls: number and types of arguments, in an expression and as a statement")
    head = b"fn f(a: int, b: bool): int { return a; } fn g(): bool { return true; } fn h(a: bool) { } "
    for body in (b"f(1, true);", b"emit f(1, g());", b"emit f(f(1, true), g());", b"g();", b"h(g());", b"if g() { }", b"h(f(1, true) == 1);"): kept(head + main(body))
    for body in (b"f();", b"f(1);", b"f(1, true, 1);", b"f(true, 1);", b"f(1, 1);", b"f(true, true);", b"emit f();", b"emit f(1);", b"emit f(1, 1);", b"emit f(1, true, 2);", b"g(1);", b"emit g();", b"h();", b"h(1);", b"emit h(true);", b"if h(true) { }",
                 b"f(1, h(true));", b"h(h(true));", b"if f(1, true) { }", b"let a: bool = f(1, true);", b"let a: int = g();"): broken(head + main(body))
    eight = b"fn k(" + b",".join(b"p%d: int" % k for k in range(8)) + b"): int { return p7; } "
    kept(eight + main(b"emit k(1, 2, 3, 4, 5, 6, 7, 8);"))
    broken(eight + main(b"emit k(1, 2, 3, 4, 5, 6, 7);"))
    broken(eight + main(b"emit k(1, 2, 3, 4, 5, 6, 7, 8, 9);"))
    broken(eight + main(b"emit k(1, 2, 3, 4, 5, 6, 7, true);"))


def returns():
    title("returns: with and without a result, of the right and of the wrong type, everywhere")
    for kind, right, wrong in ((b"int", b"1", b"true"), (b"bool", b"true", b"1")):
        for body, number in ((b"return %s;", 0), (b"return;", 2), (b"", 2), (b"emit 1;", 2), (b"return %s; emit 1;", 2), (b"return %s; return %s;", 0), (b"emit 1; return %s;", 0), (b"if true { return %s; }", 2), (b"if true { return %s; } return %s;", 0),
                             (b"if true { return %s; } else { return %s; }", 0), (b"if true { return %s; } else { }", 2), (b"if true { } else { return %s; }", 2), (b"if true { return %s; } else { return %s; } emit 1;", 2),
                             (b"while true { return %s; }", 2), (b"while true { } return %s;", 0), (b"while true { return; } return %s;", 2), (b"if true { return; } return %s;", 2), (b"if true { if true { return %s; } else { return %s; } } else { return %s; }", 0),
                             (b"if true { if true { return %s; } } else { return %s; }", 2), (b"if true { return %s; } else { if true { return %s; } else { while true { } } }", 2), (b"if true { return %s; return %s; } else { emit 1; return %s; }", 0), (b"let a: int = 1; return %s;", 0), (b"{", 1)):
            for value in (right, wrong):
                text = b"fn f(): %s { " % kind + body.replace(b"%s", value) + b" } " + main(b"")
                wanted = 2 if value is wrong and b"%s" in body else number
                assert ask(text) == wanted, text
    for body, number in ((b"return;", 0), (b"return 1;", 2), (b"return true;", 2), (b"if true { return; } else { return; }", 0), (b"while true { return; } emit 1;", 0), (b"return; return;", 0), (b"if true { return 1; }", 2), (b"return f();", 2)):
        assert ask(b"fn f() { " + body + b" } " + main(b"")) == number
        assert ask(b"fn f() { } " + main(body)) == number


def order():
    title("several rules broken: which comes first")
    for text in (b"var a: int[0]; var a: int[0];", b"var a: int[1]; var a: int[0];", b"fn f() { emit x; } fn f() { }", b"fn f() { emit x; } fn main(a: int) { }", b"fn f(a: int, a: int) { emit x; }", main(b"emit x + y;"), main(b"emit x[y];"), main(b"x[y] = z;"), main(b"x[0] = z;"),
                 main(b"x[0] = 1;"), main(b"x(y, z);"), main(b"x(1);"), main(b"let x: bool = y + 1;"), main(b"let x: bool = 1 + true;"), main(b"let main: bool = 1;"), main(b"if 1 { emit x; } else { emit y; }"), main(b"if true { emit x; } else { emit y; }"),
                 main(b"while 1 { emit x; }"), main(b"while x { emit y; }"), b"fn f(): int { return x; } " + main(b"emit y;"), b"fn f(): int { } fn g() { emit x; } " + main(b""), main(b"emit x;") + b" fn f(): int { }", main(b"") + b" fn f(main: int): int { return true; }",
                 b"fn f(a: int): int { a = true; } " + main(b""), main(b"emit true + f(x);"), main(b"emit !1 + !2;"), main(b"emit (1 == true) + (2 == false);"), main(b"main(x, 1);"), main(b"main(1);"), main(b"y = x;"), main(b"y = 1;"), main(b"return x;"), main(b"emit true || x;"),
                 b"fn f(): bool { return 1 + true; } " + main(b""), main(b"let a: int = 1; let a: int = true; let b: int = c;"), b"var main: int[0];", b"fn main(): int { }"): broken(text)


def large():
    title("256 functions, 64 locals and many uses of names")
    lets = b"".join(b"let v%d:int=1;" % k for k in range(64))
    functions = b"".join(b"fn f%d(){}" % k for k in range(255))
    kept(functions, b"fn main(){", lets, b"emit v63", (14000, b"+v63"), b";}")
    kept(functions, b"fn main(){", (8000, b"f254();"), b"}")
    broken(functions, b"fn main(){", (8000, b"f254();"), b"f255();}")
    arrays = b"".join(b"var a%d:int[256];" % k for k in range(64))
    kept(arrays, b"fn main(){emit a63[0]", (7000, b"+a63[0]"), b";}")
    broken(arrays, b"fn main(){emit a63[0]", (7000, b"+a63[0]"), b"+a64[0];}")
    kept(b"fn main(){emit 1", (30000, b"+1"), b";}")
    broken(b"fn main(){emit 1", (30000, b"+1"), b"+true;}")
    kept(b"fn main(){let b:bool=true;let a:bool=b", (16000, b"||b"), b";}")
    kept(b"fn main(){", (9000, b"main();"), b"}")
    kept(b"fn main(){let a:int=1;", (16000, b"a=1;"), b"}")
    for n in (30, 31): kept(b"fn main(){", (n, b"if true{"), b"let a:int=1;emit a;", (n, b"}"), b"}")
    broken(b"fn main(){", (31, b"if true{"), b"emit a;", (31, b"}"), b"}")


def short():
    title("working room a word short: of tokens, of the tree, of where operands start, of the core program")
    for bits in (1, 2, 4, 8, 15):
        for text in (G, b"", b"\x00"): ask(text, short=bits)
    for text in (G, b"", b"\x00"): ask(text)


def damaged():
    title("tokens of random programs and of texts Z and G left out, put in, or exchanged")
    chance = random.Random(4)
    texts = [Z, G] + [t for t, _ in programs() if len(t) < 400][:100]
    for text in texts:
        for _ in range(20 if text in (Z, G) else 2):
            found = tokens(text)
            names = [t[2] for t in found if t[0] in ("name", "number")] + ["true", "int", "bool", "+", "==", "<", "&&", "-", "!"]
            spelt = [t[2] for t in found]
            for _ in range(1 + int(chance.random() * 1.3)):
                i, how = int(chance.random() * len(spelt)), chance.random()
                if how < 0.1: del spelt[i]
                elif how < 0.8:
                    alike = [k for k, t in enumerate(found) if t[0] in ("name", "number")]
                    spelt[alike[int(chance.random() * len(alike))] % len(spelt)] = names[int(chance.random() * len(names))]
                else: spelt[i] = names[int(chance.random() * len(names))]
            ask(" ".join(spelt).encode())


def cases():
    document()
    limits()
    names()
    types()
    returns()
    order()
    large()
    short()
    damaged()
