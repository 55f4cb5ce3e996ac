"""Cases of document 01 sections 2 and 3: texts, and the tree that the grammar gives them, or where they can't be read.

A line is `r` and a text; `w` and a text, whose tree is answered word by word; `b` and a text, of which every beginning is read; `l`, two numbers in hex
that say how many words are lent for tokens and for the tree, and a text; or `m`, a number that says how many times, and a text, which is answered once."""
import random

from asking import escaped, line, main, spread, title
from reading import SIGNS, WORDS, Unreadable, derive
from texts import F, G, Z

# ---- the tree as words: crate grammar's specs/Flat.antt
STRICT = "== != < <= > >= + - * / %".split()
TYPES = {"int": 1, "bool": 2}


def parts(pieces, kind):
    return [p for p in pieces if p[0] == kind]


def joined(lists):
    return [word for one in lists for word in one]


def expression(node):
    rule, pieces = node
    if rule == "unary" and len(pieces) == 2: return expression(pieces[1]) + [4, pieces[0][1], "-!".index(pieces[0][0]), 0]
    if rule == "primary": return primary(pieces)
    words = expression(pieces[0])
    for (kind, at, _), right in zip(pieces[1::2], pieces[2::2]):
        side = expression(right)
        if kind in STRICT: words += side + [5, at, STRICT.index(kind), 0]
        else: words += [{"&&": 6, "||": 7}[kind], at, len(side) // 4, 0] + side + [8, at, 0, 0]
    return words


def primary(pieces):
    kind, at, spelt = pieces[0]
    if kind == "number": return [0, 0, int(spelt), 0]
    if kind in ("true", "false"): return [9, 0, int(kind == "true"), 0]
    if kind == "(": return expression(pieces[1])
    if len(pieces) == 1: return [1, at, len(spelt), 0]
    if pieces[1][0] == "[": return expression(pieces[2]) + [2, at, len(spelt), 0]
    return call(pieces)


def call(pieces):
    given = parts(pieces, "expr")
    return joined(map(expression, given)) + [3, pieces[0][1], len(pieces[0][2]), len(given)]


def block(node):
    return joined(map(statement, parts(node[1], "statement")))


def statement(node):
    pieces = node[1]
    first, at, spelt = pieces[0]
    given, blocks = [expression(p) for p in parts(pieces, "expr")], parts(pieces, "block")
    bodies, name = [block(b) for b in blocks], len(spelt)
    if first == "let": kind, (_, at, spelt), name = 8 + TYPES[pieces[3][1][0][0]], pieces[1], len(pieces[1][2])
    elif first == "if": kind, name = (2 if len(blocks) == 2 else 8), len(bodies[0])
    elif first == "while": kind, name = 3, len(bodies[0])
    elif first == "return": kind, name = (5 if given else 4), 0
    elif first == "emit": kind, name = 6, 0
    elif pieces[1][0] == "(": kind, given = 7, [call(pieces)]
    else: kind = 1 if pieces[1][0] == "[" else 0
    sizes = [len(g) // 4 for g in given] + [0, 0]
    counts = [len(parts(b[1], "statement")) for b in blocks] + [0, 0]
    follow = joined(given + bodies)
    return [kind, at, name, sizes[0], sizes[1], counts[0], counts[1], len(follow)] + follow


def item(node):
    rule, pieces = node
    _, at, name = pieces[1]
    if rule == "array": return [0, at, len(name), int(pieces[5][2]), 0, 0, 0, 0]
    given, (body,), result = parts(pieces, "param"), parts(pieces, "block"), parts(pieces, "type")
    params = joined([p[1][0][1], len(p[1][0][2]), TYPES[p[1][2][1][0][0]]] for p in given)
    words = block(body)
    return [1, at, len(name), len(given), TYPES[result[0][1][0][0]] if result else 0, len(parts(body[1], "statement")), len(words), len(params + words)] + params + words


def read(text):
    """How many arrays and functions, and the words of the tree; or the place of the fault."""
    try: pieces = derive(text)[1]
    except Unreadable as fault: return fault.args[0]
    return len(pieces), joined(map(item, pieces))


# ---- cases
def answer(text, whole=False):
    r = read(text)
    if isinstance(r, int): return "unreadable at %d" % r
    items, words = r
    if whole: return "tree of %d%s" % (items, "".join(" %x" % w for w in words))
    s = 0
    for w in words: s = (s * 31 + w) % 2**32
    return "tree of %d words %d sum %08x" % (items, len(words), s)


def ask(*pieces, kind="r"):
    """One text; whether it is readable."""
    said = answer(spread(pieces), kind == "w")
    line(kind + " " + escaped(pieces), said)
    return said.startswith("tree")


def good(*pieces): assert ask(*pieces), pieces


def bad(*pieces): assert not ask(*pieces), pieces


def beginnings(text):
    line("b " + escaped([text]), *[answer(text[:n]) for n in range(len(text) + 1)])


def lent(room, tree, text):
    line("l %x %x %s" % (room, tree, escaped([text])), "no room" if room < 196608 or tree < 524288 else answer(text))


def cases():
    title("document 01 section 6: text G, text Z and the bodies of main")
    good(G)
    good(Z)
    for body in (b"", b"emit 1;", b"emit 1; emit 7 / (3 - 3); emit 2;", b"emit 2147483647 + 1; emit 65536 * 65536; emit 65537 * 65537;", b"while true { }",
                 b"let m: int = -2147483647 - 1; emit m / -1; emit m % -1; emit -7 / 2; emit -7 % 2; emit 7 / -2; emit 7 % -2; emit -m;", b"emit f(62);", b"emit f(63);"):
        good(main(body))
    good(b"var a: int[3]; " + main(b"a[2] = 5; emit a[2]; emit a[3];"))
    good(F + main(b"emit f(1) + f(2) * f(3);"))
    good(F + b"var a: int[2]; " + main(b"a[f(1)] = f(0); a[f(2)] = f(9) / 0;"))
    good(b"fn f(n: int): int { if n == 0 { return 0; } else { return 1 + f(n - 1); } } " + main(b"emit f(62);"))
    title("document 01 section 6: answer 1")
    for body in (b"emit 2147483648;", b"emit 01;", b"emit 12a;", b"emit %s;" % (b"a" * 33), b"if 1 < 2 < 3 { }", b"emit " + b"(" * 32 + b"1" + b")" * 32 + b";"): bad(main(body))
    bad(b"fn Main() { }")
    title("and each with what is wrong mended")
    for body in (b"emit 2147483647;", b"emit 1;", b"emit 12; a = 1;", b"emit %s;" % (b"a" * 32), b"if (1 < 2) == (2 < 3) { }", b"emit " + b"(" * 31 + b"1" + b")" * 31 + b";"): good(main(body))
    good(b"fn main() { }")
    title("document 01 section 6: answers 2 and 0 are readable")
    for text in (b"", b"var main: int[1];", main(b"let a: int = 1; let a: int = 2;"), main(b"let a: int = a;"), main(b"if true < false { }"), main(b"emit a;"),
                 b"fn f(): int { while true { return 1; } }", b"fn f(): int { if true { return 1; } }", main(b"if true == false { }"), main(b"emit --5;")): good(text)

    title("trees, word by word")
    for body in (b"emit 1 - 2 - 3;", b"emit 1 - 2 * 3 % 4;", b"x = a || b || c && d;", b"x = !(a == -b) != true;", b"a[f(1, b)] = g();", b"h(); return; return 1 <= 2;",
                 b"if true { } while false { emit 0; }", b"let a: bool = false; let b: int = a > a >= a;"): ask(main(body), kind="w")
    ask(b"var a: int[2147483647]; fn f(a: int, b: bool): bool { if a == b { } else { return b; } }", kind="w")
    ask(b"", kind="w")

    title("tokens: numbers and what follows them")
    for n in (b"0", b"00", b"007", b"10", b"2147483647", b"2147483648", b"2147483650", b"4294967296", b"9999999999", b"99999999999999999999999999", b"02147483647"): ask(main(b"emit " + n + b";"))
    for n in (b"12a", b"12_", b"0x10", b"12A", b"12 a", b"12#a\n", b"0a", b"12.5", b"1-a", b"1(", b"12\x00"): ask(main(b"emit " + n + b";"))
    title("tokens: names of 31 to 33 characters, names that are nearly words, words as names")
    for n in (31, 32, 33, 34, 64): ask(b"var ", (n, b"a"), b": int[1];")
    for n in (32, 33): ask(b"fn _", (n - 1, b"0"), b"() { }")
    for w in WORDS: ask(main(b"%s = 1;" % w.encode()))
    for w in WORDS: good(main(b"%s_ = _%s + %s0;" % ((w.encode(),) * 3)))
    for w in WORDS: ask(main(b"%s = 1;" % w[:-1].encode()))
    title("tokens: the longest is taken; signs alone")
    for body in (b"a=b==c;", b"a==b;", b"a=!b;", b"a!=b;", b"a = b<=c;", b"a = b< =c;", b"a = b&&c;", b"a = b&c;", b"a = b|c;", b"a = b|||c;", b"a = b===c;", b"a = !!b!=!c;", b"a=-1--1;", b"a = b > = c;"): ask(main(body))
    for sign in SIGNS + ["&", "|", ".", "'", '"', "~", "@", "$", "?", "^", "`", "\\"]: ask(sign.encode())
    title("tokens: comments")
    for text in (b"#", b"# no line feed", b"#\n", b"##\n#", b"# fn main() {\nfn main() { }", b"fn main() { # }\n}", b"fn main() { } # end", b"fn main() { # }", b"fn main() # a\n# b\n\n{\t}\r\n", b"fn#\nmain()", b"fn main() { emit 1#2;\n; }", b"f#\nn main() { }"): ask(text)
    title("tokens: every byte alone, in a comment, between tokens, in a name")
    for b in range(256): ask(bytes([b]))
    for b in range(256): ask(b"# " + bytes([b]) + b" \nfn main() { }")
    for b in range(256): ask(b"fn main() {" + bytes([b]) + b"}")
    for b in range(256): ask(b"fn ma" + bytes([b]) + b"in() { }")

    title("the longest text, and one byte more")
    for n in (65536, 65537):
        ask((n, b" "))
        ask((n, b"\n"))
        ask(b"#", (n - 1, b"x"))
        ask((n, b"a"))
        ask((n, b";"))
        ask((n, b"("))
        ask((n, b"\x00"))
        ask(b"fn main() { }", (n - 13, b"\r"))
        ask((n - 13, b"\t"), b"fn main() { }")
        ask(b"fn f() {", (16381, b"a=1;"), b"}", (n - 65533, b" "))
        ask((n - 1, b" "), b"a")
        ask((n - 1, b" "), b"#")
    title("long chains and lists")
    good(b"fn main() { emit 1", (30000, b"+1"), b"; }")
    good(b"fn main() { emit 1", (30000, b"*1"), b"; }")
    good(b"fn main() { emit a", (20000, b"||a"), b"; }")
    good(b"fn main() { emit a", (20000, b"&&a"), b"; }")
    bad(b"fn main() { emit 1", (30000, b"+1"), b"+; }")
    bad(b"fn main() { emit 1", (30000, b"<1"), b"; }")
    good(b"fn main() { ", (10000, b"a=1;"), b" }")
    good(b"fn main() { ", (10000, b"f();"), b" }")
    bad(b"fn main() { ", (10000, b"a=1;"))
    good(b"fn main() { ", (3000, b"if a{}else{}"), b" }")
    good(b"fn main() { f(1", (30000, b",1"), b"); }")
    good(b"fn main() { f(g", (10000, b"(1),g"), b"); }")
    good(b"fn f(a:int", (9000, b",a:int"), b") { }")
    good((4000, b"var a:int[1];"))
    good((6000, b"fn f(){}"))
    bad((6000, b"fn f(){}"), b"fn")
    bad(b"fn main() { emit ", (30000, b"-"), b"1; }")
    bad(b"fn main() { emit ", (30000, b"("))
    bad(b"fn f()", (30000, b"{"))

    title("open things: of each kind alone, 30 to 33 in main's block")
    for n in (30, 31, 32, 33):
        for before, opened, inside, closed, after in (
                (b"", b"while a {", b"", b"}", b""), (b"", b"if a {", b"", b"} else { }", b""), (b"", b"if a { } else {", b"b = 1;", b"}", b""),
                (b"emit ", b"(", b"1", b")", b";"), (b"emit ", b"f(", b"1", b")", b";"), (b"emit ", b"f(", b"", b")", b";"), (b"emit ", b"f(1, ", b"1", b")", b";"),
                (b"", b"f(", b"", b")", b";"), (b"emit ", b"a[", b"1", b"]", b";"), (b"", b"a[", b"1", b"]", b" = 1;"), (b"emit ", b"-", b"1", b"", b";"), (b"emit ", b"!", b"a", b"", b";"),
                (b"emit ", b"!-", b"a", b"", b";")):
            ask(b"fn main() { " + before, (n, opened), inside, (n, closed), after + b" }")
    title("open things: what is closed counts no more, and parameters and an array's size never did")
    good(b"fn main() { emit ", (31, b"("), b"1", (31, b")"), b" + ", (31, b"("), b"1", (31, b")"), b"; }")
    good(b"fn main() { a[", (30, b"("), b"1", (30, b")"), b"] = ", (31, b"-"), b"1; }")
    bad(b"fn main() { a[", (31, b"("), b"1", (31, b")"), b"] = 1; }")
    good(b"fn main() { f(", (30, b"-"), b"1, ", (30, b"-"), b"1); }")
    bad(b"fn main() { f(1, ", (31, b"-"), b"1); }")
    good(b"var a: int[1]; fn f(a: int, b: int) { emit ", (31, b"-"), b"1; }")
    good(b"fn f(a: int) ", (1, b"{"), (31, b"while a {"), (31, b"}"), b"}")
    good(b"fn main() { emit ", (31, b"-"), b"1 - 1; emit 1 ", (40, b"- -1"), b"; }")
    bad(b"fn main() { emit 1 ", (3, b"- "), (30, b"-"), b"1; }")
    good(b"fn main() { if ", (31, b"("), b"a", (31, b")"), b" { emit ", (30, b"("), b"a", (30, b")"), b"; } }")
    for n in range(28, 34): ask(b"fn main() { ", (8, b"while a {"), b"b[", (6, b"f("), (6, b"("), (6, b"c["), (n - 27, b"-"), b"1", (6, b"]"), (6, b")"), (6, b")"), b"] = 1;", (8, b"}"), b" }")

    title("comparisons don't follow one another")
    for body in (b"if 1 < 2 < 3 { }", b"if (1 < 2) < 3 { }", b"if 1 < (2 < 3) { }", b"if a == b == c { }", b"if a == b != c { }", b"if a < b && b < c || c >= d { }", b"if a + 1 < b * 2 { }", b"if 1 < { }",
                 b"if !a == !b { }", b"emit 1 <= 2 + 3 <= 4;"): ask(main(body))
    title("grammar: what is wanting, too much or elsewhere")
    for text in (b"fn", b"fn main", b"fn main(", b"fn main()", b"fn main() {", b"fn main() { } }", b"fn main() { } emit 1;", b"fn main(a) { }", b"fn main(a:) { }", b"fn main(a: int,) { }", b"fn main(, a: int) { }",
                 b"fn main(a: int b: int) { }", b"fn main(a: var) { }", b"fn main(): { }", b"fn main(): int bool { }", b"fn main: int { }", b"fn 1() { }", b"fn fn() { }", b"main() { }", b"let a: int = 1;",
                 b"var a: int[];", b"var a: int[1]", b"var a: bool[1];", b"var a: int;", b"var a int[1];", b"var a: int[a];", b"var a: int[-1];", b"var a: int[0];", b"var a: int[1];;", b"var : int[1];", b"var a: int[1]; fn main() { }"): ask(text)
    for body in (b";", b"1;", b"a;", b"a", b"a = ;", b"a = 1", b"a += 1;", b"a[1];", b"a[] = 1;", b"a[1, 2] = 1;", b"a[1][2] = 1;", b"a[1] == 1;", b"f;", b"f(;", b"f(,);", b"f(1,);", b"f(1 2);", b"f() = 1;", b"f()();", b"f(1)", b"(f)();",
                 b"let a = 1;", b"let a: int;", b"let 1: int = 1;", b"let a: int == 1;", b"let a: int = 1 let b: int = 2;", b"if { }", b"if a", b"if a emit 1;", b"if a { } else", b"if a { } else emit 1;", b"if a { } else if b { }",
                 b"else { }", b"if (a) { }", b"while { }", b"while a;", b"while a { } else { }", b"return", b"return return;", b"return (1);", b"return 1 2;", b"emit;", b"emit emit 1;", b"emit ();", b"emit (1;", b"emit 1);",
                 b"emit a[1;", b"emit a[1)];", b"emit +1;", b"emit 1 +;", b"emit * 1;", b"emit 1 ! 2;", b"emit a b;", b"emit a(1)[2];", b"emit 1(2);", b"emit true(1);", b"emit a = 1;", b"{ }", b"fn f() { }", b"var a: int[1];",
                 b"emit int;", b"true = 1;", b"emit - - -1;", b"emit -;", b"emit a && && b;", b"emit a || b && c == d + e * -f;"): ask(main(body))

    title("working room that is a word short, and none")
    for room, tree in ((196608, 524288), (196607, 524288), (196608, 524287), (0, 524288), (196608, 0), (0, 0)):
        for text in (G, b"\x00", b""): lent(room, tree, text)

    title("text Z a hundred times, after another")
    line("m 64 " + escaped([Z]), answer(Z))

    title("every beginning of text Z, and of text G")
    beginnings(Z)
    beginnings(G)

    title("texts Z and G damaged: bytes left out, put in, or exchanged")
    chance = random.Random(1)
    for text in (Z, G):
        for _ in range(150):
            damaged = bytearray(text)
            for _ in range(chance.choice((1, 1, 1, 2, 4))):
                i, how = chance.randrange(len(damaged)), chance.randrange(3)
                if how == 0: del damaged[i:i + chance.choice((1, 1, 2, 9))]
                elif how == 1: damaged[i:i] = chance.choice(SIGNS + WORDS + ["a", "0", "9", "#", "\n", " "]).encode()
                else:
                    j = chance.randrange(len(damaged))
                    damaged[i], damaged[j] = damaged[j], damaged[i]
            ask(bytes(damaged))
