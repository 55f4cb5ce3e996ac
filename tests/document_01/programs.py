"""Random programs that keep every rule of document 01, made with fixed seeds; and what their arrays hold at the start.

Each has a few arrays and functions. Recursion counts down a first parameter `n`; most loops count a local up; most divisors and indices are
such that they don't trap, and how often one is any expression (`danger`) differs from program to program."""
import functools
import random

OPEN_MOST = 32
NUMBERS = [0, 1, 2, 3, 5, 7, 10, 31, 100, 255, 2047, 2048, 4095, 4096, 65535, 65536, 65537, 1048575, 16777216, 2147483646, 2147483647]
WORDS = [0, 1, 2, 3, 7, 100, 2**31 - 1, 2**31, 2**31 + 1, 2**32 - 1, 2**32 - 2, 2**32 - 100, 0x12345678, 0xDEADBEEF]
SIZES = [1, 2, 3, 3, 4, 5, 8, 16]
AT = "fn at(i:int,n:int):int{let r:int=i%n;if r<0{return r+n;}else{return r;}}"
LEVELS = {"||": 0, "&&": 1, "==": 2, "!=": 2, "<": 2, "<=": 2, ">": 2, ">=": 2, "+": 3, "-": 3, "*": 4, "/": 4, "%": 4}


class Program:
    def __init__(self, seed, budget, danger=0.0, deep=0.0):
        self.chance, self.danger, self.deep = random.Random(seed), danger, deep
        self.arrays = [("abcd"[k], self.one(SIZES)) for k in range(self.upto(4))]
        self.functions = [self.signature("fghk"[k]) for k in range(self.upto(4))]
        self.indexed = False
        bodies = [self.function(f, budget // 2) for f in self.functions] + [self.function(("main", [], None), budget)]
        parts = ["var %s:int[%d];" % a for a in self.arrays] + bodies + [AT] * self.indexed
        self.shuffle(parts)
        self.text = "\n".join(parts).encode()
        sizes = dict(self.arrays)
        order = [p[4] for p in parts if p.startswith("var ")]
        self.block = [self.one(WORDS) for x in order for _ in range(sizes[x])]

    # chance, with nothing whose outcome could differ from one Python to another
    def upto(self, n): return int(self.chance.random() * (n + 1))

    def one(self, choices): return choices[int(self.chance.random() * len(choices))]

    def likely(self, p): return self.chance.random() < p

    def shuffle(self, things):
        for k in range(len(things) - 1, 0, -1):
            j = self.upto(k)
            things[k], things[j] = things[j], things[k]

    # functions
    def signature(self, name):
        kinds = [self.one(["int", "int", "bool"]) for _ in range(self.one([0, 1, 1, 2, 2, 3, 7]))]
        return name, ["int"] + kinds, self.one(["int", "int", "bool", None])

    def function(self, f, budget):
        name, kinds, self.result = f
        self.recursive, self.budget, self.count, self.counters = bool(kinds), budget, len(kinds), 0
        names = ["n"] + ["p%d" % k for k in range(1, len(kinds))]
        visible = dict(zip(names, kinds))
        self.fixed = {"n"}
        head = "fn %s(%s)%s" % (name, ",".join("%s:%s" % p for p in zip(names, kinds)), ":" + self.result if self.result else "")
        stop = "if n<=0{return%s;}" % (" " + self.leaf(self.result, visible) if self.result else "") if kinds else ""
        return head + "{" + stop + self.block_of(visible, 1, True) + "}"

    def callable(self, result):
        return [f for f in self.functions if result is False or f[2] == result]

    # statements
    def block_of(self, visible, open, whole=False):
        visible, parts = dict(visible), []
        for _ in range(1 + self.upto(6 if whole else 2)):
            if self.budget <= 0: break
            parts.append(self.statement(visible, open))
        if whole and self.likely(self.deep): parts.append(self.dive_block(visible, open))
        if whole and self.result: parts.append(self.ending(visible, open))
        return "".join(parts)

    def ending(self, visible, open):
        if open < 4 and self.likely(0.3):
            e = self.expression("bool", visible, open)
            return "if %s{%s}else{%s}" % (e, self.ending(visible, open + 1), self.ending(visible, open + 1))
        return "return %s;" % self.expression(self.result, visible, open)

    def statement(self, visible, open):
        self.budget -= 1
        how = self.one(["let", "let", "assign", "assign", "store", "store", "if", "if", "else", "while", "while", "emit", "emit", "call", "return"])
        if how == "let" and self.count < 60: return self.let(visible, open)
        targets = [x for x in visible if x not in self.fixed]
        if how == "assign" and targets:
            x = self.one(targets)
            return "%s=%s;" % (x, self.expression(visible[x], visible, open))
        if how == "store" and self.arrays: return self.element(visible, open) + "=%s;" % self.expression("int", visible, open)
        if how in ("if", "else") and open < 8:
            e, b = self.expression("bool", visible, open), self.block_of(visible, open + 1)
            return "if %s{%s}" % (e, b) + ("else{%s}" % self.block_of(visible, open + 1) if how == "else" else "")
        if how == "while" and open < 4 and self.counters < 3 and self.count < 60: return self.loop(visible, open)
        if how == "call" and self.functions:
            f = self.one(self.functions)
            return self.call(f, visible, open) + ";"
        if how == "return" and open > 1 and self.likely(0.4):
            return "return;" if not self.result else "return %s;" % self.expression(self.result, visible, open)
        return "emit %s;" % self.expression("int", visible, open)

    def fresh(self, visible):
        return next(x for x in ("v%d" % k for k in range(64)) if x not in visible)

    def let(self, visible, open, e=None, kind=None):
        kind = kind or self.one(["int", "int", "bool"])
        e, x = e or self.expression(kind, visible, open), self.fresh(visible)
        visible[x] = kind
        self.count += 1
        return "let %s:%s=%s;" % (x, kind, e)

    def loop(self, visible, open):
        """A local that counts up, and a loop that ends by it, most often."""
        begun = self.let(visible, open, "0", "int")
        x = self.fresh_last(visible)
        free = self.likely(self.danger / 4)
        if not free: self.fixed.add(x)
        self.counters += 1
        test = "%s<%d" % (x, 1 + self.upto(4))
        if self.likely(0.3): test += "&&" + self.level("bool", 2, visible, open)
        body = self.block_of(visible, open + 1)
        self.counters -= 1
        return begun + "while %s{%s%s=%s+1;}" % (test, body, x, x)

    def fresh_last(self, visible): return list(visible)[-1]

    # expressions
    def leaf(self, kind, visible):
        names = [x for x in visible if visible[x] == kind]
        if names and self.likely(0.7): return self.one(names)
        return str(self.one(NUMBERS)) if kind == "int" else self.one(["true", "false"])

    def expression(self, kind, visible, open):
        if self.likely(self.deep / 4): return self.dive(kind, visible, open)
        return self.level(kind, 0, visible, open)

    def level(self, kind, level, visible, open):
        """An expression of a level of the grammar: 0 for `expr` up to 6 for `primary`."""
        self.budget -= 1
        if self.budget <= 0 or self.likely(0.25): return self.leaf(kind, visible)
        if kind == "bool": return self.truth(level, visible, open)
        if level <= 3 and self.likely(0.4): return self.chain(["+", "-"], "int", 4, visible, open)
        if level <= 4 and self.likely(0.4): return self.product(visible, open)
        return self.tight(kind, level, visible, open)

    def truth(self, level, visible, open):
        if level <= 0 and self.likely(0.25): return self.chain(["||"], "bool", 1, visible, open)
        if level <= 1 and self.likely(0.3): return self.chain(["&&"], "bool", 2, visible, open)
        if level <= 2 and self.likely(0.6):
            sign = self.one(["==", "!=", "<", "<=", ">", ">="])
            kind = self.one(["int", "int", "bool"]) if sign in ("==", "!=") else "int"
            return self.level(kind, 3, visible, open) + sign + self.level(kind, 3, visible, open)
        return self.tight("bool", level, visible, open)

    def chain(self, signs, kind, level, visible, open):
        text = self.level(kind, level, visible, open)
        for _ in range(1 + self.upto(2)): text += self.one(signs) + self.level(kind, level, visible, open)
        return text

    def product(self, visible, open):
        left, sign = self.level("int", 5, visible, open), self.one(["*", "/", "%"])
        if sign == "*" or self.likely(self.danger): right = self.level("int", 5, visible, open)
        elif self.likely(0.6) or open == OPEN_MOST: right = self.one(["1", "2", "3", "7", "10", "2147483647"])
        else: right = "(%s*2+1)" % self.level("int", 5, visible, open + 1)
        return left + sign + right

    def tight(self, kind, level, visible, open):
        """A unary operator, an element, a call or parentheses."""
        if open == OPEN_MOST: return self.leaf(kind, visible)
        how = self.one(["sign", "sign", "element", "element", "call", "call", "parentheses"])
        if how == "sign": return ("-" if kind == "int" else "!") + self.level(kind, 5, visible, open + 1)
        if how == "element" and kind == "int" and self.arrays: return self.element(visible, open)
        if how == "call" and self.callable(kind): return self.call(self.one(self.callable(kind)), visible, open)
        return "(%s)" % self.level(kind, 0, visible, open + 1)

    def element(self, visible, open):
        x, size = self.one(self.arrays)
        if self.likely(self.danger): return "%s[%s]" % (x, self.level("int", 0, visible, open + 1))
        if open + 2 > OPEN_MOST or self.likely(0.6): return "%s[%d]" % (x, self.upto(size - 1))
        self.indexed = True
        return "%s[at(%s,%d)]" % (x, self.level("int", 0, visible, open + 2), size)

    def call(self, f, visible, open):
        name, kinds, _ = f
        first = "n-1" if self.recursive else "70" if self.likely(self.danger) else str(self.upto(3))
        return "%s(%s)" % (name, ",".join([first] + [self.level(k, 0, visible, open + 1) for k in kinds[1:]]))

    # as many things open as may be
    def dive(self, kind, visible, open):
        if open == OPEN_MOST: return self.leaf(kind, visible)
        how = self.one(["(", "(", "sign", "sign", "[", "call"])
        if how == "sign": return ("-" if kind == "int" else "!") + self.tucked(kind, visible, open + 1)
        if how == "[" and kind == "int" and self.arrays and open + 2 <= OPEN_MOST:
            x, size = self.one(self.arrays)
            self.indexed = True
            return "%s[at(%s,%d)]" % (x, self.dive("int", visible, open + 2), size)
        if how == "call" and self.callable(kind):
            name, kinds, _ = self.one(self.callable(kind))
            given = [self.leaf(k, visible) for k in kinds[1:]]
            if given:
                k = self.upto(len(given) - 1)
                given[k] = self.dive(kinds[1 + k], visible, open + 1)
            return "%s(%s)" % (name, ",".join(["n-1" if self.recursive else "1"] + given))
        if kind == "int": return "(%s%s%s)" % (self.leaf("int", visible), self.one(["+", "-", "*"]), self.tucked("int", visible, open + 1))
        return "(%s%s%s)" % (self.leaf("bool", visible), self.one(["==", "!=", "&&", "||"]), self.tucked("bool", visible, open + 1))

    def tucked(self, kind, visible, open):
        """As deep, and in a place where any operand may stand: what `dive` makes is always a unary or primary."""
        return self.dive(kind, visible, open)

    def dive_block(self, visible, open):
        """Blocks in blocks, then an expression as deep as is left."""
        depth = open + self.upto(OPEN_MOST - open)
        text, closing = "", ""
        for _ in range(depth - open):
            if self.likely(0.5): text, closing = text + "if %s{" % self.leaf("bool", visible), "}" + closing
            else: text, closing = text + "if !%s{}else{" % self.one(["true", "false"]), "}" + closing
        return text + "emit %s;" % self.dive("int", visible, depth) + closing


def many_locals(chance, parameters, lets):
    """A function of so many parameters and lets, each read after all are written; main calls it."""
    names = ["p%d" % k for k in range(parameters)] + ["v%d" % k for k in range(lets)]
    body = "".join("let %s:int=%s;" % (names[parameters + k], "%s*%d+%d" % (names[int(chance.random() * (parameters + k))], 2 * k + 1, k)) for k in range(lets))
    text = "fn f(%s):int{%sreturn %s;}" % (",".join("%s:int" % n for n in names[:parameters]), body, "+".join("%s*%d" % (x, k + 1) for k, x in enumerate(names)))
    given = ",".join(str(NUMBERS[int(chance.random() * len(NUMBERS))]) for _ in range(parameters))
    return (text + "\nfn main(){emit f(%s);}" % given).encode()


def long_chain(chance, length):
    """A sum, a product, a conjunction and a disjunction of so many operands."""
    def numbers(signs): return "x" + "".join(signs[int(chance.random() * len(signs))] + str(1 + int(chance.random() * 99)) for _ in range(length))
    def truths(sign, last): return sign.join("x%%%d!=%d" % (k + 2, k + 2) for k in range(length)) + sign + last
    return ("fn main(){let x:int=%d;emit %s;emit %s;emit %s;if %s{emit 1;}if %s{emit 2;}if %s{emit 3;}}" % (
        int(chance.random() * 1000000), numbers("+-"), numbers("*/%"), numbers(["+", "-", "*", "/", "%"]), truths("&&", "x>=0"), truths("&&", "x<0"), "!(%s)" % truths("||", "x<0"))).encode()


@functools.lru_cache(None)
def programs():
    """Texts, each with the words of its input block."""
    return list(made())


def made():
    for seed in range(450):
        p = Program(seed, (12, 25, 40, 60)[seed % 4], (0.0, 0.02, 0.1, 0.5)[seed // 4 % 4], (0.0, 0.0, 0.3)[seed % 3])
        yield p.text, p.block
    chance = random.Random("locals and chains")
    for parameters, lets in ((8, 56), (8, 0), (1, 63), (8, 1), (4, 60), (7, 57)): yield many_locals(chance, parameters, lets), []
    for length in (1, 2, 10, 50): yield long_chain(chance, length), []
