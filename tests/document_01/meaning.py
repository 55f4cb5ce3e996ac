"""Document 01 section 5, read a second time: what a run of an accepted program does, to the unit of fuel."""
import tree

ACTIVATIONS = 64
DIVISION_BY_ZERO, INDEX_OUTSIDE, TOO_MANY_ACTIVATIONS, LOG_FULL = 1, 2, 3, 4


def wrapped(n):
    """32 bits in two's complement."""
    return (n + 2**31) % 2**32 - 2**31


def quotient(a, b):
    """Rounded toward zero."""
    q = abs(a) // abs(b)
    return wrapped(q if (a < 0) == (b < 0) else -q)


class Trap(Exception):
    """With its number."""


class OutOfFuel(Exception):
    pass


class Return(Exception):
    """With its value."""


class Run:
    """A run: the outcome (`finished`, `trap` and a number, `out of fuel`), the fuel used, the log, and the elements of all arrays in order."""

    def __init__(self, items, block, fuel, room):
        self.functions, self.arrays, self.log, self.left, self.room, self.active = {}, {}, [], fuel, room, 0
        at = 0
        for i in items:
            if i[0] == "array":
                self.arrays[i[2]] = [wrapped(w) for w in block[at:at + i[3]]]
                at += i[3]
            else: self.functions[i[2]] = [p[1] for p in i[3]], i[5]
        assert at == len(block)
        try:
            self.call("main", [])
            self.outcome = "finished"
        except Trap as trap: self.outcome = "trap %d" % trap.args
        except OutOfFuel: self.outcome = "out of fuel"
        self.used = fuel - self.left
        self.words = [v for a in self.arrays.values() for v in a]

    def begin(self):
        if self.left == 0: raise OutOfFuel
        self.left -= 1

    def call(self, name, values):
        if self.active == ACTIVATIONS: raise Trap(TOO_MANY_ACTIVATIONS)
        self.active += 1
        names, body = self.functions[name]
        value = None
        try: self.block(body, dict(zip(names, values)))
        except Return as r: value = r.args[0]
        self.active -= 1
        return value

    def block(self, statements, names):
        for s in statements:
            self.begin()
            getattr(self, "do_" + s[0])(names, *s[1:])

    def do_let(self, names, at, name, kind, e):
        names[name] = self.value(e, names)

    def do_assign(self, names, at, name, e):
        names[name] = self.value(e, names)

    def do_store(self, names, at, name, index, e):
        i = self.value(index, names)
        v = self.value(e, names)
        self.test(name, i)
        self.arrays[name][i] = v

    def do_if(self, names, at, e, yes, no):
        if self.value(e, names): self.block(yes, names)
        else: self.block(no or [], names)

    def do_while(self, names, at, e, body):
        while self.value(e, names): self.block(body, names)

    def do_return(self, names, at, e):
        raise Return(None if e is None else self.value(e, names))

    def do_emit(self, names, at, e):
        v = self.value(e, names)
        if len(self.log) >= self.room: raise Trap(LOG_FULL)
        self.log.append(v)

    def do_call(self, names, at, name, given):
        self.call(name, [self.value(e, names) for e in given])

    def test(self, name, i):
        if not 0 <= i < len(self.arrays[name]): raise Trap(INDEX_OUTSIDE)

    def value(self, e, names):
        first, joined = tree.chain(e)
        for _ in joined: self.begin()
        v = self.operand(first, names)
        for _, sign, right in joined:
            if sign == "&&": v = v and self.value(right, names)
            elif sign == "||": v = v or self.value(right, names)
            else: v = self.joined(sign, v, self.value(right, names))
        return v

    def operand(self, e, names):
        self.begin()
        if e[0] in ("number", "truth"): return e[1]
        if e[0] == "name": return names[e[2]]
        if e[0] == "element":
            i = self.value(e[3], names)
            self.test(e[2], i)
            return self.arrays[e[2]][i]
        if e[0] == "unary":
            v = self.value(e[3], names)
            return wrapped(-v) if e[2] == "-" else not v
        return self.call(e[2], [self.value(x, names) for x in e[3]])

    def joined(self, sign, a, b):
        if sign in ("/", "%"):
            if b == 0: raise Trap(DIVISION_BY_ZERO)
            q = quotient(a, b)
            return q if sign == "/" else wrapped(a - b * q)
        if sign in ("+", "-", "*"): return wrapped(a + b if sign == "+" else a - b if sign == "-" else a * b)
        return {"==": a == b, "!=": a != b, "<": a < b, "<=": a <= b, ">": a > b, ">=": a >= b}[sign]
