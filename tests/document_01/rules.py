"""Document 01 section 4, read a second time: whether a program keeps the rules, or where the first broken one is.

Which is first: declarations, from the first to the last; then `main`; then functions, from the first to the last, each in the order of its text,
of an expression or a statement first the expressions in it, then its own rules, then its blocks; last whether a function ends in return. The
place is that which the tree has; the text's end where there is no `main`."""
import functools

import tree
from reading import Unreadable

ELEMENTS, ARRAYS, ELEMENTS_IN_ALL, FUNCTIONS, PARAMETERS, LOCALS = 4096, 64, 16384, 256, 8, 64


class Broken(Exception):
    """With the place of the fault."""


def need(kept, at):
    if not kept: raise Broken(at)


class Rules:
    """What is declared: arrays with their sizes, functions with the types of their parameters and their result, and places of both."""

    def __init__(self, items, end):
        self.arrays, self.functions, self.places = {}, {}, {}
        for i in items: self.declare(i)
        need("main" in self.places, end)
        need(self.functions.get("main") == ([], None), self.places["main"])
        for i in items:
            if i[0] == "function": self.function(*i[1:])

    def declare(self, i):
        at, name = i[1], i[2]
        need(name not in self.places, at)
        self.places[name] = at
        if i[0] == "array":
            self.arrays[name] = i[3]
            need(1 <= i[3] <= ELEMENTS, at)
            need(len(self.arrays) <= ARRAYS, at)
            need(sum(self.arrays.values()) <= ELEMENTS_IN_ALL, at)
        else:
            self.functions[name] = [p[2] for p in i[3]], i[4]
            need(len(self.functions) <= FUNCTIONS, at)
            need(len(i[3]) <= PARAMETERS, at)

    def function(self, at, name, parameters, result, body):
        self.result, self.count, visible = result, 0, {}
        for p in parameters: self.local(visible, *p)
        self.block(body, visible)
        need(result is None or ends_in_return(body), at)

    def local(self, visible, at, name, kind):
        need(name not in self.places and name not in visible, at)
        self.count += 1
        need(self.count <= LOCALS, at)
        visible[name] = kind

    def block(self, statements, visible):
        visible = dict(visible)
        for s in statements: getattr(self, "do_" + s[0])(visible, *s[1:])

    def do_let(self, visible, at, name, kind, e):
        need(self.type(e, visible) == kind, at)
        self.local(visible, at, name, kind)

    def do_assign(self, visible, at, name, e):
        kind = self.type(e, visible)
        need(visible.get(name) == kind, at)

    def do_store(self, visible, at, name, index, e):
        kinds = self.type(index, visible), self.type(e, visible)
        need(kinds == ("int", "int") and name in self.arrays, at)

    def do_if(self, visible, at, e, yes, no):
        need(self.type(e, visible) == "bool", at)
        self.block(yes, visible)
        self.block(no or [], visible)

    def do_while(self, visible, at, e, body):
        need(self.type(e, visible) == "bool", at)
        self.block(body, visible)

    def do_return(self, visible, at, e):
        kind = None if e is None else self.type(e, visible)
        need(kind == self.result, at)

    def do_emit(self, visible, at, e):
        need(self.type(e, visible) == "int", at)

    def do_call(self, visible, at, name, given):
        self.call(visible, at, name, given)

    def call(self, visible, at, name, given):
        kinds = [self.type(e, visible) for e in given]
        need(name in self.functions and self.functions[name][0] == kinds, at)
        return self.functions[name][1]

    def type(self, e, visible):
        """The type of an expression."""
        first, joined = tree.chain(e)
        kind = self.operand(first, visible)
        for at, sign, right in joined:
            other = self.type(right, visible)
            wants = kind if sign in ("==", "!=") else "bool" if sign in ("&&", "||") else "int"
            need(kind == wants and other == wants, at)
            kind = "int" if sign in ("+", "-", "*", "/", "%") else "bool"
        return kind

    def operand(self, e, visible):
        if e[0] == "number": return "int"
        if e[0] == "truth": return "bool"
        at = e[1]
        if e[0] == "name":
            need(e[2] in visible, at)
            return visible[e[2]]
        if e[0] == "element":
            need(self.type(e[3], visible) == "int" and e[2] in self.arrays, at)
            return "int"
        if e[0] == "unary":
            kind = "int" if e[2] == "-" else "bool"
            need(self.type(e[3], visible) == kind, at)
            return kind
        result = self.call(visible, at, e[2], e[3])
        need(result is not None, at)
        return result


def ends_in_return(block):
    if not block: return False
    last = block[-1]
    return last[0] == "return" or last[0] == "if" and last[4] is not None and ends_in_return(last[3]) and ends_in_return(last[4])


@functools.lru_cache(None)
def check(text):
    """The answer of document 01 section 1 to a text and the place of a refusal; and of an accepted text its items."""
    try:
        items = tree.program(text)
        Rules(items, len(text))
    except Unreadable as fault: return 1, fault.args[0], None
    except Broken as fault: return 2, fault.args[0], None
    return 0, 0, items
