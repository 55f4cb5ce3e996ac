"""A derivation of document 01 section 3 as a tree.

An expression is `("number", n)`, `("truth", b)`, `("name", at, x)`, `("element", at, x, e)`, `("call", at, x, es)`, `("unary", at, o, e)` or
`("binary", at, o, a, b)`; a statement `("let", at, x, type, e)`, `("assign", at, x, e)`, `("store", at, x, i, e)`, `("if", at, e, block, block or
None)`, `("while", at, e, block)`, `("return", at, e or None)`, `("emit", at, e)` or `("call", at, x, es)`; a block a list of them; an item
`("array", at, x, n)` or `("function", at, x, [(at, x, type)], type or None, block)`. A place is that of the name, the operator or the first word.
"""
from reading import derive


def of(pieces, kind):
    return [p for p in pieces if p[0] == kind]


def program(text):
    """The items of a text; it may be unreadable."""
    return [item(p) for p in derive(text)[1]]


def item(node):
    rule, pieces = node
    _, at, name = pieces[1]
    if rule == "array": return "array", at, name, int(pieces[5][2])
    given, (body,), result = of(pieces, "param"), of(pieces, "block"), of(pieces, "type")
    return "function", at, name, [(p[1][0][1], p[1][0][2], type_of(p[1][2])) for p in given], type_of(result[0]) if result else None, block(body)


def type_of(node):
    return node[1][0][0]


def block(node):
    return [statement(p) for p in of(node[1], "statement")]


def statement(node):
    pieces = node[1]
    first, at, name = pieces[0]
    given, blocks = [expression(p) for p in of(pieces, "expr")], [block(p) for p in of(pieces, "block")]
    if first == "let": return "let", pieces[1][1], pieces[1][2], type_of(pieces[3]), given[0]
    if first == "if": return "if", at, given[0], blocks[0], blocks[1] if len(blocks) == 2 else None
    if first == "while": return "while", at, given[0], blocks[0]
    if first == "return": return "return", at, given[0] if given else None
    if first == "emit": return "emit", at, given[0]
    if pieces[1][0] == "(": return "call", at, name, given
    if pieces[1][0] == "[": return "store", at, name, given[0], given[1]
    return "assign", at, name, given[0]


def expression(node):
    """Operators of one level group to the left."""
    rule, pieces = node
    if rule == "primary": return primary(pieces)
    if rule == "unary" and len(pieces) == 2: return "unary", pieces[0][1], pieces[0][0], expression(pieces[1])
    left = expression(pieces[0])
    for (sign, at, _), right in zip(pieces[1::2], pieces[2::2]):
        left = "binary", at, sign, left, expression(right)
    return left


def primary(pieces):
    kind, at, spelt = pieces[0]
    if kind == "number": return "number", int(spelt)
    if kind in ("true", "false"): return "truth", kind == "true"
    if kind == "(": return expression(pieces[1])
    if len(pieces) == 1: return "name", at, spelt
    if pieces[1][0] == "[": return "element", at, spelt, expression(pieces[2])
    return "call", at, spelt, [expression(p) for p in of(pieces, "expr")]


def chain(node):
    """The leftmost operand of an expression, and what is joined to it, from the inside out: place, operator, right side."""
    joined = []
    while node[0] == "binary":
        _, at, sign, node, right = node
        joined.append((at, sign, right))
    return node, joined[::-1]
