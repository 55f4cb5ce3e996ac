"""Document 01 sections 2 and 3, read a second time: tokens, and the grammar as the document has it.

It shares nothing with the tool chain. `derive` gives a text's derivation, or says where it can't be read."""
import re
import sys

sys.setrecursionlimit(100000)

# ---- section 2: tokens
LONGEST, NAME_MOST, LARGEST, OPEN_MOST = 65536, 32, 2147483647, 32
WORDS = "var fn let if else while return emit int bool true false".split()
SIGNS = "== != <= >= && || + - * / % < > = ! ( ) { } [ ] : ; ,".split()
TOKEN = re.compile("(?P<blank>[ \t\n\r]+|#[ -~\t\r]*)|(?P<name>[a-z_][a-z_0-9]*)|(?P<number>[0-9]+)|(?P<sign>"
                   + "|".join(re.escape(s) for s in sorted(SIGNS, key=len, reverse=True)) + ")")


class Unreadable(Exception):
    """With the place of the fault."""


def tokens(text):
    """The tokens: each its kind (`name`, `number`, or the word or sign itself), its place and its spelling."""
    if len(text) > LONGEST: raise Unreadable(LONGEST)
    text, found, at = text.decode("latin-1"), [], 0
    while at < len(text):
        m = TOKEN.match(text, at)
        if not m: raise Unreadable(at)
        kind, spelt, end = m.lastgroup, m.group(), m.end()
        if kind == "name" and len(spelt) > NAME_MOST: raise Unreadable(at)
        if kind == "number":
            if spelt != "0" and spelt[0] == "0" or int(spelt) > LARGEST: raise Unreadable(at)
            if re.match("[a-z_]", text[end:end + 1]): raise Unreadable(at)
        if kind != "blank":
            found.append((spelt if kind == "sign" or spelt in WORDS else kind, at, spelt))
        at = end
    return found


# ---- section 3: the grammar, as it stands in the document
GRAMMAR = """
    program  = { array | function }
    array    = "var" name ":" "int" "[" number "]" ";"
    function = "fn" name "(" [ param { "," param } ] ")" [ ":" type ] block
    param    = name ":" type
    type = "int" | "bool"
    block    = "{" { statement } "}"
    statement = "let" name ":" type "=" expr ";"
              | name "=" expr ";"           | name "[" expr "]" "=" expr ";"
              | "if" expr block [ "else" block ]
              | "while" expr block          | "return" [ expr ] ";"
              | "emit" expr ";"             | name "(" [ expr { "," expr } ] ")" ";"
    expr   = conj { "||" conj }
    conj = comp { "&&" comp }
    comp   = sum [ ( "==" | "!=" | "<" | "<=" | ">" | ">=" ) sum ]
    sum    = term { ( "+" | "-" ) term }
    term = unary { ( "*" | "/" | "%" ) unary }
    unary  = ( "-" | "!" ) unary | primary
    primary = number | "true" | "false" | name | name "[" expr "]"
            | name "(" [ expr { "," expr } ] ")" | "(" expr ")"
"""


def rules(grammar):
    """Each rule by its name: alternatives, each a list of a literal, a token's kind or rule's name, or ({, [ or (, alternatives)."""
    words = re.findall(r'"[^"]*"|\w+|[=|{}\[\]()]', grammar)
    at = 0

    def alternatives(close):
        nonlocal at
        found = [[]]
        while at < len(words) and words[at] != close and words[at + 1:at + 2] != ["="]:
            w = words[at]
            at += 1
            if w == "|": found.append([])
            elif w in "{[(":
                found[-1].append((w, alternatives({"{": "}", "[": "]", "(": ")"}[w])))
                at += 1
            else: found[-1].append(w)
        return found

    table = {}
    while at < len(words):
        name = words[at]
        at += 2
        table[name] = alternatives(None)
    return table


RULES = rules(GRAMMAR)


COUNTED = ("block", "statement", "primary")  # where brackets of any kind count among the open things; those of an array and of parameters don't


def opens(rule, literal):
    return rule in COUNTED and literal in "([{" or rule == "unary" and literal in "-!"


def closes(rule, literal):
    return rule in COUNTED and literal in ")]}"


class Reader:
    """Tokens, the furthest at which some part of a rule found something else, and how many things are open."""

    def __init__(self, found):
        self.found, self.fault, self.open = found, 0, 0

    def take(self, rule, part, i):
        """What this part of a rule takes from token i on: the pieces, and the token after them; or None."""
        if isinstance(part, str): return self.rule(part, i) if part in RULES else self.token(rule, part.strip('"'), i)
        how, inner = part
        if how == "(": return self.choose(rule, inner, i)
        pieces = []
        while True:
            r = self.choose(rule, inner, i)
            if r is None: return pieces, i
            pieces.extend(r[0])
            i = r[1]
            if how == "[": return pieces, i

    def token(self, rule, kind, i):
        if i == len(self.found) or self.found[i][0] != kind or opens(rule, kind) and self.open == OPEN_MOST:
            self.fault = max(self.fault, i)
            return None
        self.open += opens(rule, kind) - closes(rule, kind)
        return [self.found[i]], i + 1

    def sequence(self, rule, parts, i):
        pieces = []
        for part in parts:
            r = self.take(rule, part, i)
            if r is None: return None
            pieces, i = pieces + r[0], r[1]
        return pieces, i

    def choose(self, rule, alternatives, i):
        """The alternative that takes most."""
        before, best, after = self.open, None, self.open
        for parts in alternatives:
            self.open = before
            r = self.sequence(rule, parts, i)
            if r and (best is None or r[1] > best[1]): best, after = r, self.open
        self.open = after
        return best

    def rule(self, name, i):
        before = self.open
        r = self.choose(name, RULES[name], i)
        self.open = before
        return r and ([(name, r[0])], r[1])


def derive(text):
    """The program's derivation: a rule's name and its pieces, which are tokens and derivations."""
    found = tokens(text)
    reader = Reader(found)
    (derived,), end = reader.rule("program", 0)
    if end < len(found): raise Unreadable(found[reader.fault][1] if reader.fault < len(found) else len(text))
    return derived
