"""The lines of crates/document_01/stdin and stdout, as they are gathered; and texts on one line."""
asks, answers = [], []


def title(text):
    asks.append('"' + text)
    answers.append(text)


def line(ask, *said):
    asks.append(ask)
    answers.extend(said)


def spread(pieces):
    """A text of pieces: each bytes, or a count and bytes."""
    return b"".join(p if isinstance(p, bytes) else p[0] * p[1] for p in pieces)


def escaped(pieces):
    """The same on one line."""
    def plain(text):
        return "".join({10: "\\n", 9: "\\t", 13: "\\r", 92: "\\\\"}.get(b, chr(b) if 32 <= b < 127 else "\\x%02x" % b) for b in text)
    return "".join(plain(p) if isinstance(p, bytes) else "\\(%s\\)%x;" % (plain(p[1]), p[0]) for p in pieces)


def main(body): return b"fn main() { " + body + b" }"
