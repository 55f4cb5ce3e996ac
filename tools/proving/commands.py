"""What the command line asks for."""
import re
import shutil
import tempfile
from pathlib import Path

from .files import Fault, read, repository, run, write

# a line of rt's that says what it did, and not what is proved
NOISE = re.compile(r"^(rt: |logic /|library |crate |statements |checked |so far: |rattle: no verdict)")
FUNCTION = re.compile(r"^fn (\S+): (.*)$", re.M)
# an answer, up to the next declaration or comment at the margin
ANSWER = r"(?m)^pub {0} :.*\n(?:[ \t].*\n)*{0}(?: .*)?\n(?:[ \t].*\n)*"


def dependencies(root):
    """{crate: what it depends on}, from crates.txt."""
    found = {}
    for line in read(root / "crates.txt").split("\n"):
        name, colon, rest = line.split("#")[0].partition(":")
        if colon:
            found[name.split()[0]] = rest.split()
    return found


def below(crate, deps):
    """The crate and all that it depends on, of this repository."""
    found = {crate}
    for name in deps[crate]:
        if name in deps:
            found |= below(name, deps)
    return found


def checked(folder, *flags):
    """(status, what `rt check` says in this folder, without its noise)"""
    status, said = run(["rt", "check", *flags], folder)
    return status, "\n".join(line for line in said.rstrip("\n").split("\n") if not NOISE.match(line)) + "\n"


def copied(root, crate, room):
    """A copy of the crate and of those below it, without what checks kept."""
    deps = dependencies(root)
    shutil.copy(root / "crates.txt", room / "crates.txt")
    (room / ".git").mkdir()
    for name in deps:
        if name in below(crate, deps):
            shutil.copytree(root / "crates" / name, room / "crates" / name, ignore=shutil.ignore_patterns("out"))
    lines = read(root / "crates.txt").split("\n")
    write(room / "crates.txt", "".join(line + "\n" for line in lines if line.split("#")[0].split(":")[0].split()[:1] and
                                       line.split("#")[0].split(":")[0].split()[0] in below(crate, deps)))
    return room / "crates" / crate


def proofs_of(own, function):
    """The folder below proofs/ that has or would have the function's files, and its name there."""
    parts = function.replace("/", "::").split("::")
    if (own / "proofs" / Path(*parts)).is_dir():
        return own / "proofs" / Path(*parts)
    folders = sorted({p.parent for kind in ("Answers.antt", "Invariants.antt", "Proof.antt") for p in (own / "proofs").rglob(kind)})
    named = [f for f in folders if f.parts[-len(parts):] == tuple(parts) or
             (f.name.startswith("+") and list(f.relative_to(own / "proofs").parts[:-1])[-(len(parts) - 1) or len(f.parts):] == parts[:-1]
              and f"pub {parts[-1]}-" in "".join(read(p) for p in f.glob("*.antt")))]
    return named[0] if len(named) == 1 else own / "proofs" / Path(*parts)


def opened(file, module, goal):
    """The goal's answer becomes a hole."""
    text = read(file) if file.exists() else f"use {module}.Goals as goal\n"
    # in a cycle of calls a goal has a number before what is known
    taken = re.search(rf"(?m)^{re.escape(goal)}((?: [\w'-]+)*) =", text)
    hole = f"pub {goal} : goal.{goal}\n{goal}{taken[1] if taken else ' t c' if file.parent.name.startswith('+') else ' c'} = ?\n"
    found, count = re.subn(ANSWER.format(re.escape(goal)), hole, text, count=1)
    write(file, found if count else text + "\n" + hole)


def paths(root, crate, own, function, goal):
    """What may be cited at the goal, or the goals that are answered."""
    folder = proofs_of(own, function)
    answers = folder / "Answers.antt"
    if goal is None:
        names = re.findall(r"(?m)^pub (\S+) : goal\.\1$", read(answers) if answers.exists() else "")
        member = function.replace("/", "::").split("::")[-1] + "-" if folder.name.startswith("+") else ""
        names = [name for name in names if name.startswith(member)]
        print("\n".join(names) or f"prove: {function} has no answers: tools/prove --new {crate} {function} begins them")
        return 0
    with tempfile.TemporaryDirectory() as room:
        copy = copied(root, crate, Path(room))
        place = folder.relative_to(own)
        module = f"Rattle.{crate}." + ".".join(place.parts)
        opened(copy / place / "Answers.antt", module, goal)
        _, said = checked(copy, "--only", function, "--allow-holes")
    block = re.search(rf"(?m)^.*goal \?.* in `{re.escape(goal)}`\n((?:  .*\n)*)", said)
    if not block:
        raise Fault(f"there is no goal {goal} at {function}:\n{said}")
    print(block[1], end="")
    return 0


def begin(own, function):
    _, said = checked(own, "--start", function)
    print(said, end="")
    return 0 if re.search(r"^started=", said, re.M) else 1


def tell(own, function):
    flags = ["--only", function] if function else []
    status, said = checked(own, *flags, "--allow-holes")
    print(said, end="")
    open_ones = [name for name, how in FUNCTION.findall(said) if how not in ("proved", "no holes", "assumed")]
    return 1 if status or open_ones or re.search(r"holes=[1-9]", said) else 0


def run_in(root, given):
    own = root / "crates" / given.crate
    if given.crate not in dependencies(root) or not (own / "src").is_dir():
        raise Fault(f"crates.txt lists no crate {given.crate} with a folder crates/{given.crate}/src")
    if given.what == "paths":
        return paths(root, given.crate, own, given.function, given.goal)
    return begin(own, given.function) if given.what == "new" else tell(own, given.function)


def asked(given):
    return run_in(repository(), given)
