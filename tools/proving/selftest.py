"""The tool tried on a crate of its own: a loop, a call, a cycle of calls, and the faults that it must report."""
import subprocess
import sys
import tempfile
from pathlib import Path

from .files import read, run as said_by, write

SOURCE = """#![tactic(auto)]

ghost use Rattle.std.specs.Prelude.{◌≡◌, ◌+◌, ◌*◌, ◌<◌, ◌≤◌, length};

// The sum of the bytes of `a`, of which there are few enough that the sum fits.
pub fn total(a: &[u8]) -> usize
    requires { length a.now ≤ 65536 }
    ensures { result ≤ 255 * length a.now }
{
    let mut sum: usize = 0;
    let mut i = 0;
    while i < a.len() {
        sum += a[i] as usize;
        i += 1;
    }
    sum
}

// One more than `n`.
pub fn next(n: usize) -> usize
    requires { n < 1000 }
    ensures { result ≡ n + 1 }
{
    n + 1
}

// Two more than `n`.
pub fn after(n: usize) -> usize
    requires { n < 900 }
    ensures { result ≡ n + 2 }
{
    next(next(n))
}

// Whether `n` is even.
#[cycle(parity)]
pub fn even(n: u32) -> bool {
    if n == 0 { true } else { odd(n - 1) }
}

// Whether `n` is odd.
#[cycle(parity)]
pub fn odd(n: u32) -> bool {
    if n == 0 { false } else { even(n - 1) }
}
"""

CHOSEN = """use Prim.Native.Nat.{◌≤◌, ◌*◌, ◌-◌}
use lib.ListN.{length}
use Rattle.sums.proofs.total.Given as goal

abbrev pub invariant-loop-i : goal.invariant-loop-i
invariant-loop-i l = (l.i ≤ length l.a) × (l.sum ≤ 255 * l.i)

abbrev pub decreases-loop-i : goal.decreases-loop-i
decreases-loop-i l = length l.a - l.i
"""

ANSWERED = """use native.Mathlib.Omega.{arith}
use Rattle.sums.proofs.after.Goals as goal

pub returns : goal.returns
returns c = omega (arith, c.next.ensures, c.next-2.ensures)
"""

CYCLE = """use Rattle.sums.proofs.+parity.Given as goal

abbrev pub decreases-even : goal.decreases-even
decreases-even a = a.n

abbrev pub decreases-odd : goal.decreases-odd
decreases-odd a = a.n
"""


class Tests:
    def __init__(self):
        self.passed = self.failed = 0

    def expect(self, what, holds, said=""):
        if holds:
            self.passed += 1
            print(f"ok: {what}")
        else:
            self.failed += 1
            print(f"FAILED: {what}" + "".join(f"\n    {line}" for line in said.split("\n") if line))


def of_crate(tests, tool, root):
    """The whole way on a crate."""
    proofs = root / "crates" / "sums" / "proofs"
    chosen, answered = proofs / "total" / "Invariants.antt", proofs / "after" / "Answers.antt"
    write(root / "crates.txt", "sums:\n")
    write(root / "crates" / "sums" / "src" / "lib.rt", SOURCE)

    def prove(*words):
        ended = subprocess.run([sys.executable, str(tool), *words], cwd=root, encoding="utf-8",
                               stdout=subprocess.PIPE, stderr=subprocess.STDOUT)
        return ended.returncode, ended.stdout

    status, said = prove("--new", "sums", "total")
    tests.expect("--new begins a function's files", status == 0 and "invariant-loop-i l = ?" in read(chosen), said)
    status, said = prove("--new", "sums", "nowhere")
    tests.expect("a function that is not there is reported", status == 1 and "no function `nowhere`" in said, said)
    (proofs / "total" / "Answers.antt").unlink()
    write(chosen, CHOSEN.split("abbrev pub decreases")[0])
    status, said = prove("sums", "total")
    tests.expect("a measure that is not there is reported", status == 1 and "expected a measure" in said, said)
    write(chosen, CHOSEN)
    write(answered, ANSWERED)
    write(proofs / "+parity" / "Invariants.antt", CYCLE)
    status, said = prove("sums")
    tests.expect("a crate whose goals have answers is proved", status == 0, said)
    status, said = said_by(["rt", "check"], root / "crates" / "sums")
    tests.expect("rt check takes them", status == 0 and "\nlogic=proved" in said, said)

    write(answered, ANSWERED.replace("c.next.ensures", "c.gone.ensures"))
    status, said = prove("sums", "after")
    tests.expect("a fact that is not there is reported, with what is", status == 1
                 and "has no field `gone`" in said and "`next-2`" in said, said)
    write(answered, ANSWERED + "\npub shift-sum : goal.shift-sum\nshift-sum c = omega arith\n")
    status, said = prove("sums", "after")
    tests.expect("an answer that fits no goal is reported", status == 1 and "has no `shift-sum`" in said, said)
    write(answered, ANSWERED.replace("omega (arith, c.next.ensures, c.next-2.ensures)", "?"))
    status, said = prove("sums", "after")
    tests.expect("a goal that is open is reported", status == 1 and "goal ? in `returns`" in said, said)
    write(answered, ANSWERED)
    write(chosen, CHOSEN.replace("255 * l.i", "254 * l.i"))
    status, said = prove("sums", "total")
    tests.expect("a wrong invariant is refused", status == 1 and "may be false" in said, said)
    write(chosen, CHOSEN)

    status, said = prove("--paths", "sums", "total", "overflow_add-sum")
    tests.expect("--paths lists what may be cited at a goal that rattle proves", status == 0 and "c.loop-i: .sum, .i, .invariant" in said, said)
    status, said = prove("--paths", "sums", "after", "returns")
    tests.expect("--paths lists what may be cited at a goal that has an answer", status == 0 and "c.next-2: " in said
                 and read(answered) == ANSWERED, said)
    status, said = prove("--paths", "sums", "after", "nothing")
    tests.expect("a goal that is not there is reported", status == 1 and "no goal nothing at after" in said, said)


def run(tool):
    """Runs all, prints the count as the last line, and gives the exit status."""
    tests = Tests()
    with tempfile.TemporaryDirectory() as folder:
        of_crate(tests, tool, Path(folder).resolve())
    print(f"{tests.passed} passed, {tests.failed} failed")
    return 1 if tests.failed else 0
