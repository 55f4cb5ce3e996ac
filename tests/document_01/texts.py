"""Document 01 section 6: its texts, and what it says of them."""
from asking import main

G = b"""fn gcd(a: int, b: int): int {
  while b != 0 { let t: int = a % b; a = b; b = t; }
  return a;
}
fn main() { emit gcd(12, 18); emit gcd(-12, 18); emit gcd(5, 0); }
"""
Z = b"""var smoke: int[4];
var door: int[2];
fn alarm(z: int): bool { return smoke[z] >= 70 || smoke[z] < 0; }
fn main() {
  let n: int = 0;
  let z: int = 0;
  while z < 4 {
    if alarm(z) { n = n + 1; emit z; }
    z = z + 1;
  }
  if n >= 2 { door[0] = 1; door[1] = 1; emit 100; }
  else { if n == 1 { door[0] = 1; } }
}
"""
F = b"fn f(x: int): int { emit x; return x; } "
DOWN = b"fn f(n: int): int { if n == 0 { return 0; } else { return 1 + f(n - 1); } } "
assert len(G) == 164

# text, words of the input block, outcome, log, fuel, words of the arrays afterwards
RUNS = [(G, [], "finished", [6, 6, 5], 97, [])]
for smoke, log, door, fuel in (([10, 20, 30, 69], [], [0, 0], 96), ([10, 70, 30, 5], [1], [1, 0], 101), ([99, 20, -1, 5], [0, 2, 100], [1, 1], 108)):
    RUNS.append((Z, smoke + [0, 0], "finished", log, fuel, smoke + door))
for helpers, body, elements, outcome, log, fuel in (
        (b"", b"", 0, "finished", [], 0),
        (b"", b"emit 1;", 0, "finished", [1], 2),
        (b"", b"emit 1; emit 7 / (3 - 3); emit 2;", 0, "trap 1", [1], 8),
        (b"", b"let m: int = -2147483647 - 1; emit m / -1; emit m % -1; emit -7 / 2; emit -7 % 2; emit 7 / -2; emit 7 % -2; emit -m;", 0, "finished",
         [-2147483648, 0, -3, -1, -3, 1, -2147483648], 38),
        (b"", b"emit 2147483647 + 1; emit 65536 * 65536; emit 65537 * 65537;", 0, "finished", [-2147483648, 0, 131073], 12),
        (b"var a: int[3]; ", b"a[2] = 5; emit a[2]; emit a[3];", 3, "trap 2", [5], 9),
        (F, b"emit f(1) + f(2) * f(3);", 0, "finished", [1, 2, 3, 7], 21),
        (F + b"var a: int[2]; ", b"a[f(1)] = f(0); a[f(2)] = f(9) / 0;", 2, "trap 1", [1, 0, 2, 9], 28),
        (DOWN, b"emit f(62);", 0, "finished", [62], 691),
        (DOWN, b"emit f(63);", 0, "trap 3", [], 696)):
    RUNS.append((helpers + main(body), [0] * elements, outcome, log, fuel, None))
ENDLESS = main(b"while true { }")

BROKEN = [b"", b"fn f() { }", main(b"let a: int = 1; let a: int = 2;"), main(b"let a: int = 1; if true { let a: int = 2; }"), main(b"let a: int = a;"), main(b"if true < false { }"),
          b"var a: int[1]; " + main(b"emit a;"), b"fn f(): int { while true { return 1; } } " + main(b""), b"fn f(): int { if true { return 1; } } " + main(b"")]
KEPT = [main(b"if true == false { }"), main(b"emit --5;")]
