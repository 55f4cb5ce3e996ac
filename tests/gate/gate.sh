# The gate passes a small proved repository, and fails each of its damaged copies.
set -u
top=$PWD passed=0 failed=0
room=$(mktemp -d) || exit 2
trap 'rm -rf "$room"' EXIT

# A repository of one crate, one function and one test, under this gate.
fresh() {
    rm -rf "$room/repo"
    mkdir -p "$room/repo/.ci" "$room/repo/tests/gate" "$room/repo/crates/small/src" "$room/repo/crates/small/must-fail"
    cd "$room/repo" || exit 2
    cp "$top/.ci/run" .ci/run
    echo 'small:' >crates.txt
    echo 'echo "1 passed, 0 failed"' >tests/gate/one.sh
    cat >crates/small/src/lib.rt <<'RT'
#![tactic(auto)]

ghost use Rattle.std.specs.Prelude.{◌≡◌};

pub fn seven() -> u32
    ensures { result ≡ 7 }
{
    7
}
RT
}

# The gate in this repository says that, its last line has these figures, and its status is 0 only where none failed.
expect() { # WHAT PASSED FAILED SAID
    local said status last wanted="$2 passed, $3 failed" agrees=no
    said=$(bash .ci/run 2>&1)
    status=$?
    last=$(printf '%s\n' "$said" | tail -n 1)
    if [ "$3" -eq 0 ] && [ "$status" -eq 0 ]; then agrees=yes; fi
    if [ "$3" -ne 0 ] && [ "$status" -ne 0 ]; then agrees=yes; fi
    if [ "$last" = "$wanted" ] && [ $agrees = yes ] && printf '%s\n' "$said" | grep -q -- "$4"; then
        passed=$((passed + 1))
        echo "ok: $1: $last"
    else
        failed=$((failed + 1))
        printf '%s\n' "$said" | sed 's/^/    /'
        echo "FAILED: $1: wanted '$4' and '$wanted', and got '$last' with status $status"
    fi
}

fresh
printf 'file: src/lib.rt\nold:     7\nnew:     8\n' >crates/small/must-fail/eight.edit
expect "a proved repository" 3 0 "^small .* 1$"

fresh
cp -R crates/small crates/unlisted
expect "a crate that crates.txt does not list" 1 1 "no check reads .*crates/unlisted/src/lib.rt"

fresh
printf '\npub fn f(a: u32) -> u32 {\n    a + 1\n}\n' >>crates/small/src/lib.rt
expect "a function that is not proved" 1 1 "^rt: small NOT PROVED"

fresh
echo 'use Rattle.std.specs.Prelude.{ℕ}' >crates/small/Stray.antt
expect "an .antt file beside a crate's folders" 1 1 "no check reads .*crates/small/Stray.antt"

fresh
mkdir crates/small/specs
echo '-- No module.' >crates/small/specs/Lib.antt
echo 'use Rattle.std.specs.Prelude.{ℕ}' >crates/small/specs/Stray.antt
expect "an .antt file that no module names" 1 1 "^rt: small NOT PROVED"

fresh
printf 'file: src/lib.rt\nold: seven\nnew: eight\n' >crates/small/must-fail/name.edit
expect "an edit that the prover does not refuse" 2 1 "must-fail small/name.edit: NOT REFUSED"

fresh
printf 'file: src/lib.rt\nold:     9\nnew:     8\n' >crates/small/must-fail/nine.edit
expect "an edit that can't be applied" 2 1 "FAILED: rt ci found bad must-fail edits"

fresh
sed -i 's/^    7$/  7/' crates/small/src/lib.rt
expect "a layout that is not rt's" 1 1 "src/lib.rt is not in the layout"

fresh
echo 'echo "2 passed, 3 failed"; exit 1' >tests/gate/two.sh
expect "a test that counts failures" 4 3 "2 passed, 3 failed"

fresh
echo 'exit 0' >tests/gate/two.sh
expect "a test that says nothing" 2 1 "two.sh did not run to its last line"

fresh
rm -r tests
expect "a repository without tests" 1 1 "did not run to its last line"

fresh
echo 'small crate' >crates.txt
expect "a crates.txt that rt cannot read" 1 1 "^rt: .*crates.txt: "

# An rt that only prints this.
stub() { # TEXT
    mkdir -p bin
    printf '#!/bin/sh\ncat <<"SAID"\n%s\nSAID\n' "$1" >bin/rt
    chmod +x bin/rt
}

fresh
stub "rt: nothing to do"
PATH="$PWD/bin:$PATH" expect "an rt that does not count" 1 1 "rt ci did not run to its last line"

fresh
stub "1 passed, 0 failed"
PATH="$PWD/bin:$PATH" expect "an rt that does not say ok" 2 1 "rt ci counts no failure and does not say ok"

echo "$passed passed, $failed failed"
[ "$failed" -eq 0 ]
