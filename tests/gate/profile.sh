# tools/profile on a crate of its own: it names the function, and says so where nothing could be checked.
set -u
top=$PWD passed=0 failed=0
room=$(mktemp -d) || exit 2
trap 'rm -rf "$room"' EXIT
mkdir -p "$room/tools" "$room/crates/small/src" || exit 2
cp -R "$top/tools/profile" "$top/tools/proving" "$room/tools"
cd "$room" || exit 2
echo 'small:' >crates.txt
printf '#![tactic(auto)]\n\npub fn half(a: u32) -> u32 {\n    a / 2\n}\n' >crates/small/src/lib.rt

# What the tool says has this line in it, and it ends with this status.
expect() { # WHAT STATUS LINE COMMAND...
    local what=$1 wanted=$2 line=$3 said status
    shift 3
    said=$("$@" 2>&1)
    status=$?
    if [ "$status" -eq "$wanted" ] && printf '%s\n' "$said" | grep -q -- "$line"; then
        passed=$((passed + 1))
    else
        failed=$((failed + 1))
        echo "FAILED: $what: status $status and '$said'"
    fi
}

expect "a function and its seconds" 0 '^ *[0-9.]* *[0-9.]*  proofs.half$' tools/profile small
expect "a crate that there is not" 1 'did not run' tools/profile none
echo "$passed passed, $failed failed"
[ "$failed" -eq 0 ]
