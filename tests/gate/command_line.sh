# The command-line program, through its launcher.
./doorlang help >/dev/null || exit 1
exec python3 tests/command_line/cases.py ./doorlang
