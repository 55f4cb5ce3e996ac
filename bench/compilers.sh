# Sourced by the comparisons: the other side, compiled by each C compiler that there is, at -O2.
# Needs: here, built. Sets: objects, options (which sides there are), main (the compiler for the rest).

# by_each FILE MACRO: FILE.c, whose function has the name MACRO, as FILE_gcc and FILE_clang.
by_each() {
    objects=
    options=
    main=
    for compiler in gcc clang; do
        command -v "$compiler" >/dev/null || continue
        "$compiler" -O2 -D"$2=$1_$compiler" -c -o "$built/$1_$compiler.o" "$here/$1.c"
        objects="$objects $built/$1_$compiler.o"
        options="$options -DWITH_$(echo "$compiler" | tr a-z A-Z)"
        main=${main:-$compiler}
        echo "$compiler: $("$compiler" --version | head -n 1)"
    done
    [ -n "$main" ] || {
        echo "neither gcc nor clang is there" >&2
        exit 1
    }
}

# proved COMMAND..: runs a command at the top of the repository, and shows what it said only where it failed.
proved() {
    (cd "$root" && "$@") >"$built/proved.log" 2>&1 || {
        cat "$built/proved.log"
        exit 1
    }
}
