# Sourced by bench, host/run and compare/* at the project's root: the toolchain's parts, and proving, compiling, linking and running for x86-64.

# the toolchain stands where rt does
rt=$(command -v rt) || { echo "the Rattle toolchain's rt is not on the path" >&2; exit 2; }
home=${RATTLE_HOME:-$(dirname "$(dirname "$(readlink -f "$rt")")")}
tools=$home/toolchain
[ "$(uname -m)" = x86_64 ] && [ -x "$tools/bin/clang" ] || { echo "the toolchain at $home has no compiler for $(uname -m)" >&2; exit 2; }

program=target/bin/argolythe
archive=target/staticlib/libexport.a
built=target/c

# fresh FILE: whether a file is there and no source is newer.
fresh() {
    [ -f "$1" ] && [ -z "$(find crates crates.txt -name out -prune -o -newer "$1" \( -name '*.rt' -o -name '*.antt' -o -name crates.txt \) -print -quit)" ]
}

# told: of the lines of rt those that say how far it is or what is wrong.
told() {
    sed -u -n '/^rt: /p; /error/p' >&2
}

# build_program NAME: proves and builds a program to target/bin/NAME, where that is missing or older than a source. `rt run` also runs it, here on
# no input: its own lines come on standard error, and what the program prints is dropped.
build_program() {
    local file=target/bin/$1
    ! fresh "$file" || return 0
    echo "proving and building $file by rt run; from nothing this takes many minutes" >&2
    (cd "crates/$1" && "$rt" run </dev/null 2>&1 >/dev/null) | told || return
    mkdir -p target/bin
    cp "crates/$1/out/$1" "$file"
}

# build_archive: proves and builds the calls for C to target/staticlib/libexport.a.
build_archive() {
    ! fresh "$archive" || return 0
    echo "proving and building $archive by rt lib; from nothing this takes many minutes" >&2
    (cd crates/export_c && "$rt" lib </dev/null 2>&1) | told || return
    mkdir -p target/staticlib
    cp crates/export_c/out/libexport_c.a "$archive"
}

# compile LEVEL FILE..: C for x86-64 into target/c/. The toolchain has the C library and not its headers: headers/ has the names that are used.
compile() {
    local level=$1 file
    shift
    mkdir -p "$built"
    for file; do
        "$tools/bin/clang" --target=x86_64-unknown-linux-gnu -std=c11 -Wall -Wextra -Werror "$level" -fPIE \
            -nostdinc -isystem toolchain/headers -I include -c "$file" -o "$built/$(basename "$file" .c)$level.o"
    done
}

# link PROGRAM FILE..: to target/c/PROGRAM, with the toolchain's C library. The linker speaks also when all is well.
link() {
    local name=$1
    shift
    if ! "$home/bin/rattle-link" --target x86_64-unknown-linux-gnu --toolchain "$tools" -o "$built/$name" "$@" 2>"$built/link.log"; then
        cat "$built/link.log" >&2
        return 1
    fi
}

# The words before a program: the toolchain's loader, with its C library.
start=("$tools/lib/ld-linux-x86-64.so.2" --library-path "$tools/lib")
