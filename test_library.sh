#!/bin/sh
# Makes the static library for x86-64, and builds and runs the examples in C and C++ and all tests of rust/ over it,
# installs it below a prefix of its own, and holds the version and the words of the refusals to be the same wherever they stand.
# On another processor ARCHIVE names the library that tools/native made for it of the same proved program.
# What cannot be run here is said in a line, with what is missing; nothing is installed outside target/. The last line is `N passed, M failed`.
set -eu
cd "$(dirname "$0")"
passed=0 failed=0 passed_over=0
room=$PWD/target/library

pass() { echo "library: $1: passed"; passed=$((passed + 1)); }
fail() { echo "library: $1: FAILED"; failed=$((failed + 1)); }
pass_over() { echo "library: $1: not run, $2"; passed_over=$((passed_over + 1)); }

# Runs a command, shows what it says if it fails, and counts it.
try() { # NAME COMMAND..
    what=$1
    shift
    if "$@" >"$room/said" 2>&1; then pass "$what"; else cat "$room/said"; fail "$what"; fi
}

finish() {
    [ "$passed_over" -eq 0 ] || echo "library: $passed_over not run on this machine"
    echo "$passed passed, $failed failed"
    if [ "$failed" -eq 0 ]; then exit 0; fi
    exit 1
}

# ---- one version, and one set of words
mkdir -p "$room"
version=$(sed -n 's/^#define OMBRADIEC_VERSION "\(.*\)"$/\1/p' include/ombradiec.h)

one_version() {
    crate=$(sed -n 's/^version = "\(.*\)"$/\1/p' rust/Cargo.toml)
    page=$(sed -n 's/.*Version \([0-9.]*\)\.$/\1/p' README.md)
    echo "include/ombradiec.h has '$version', rust/Cargo.toml '$crate' and README.md, at the end of a line, as 'Version N.', '$page'"
    [ -n "$version" ] && [ "$crate" = "$version" ] && [ "$page" = "$version" ]
}
try 'one version in the header, the crate and README.md' one_version

# ---- the archive
made() {
    if [ -n "${ARCHIVE:-}" ]; then echo "$ARCHIVE"; else tools/archive; fi >"$room/archive" && [ -f "$(cat "$room/archive")" ]
}
try 'the archive' made
[ -s "$room/archive" ] || finish
archive=$(realpath "$(cat "$room/archive")")

# ---- C and C++
# Whether a compiler is there, with the headers of the C library.
compiles() { # COMPILER LANGUAGE [OPTION]
    echo '#include <stdio.h>' | "$1" ${3:+"$3"} -x "$2" -fsyntax-only - 2>/dev/null
}
strict='-pedantic -Wall -Wextra -Wconversion -Werror'

# The headers are clean in every standard, by every example.
clean() { # COMPILER LANGUAGE OPTIONS STANDARD..
    with=$1 language=$2 options=$3
    shift 3
    for standard in "$@"; do
        for example in plan calls fields; do
            "$with" -x "$language" "-std=$standard" $strict $options -Iinclude -fsyntax-only "example/$example.c" || return 1
        done
    done
}

# Builds example/NAME.c, and holds what it prints to example/NAME.out.
example() { # COMPILER NAME LANGUAGE STANDARD
    "$1" -x "$3" "-std=$4" $strict -O2 -Iinclude "example/$2.c" -x none "$archive" -o "$room/$2" || return 1
    "$room/$2" >"$room/$2.out" || return 1
    cmp "$room/$2.out" "example/$2.out"
}

# The words of the header are those of tools/refusals, no more and no fewer; 11 and 19 are refusals of programs.
words() {
    cat >"$room/words.c" <<'C'
#include <stdio.h>
#include <string.h>
#include "ombradiec.h"
int main(void)
{
    for (int number = -1; number < 300; number++)
        if (number && strcmp(ombradiec_refusal_text(number), "no refusal has this number") != 0)
            printf("%d %s\n", number, ombradiec_refusal_text(number));
    return strcmp(ombradiec_refusal_text(OMBRADIEC_DONE), "done") != 0;
}
C
    "$1" $strict -std=c99 -Iinclude "$room/words.c" -o "$room/words" && "$room/words" >"$room/words.out" || return 1
    grep -v '^1[19] ' tools/refusals | diff "$room/words.out" -
}

# Installs below a prefix, as a staged one too, and builds a program by what pkg-config says alone.
installed() { # COMPILER
    rm -rf "$room/prefix" "$room/stage"
    ARCHIVE=$archive DESTDIR=$room/stage ./install.sh /usr || return 1
    grep -qx 'prefix=/usr' "$room/stage/usr/lib/pkgconfig/ombradiec.pc" || return 1
    ARCHIVE=$archive ./install.sh "$room/prefix" || return 1
    PKG_CONFIG_PATH=$room/prefix/lib/pkgconfig
    export PKG_CONFIG_PATH
    [ "$(pkg-config --modversion ombradiec)" = "$version" ] || return 1
    (cd "$room" && "$1" -std=c99 ../../example/plan.c $(pkg-config --cflags --libs ombradiec) -o installed) || return 1
    "$room/installed" | cmp - example/plan.out
}

c=''
for compiler in gcc clang; do
    if ! command -v "$compiler" >/dev/null || ! compiles "$compiler" c; then
        pass_over "the headers in C by $compiler" "there is none here that has the headers of the C library"
        continue
    fi
    c=${c:-$compiler}
    standards='c99 c11 c17'
    if compiles "$compiler" c -std=c2x; then standards="$standards c2x"; fi
    try "the headers in $standards by $compiler" clean "$compiler" c '' $standards
done
cpp=''
for compiler in g++ clang++; do
    if ! command -v "$compiler" >/dev/null || ! compiles "$compiler" c++; then
        pass_over "the headers in C++ by $compiler" "there is none here that has the headers of the C library"
        continue
    fi
    cpp=${cpp:-$compiler}
    try "the headers in C++17 by $compiler" clean "$compiler" c++ -Wold-style-cast c++17
done
for name in plan calls fields; do
    if [ -n "$c" ]; then try "$name.c" example "$c" "$name" c c99; else pass_over "$name.c" 'there is no gcc or clang here'; fi
    if [ -n "$cpp" ]; then try "$name.c as C++" example "$cpp" "$name" c++ c++17; else pass_over "$name.c as C++" 'there is no g++ or clang++ here'; fi
done
if [ -z "$c" ]; then
    pass_over 'the words of the refusals' 'there is no gcc or clang here'
    pass_over 'the library below a prefix' 'there is no gcc or clang here'
else
    try 'the words of the refusals' words "$c"
    if command -v pkg-config >/dev/null; then try 'the library below a prefix' installed "$c"; else pass_over 'the library below a prefix' 'there is no pkg-config here'; fi
fi

# ---- Rust
rust_plan() {
    cargo run --quiet --offline --example plan >"$room/plan.out" || return 1
    cmp "$room/plan.out" ../example/plan.out
}

# The pages are made where there is no archive, and a build there says what is missing.
without_archive() {
    mkdir -p "$room/empty"
    RUSTDOCFLAGS='-D warnings' OMBRADIEC_LIB=$room/empty cargo doc --quiet --offline --no-deps || return 1
    if OMBRADIEC_LIB=$room/empty cargo build --offline >"$room/build" 2>&1; then return 1; fi
    grep -q 'there is no .*libombradiec.a' "$room/build"
}

if ! command -v cargo >/dev/null; then
    for what in 'the tests in Rust' 'the tests in Rust without std' plan.rs 'the pages in Rust'; do
        pass_over "$what" 'there is no cargo here'
    done
else
    export CARGO_TARGET_DIR="$room/rust"
    OMBRADIEC_LIB=$(dirname "$archive")
    export OMBRADIEC_LIB
    cd rust
    try 'the tests in Rust' cargo test --quiet --offline
    try 'the tests in Rust without std' cargo test --quiet --offline --no-default-features --lib --test lent
    try plan.rs rust_plan
    try 'the pages in Rust without an archive' without_archive
    if cargo fmt --version >/dev/null 2>&1; then try 'the layout in Rust' cargo fmt --check; else pass_over 'the layout in Rust' 'there is no cargo fmt here'; fi
    if cargo clippy --version >/dev/null 2>&1; then
        try 'no warning in Rust' cargo clippy --quiet --offline --all-targets -- -D warnings
    else
        pass_over 'no warning in Rust' 'there is no cargo clippy here'
    fi
fi
finish
