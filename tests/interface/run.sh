#!/bin/bash
# run.sh: the C header, the Rust binding and the examples against the archive. No network.
# TENAHVAR_LIB_DIR names a folder with a libtenahvar.a that is built already.
set -euo pipefail
cd "$(dirname "$0")/../.."
work=target/interface
mkdir -p "$work"
say() { echo "interface: $*"; }

if [ -z "${TENAHVAR_LIB_DIR:-}" ]; then
    tests/native-staticlib tenahvar
    TENAHVAR_LIB_DIR=target/native
fi
TENAHVAR_LIB_DIR=$(cd "$TENAHVAR_LIB_DIR" && pwd)
export TENAHVAR_LIB_DIR
archive=$TENAHVAR_LIB_DIR/libtenahvar.a
cc=${CC:-cc}
strict=(-Wall -Wextra -Werror -pedantic -Iinclude)
calls=(calls clut slab units linear skipping files)   # tests of the header
shown=(lookup slab page flash)  # examples that need no profile
programs=(tests/interface/{calls,clut,slab,units,linear,skipping,files,broken}.c examples/{lookup,slab,page,flash,profile}.c)

# compiled FOLDER FLAG..: every program, in FOLDER/tests or FOLDER/examples.
compiled() {
    mkdir -p "$1/tests" "$1/examples"
    for file in "${programs[@]}"; do
        "$cc" -std=c99 "${@:2}" "${strict[@]}" "$file" "$archive" -lm -o "$1/${file%%/*}/$(basename "$file" .c)"
    done
}

# The header's functions and the archive's are the same; a static one is the header's own.
"$cc" -E -P include/tenahvar.h | grep -v '^static' | grep -o 'tenahvar_[a-z0-9_]* *(' | tr -d ' (' | sort -u >"$work/declared"
nm -g --defined-only "$archive" 2>"$work/log" | awk '$3 ~ /^tenahvar_/ { print $3 }' | sort -u >"$work/defined"
diff "$work/declared" "$work/defined" || { say "declared (<) and defined (>) differ"; exit 1; }
say "$(wc -l <"$work/declared") functions declared, each in the archive, and no other there"

# The header in C99 and in C++; every function is called.
compiled "$work/c"
for program in "${calls[@]}"; do "$work/c/tests/$program"; done
if cxx=$(command -v "${CXX:-c++}"); then
    for program in "${calls[@]}"; do "$cxx" -x c++ -std=c++11 -fsyntax-only "${strict[@]}" "tests/interface/$program.c"; done
    say "the header compiles as C99 and as C++11"
else
    say "no C++ compiler here: the header was compiled as C99 alone"
fi

"$cc" -std=c99 "${strict[@]}" tests/interface/stack.c "$archive" -o "$work/stack"
"$work/stack"

# same NAME OUT WHO: what an example printed is held to its file.
same() { diff "examples/$1.out" "$2" || { say "$3 printed something else (>)"; exit 1; }; }

# examples FOLDER COMMAND..: the examples in FOLDER that need no profile, each run by COMMAND if there is one.
examples() {
    for example in "${shown[@]}"; do
        "${@:2}" "$1/$example" >"$work/shown.out" || { say "$1/$example: not done"; exit 1; }
        same "$example" "$work/shown.out" "$1/$example"
    done
}
examples "$work/c/examples"
tests/interface/dump.sh "$archive" "$work"

# flash FOLDER: the example `flash` with a file that it can write, left in $work/flash.table, and with one that it cannot.
flash() {
    rm -f "$work/flash.table"
    "$1/flash" "$work/flash.table" >"$work/shown.out" || { say "$1/flash: not done"; exit 1; }
    same flash "$work/shown.out" "$1/flash"
    if "$1/flash" "$work/flash.table/none" >"$work/shown.out" 2>"$work/log"; then say "$1/flash: no file, and no complaint"; exit 1; fi
}
flash "$work/c/examples"
mv "$work/flash.table" "$work/flash-c.table"

# Small profiles with each type of tag, whole ones and damaged ones. Without a tag's name A2B1 and A2B0 are read, and B2A0 is not.
for writer in profile damage; do "$cc" -std=c99 "${strict[@]}" "tests/interface/$writer.c" -o "$work/write-$writer"; done
rm -rf "$work/profiles" "$work/damaged"
mkdir -p "$work/profiles"
for kind in mAB1 mAB2 mBA1 mBA2 mft1 mft2-2 mft2-5 mft2-259; do
    for tag in A2B1 A2B0 B2A0; do "$work/write-profile" "$kind" "$tag" "$work/profiles/$kind-$tag"; done
done
for kind in mAB1 mBA2 mft1 mft2-2; do
    mkdir -p "$work/damaged/$kind"
    "$work/write-damage" "$kind" "$work/damaged/$kind"
done

# colours PATH: which of the examples' files has the colours of a profile. lut8Type and lut16Type have one size for all inks.
colours() { case "$1" in */mft*) echo profile-lut ;; *) echo profile ;; esac; }

# gives PROFILE COMMAND..: a reader gives the profile's colours.
gives() {
    "${@:2}" >"$work/whole.out" || { say "${*:2}: not done"; exit 1; }
    same "$(colours "$1")" "$work/whole.out" "${*:2}"
}

# whole COMMAND: a reader of profiles gives the colours of each, with its tag's name and, but for B2A0, without.
whole() {
    for profile in "$work"/profiles/*; do
        gives "$profile" "$1" "$profile" "${profile##*-}"
        case "$profile" in *-A2B?) gives "$profile" "$1" "$profile" ;; esac
    done
}

# broken NAME COMMAND..: a reader of many profiles, on whole and damaged ones, says the same as examples/profile.c, in $work/broken-c.out.
broken() {
    local out=$work/broken-$1.out
    "${@:2}" "$work"/profiles/*-A2B? "$work"/damaged/*/* >"$out" 2>&1 || { tail -n 5 "$out"; say "${*:2} has ended so"; exit 1; }
    diff "$work/broken-c.out" "$out" >"$work/log" && return
    head -n 10 "$work/log"
    say "examples/profile.c (<) and ${*:2} (>) say different things"
    exit 1
}
whole "$work/c/examples/profile"
tests/interface/faults.sh "$work/c/examples/profile" "$work/profiles"

# No room is asked for a table that is not there; what is cut off is not read; what says nothing about the table changes nothing.
(ulimit -v 1000000; broken c "$work/c/tests/broken")
! grep -E '/(cut|short)-[0-9]+: status 0$|: status [^01]|no memory' "$work/broken-c.out" || { say "examples/profile.c says so"; exit 1; }
for folder in "$work"/damaged/*; do
    printf "$(cat "examples/$(colours "$folder").out")\n%s: status 0\n" "$folder"/{long,unread}-* >"$work/unharmed"
    "$work/c/tests/broken" "$folder"/{long,unread}-* 2>&1 | diff "$work/unharmed" - || { say "examples/profile.c says (>)"; exit 1; }
done
many() { grep -c ": status $1\$" "$work/broken-c.out"; }
say "examples/profile.c: $(many 0) profiles, whole or damaged, are read, $(many 1) are not"

# The same under the compiler's checks and under valgrind.
if echo 'int main(void) { return 0; }' | "$cc" -fsanitize=address,undefined -x c - -o "$work/nothing" 2>"$work/log" && "$work/nothing"; then
    compiled "$work/sanitized" -g -fsanitize=address,undefined -fno-sanitize-recover
    for program in "${calls[@]}"; do "$work/sanitized/tests/$program" >"$work/checked.out"; done
    examples "$work/sanitized/examples"
    # Leaks are looked for where one process reads all profiles: on some machines that takes seconds as a process ends, and there are many here.
    ASAN_OPTIONS=detect_leaks=0 tests/interface/faults.sh "$work/sanitized/examples/profile" "$work/profiles" >"$work/checked.out"
    broken sanitized "$work/sanitized/tests/broken"
    say "no finding of the address and undefined-behaviour sanitizers"
else
    say "the sanitizers are not available here"
fi
if command -v valgrind >"$work/log"; then
    grind=(valgrind -q --error-exitcode=1 --leak-check=full)
    for program in "${calls[@]}"; do "${grind[@]}" "$work/c/tests/$program" >"$work/valgrind.out"; done
    examples "$work/c/examples" "${grind[@]}"
    broken valgrind "${grind[@]}" "$work/c/tests/broken"
    say "no finding of valgrind"
else
    say "valgrind is not available here"
fi

# The Rust binding, its tests and its examples.
if command -v cargo >"$work/log"; then
    export CARGO_TARGET_DIR=$PWD/$work/cargo
    (cd bindings/rust && cargo test --offline --quiet && cargo build --offline --quiet --lib --examples) >"$work/cargo.out" ||
        { cat "$work/cargo.out"; exit 1; }
    grep '^test result' "$work/cargo.out" | head -n 1
    library=$CARGO_TARGET_DIR/debug/libtenahvar.rlib
    built=$CARGO_TARGET_DIR/debug/examples
else
    link=(--edition 2021 -L "native=$TENAHVAR_LIB_DIR" -l static=tenahvar)
    rustc --test "${link[@]}" bindings/rust/src/lib.rs -o "$work/binding"
    "$work/binding" --quiet
    library=$work/libtenahvar.rlib
    rustc --crate-type rlib --crate-name tenahvar "${link[@]}" bindings/rust/src/lib.rs -o "$library"
    built=$work/rust
    mkdir -p "$built"
    for example in "${shown[@]}" profile; do
        rustc --edition 2021 --extern "tenahvar=$library" "examples/$example.rs" -o "$built/$example"
    done
fi
examples "$built"
flash "$built"
cmp "$work/flash-c.table" "$work/flash.table"
say "examples/flash: C and Rust write the same table file"
whole "$built/profile"
tests/interface/faults.sh "$built/profile" "$work/profiles"
rustc --edition 2021 --extern "tenahvar=$library" tests/interface/broken.rs -o "$work/broken-rust"
(ulimit -v 1000000; broken rust "$work/broken-rust")
say "examples/profile.rs says the same of each"
tests/interface/uses.sh
say "passed"
