#!/usr/bin/env bash
# make.sh [--check] [RUST_TEXT [FOLDER]]: the vectors that the program replay is held to.
#
# Writes FOLDER/stdin and FOLDER/stdout (crates/replay unless told otherwise), and files.stdin and files.stdout beside this script, from the oracle, which is built from the
# crate's Rust text (RUST_TEXT, ../shared/docs/src beside the repository unless told otherwise).
# With --check nothing in FOLDER is written: it says whether the files there are the ones that would be.
# Where the Rust text is not there it says so and exits with 0. Needs rustc, and no network.
set -euo pipefail
here=$(cd "$(dirname "${BASH_SOURCE[0]}")" && pwd -P)
top=$(cd "$here/../.." && pwd -P)
check=
if [ "${1:-}" = --check ]; then check=1; shift; fi
text=${1:-$top/../shared/docs/src}
folder=${2:-$top/crates/replay}
if [ ! -f "$text/src/conversions/md_lut.rs" ]; then
    echo "vectors: NOTHING WRITTEN OR CHECKED: the crate's Rust text is not at $text. Give its folder as an argument."
    exit 0
fi
out=$top/target/vectors
mkdir -p "$out"
"$here/../oracle/build.sh" "$text" "$top/target/oracle"
rustc -O --edition 2021 --crate-name vectors -L dependency="$top/target/oracle" --extern oracle="$top/target/oracle/liboracle.rlib" \
    -o "$out/vectors" "$here/main.rs"
"$out/vectors" "$out"
for file in {"$folder/","$here/files."}{stdin,stdout}; do
    made=$out/${file##*/}
    if [ -n "$check" ]; then
        cmp "$made" "$file" || { echo "vectors: ${file##*/} is not what the oracle gives; run tests/vectors/make.sh" >&2; exit 1; }
    else
        cp "$made" "$file"
    fi
done
[ -z "$check" ] || echo "vectors: all four files are what the oracle gives"
