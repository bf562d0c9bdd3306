#!/usr/bin/env bash
# run.sh [--long] [RUST_TEXT]: the library against the oracle, every bit of every answer; every plain lookup asked of both engines.
#
# Builds the archives of the library and of the first engine (tests/native-staticlib), the oracle from
# the crate's Rust text (RUST_TEXT, ../shared/docs/src beside the repository unless told otherwise) and the comparing program, and runs it:
# half a minute; --long makes two million random lookups of either sort (one size, unequal sizes) and larger sets. Needs rustc, and no network.
# Where the Rust text is not there nothing is compared: it says so and exits with 0.
# TENAHVAR_ARCHIVE=DIR takes DIR/libtenahvar.a and DIR/libfirst.a instead of building them; SEED=N takes another seed.
set -euo pipefail
here=$(cd "$(dirname "${BASH_SOURCE[0]}")" && pwd -P)
top=$(cd "$here/../.." && pwd -P)
count=200000 words=
if [ "${1:-}" = --long ]; then count=2000000 words=long; shift; fi
text=${1:-$top/../shared/docs/src}
if [ ! -f "$text/src/conversions/md_lut.rs" ]; then
    echo "differential: NOTHING COMPARED: the crate's Rust text is not at $text. Give its folder as an argument."
    exit 0
fi
command -v rustc >/dev/null || { echo "differential: no rustc" >&2; exit 2; }
out=$top/target/differential
mkdir -p "$out"
"$here/../oracle/build.sh" "$text" "$top/target/oracle"
archive=${TENAHVAR_ARCHIVE:-}
if [ -z "$archive" ]; then
    for name in tenahvar first; do (cd "$top" && "$here/../native-staticlib" "$name"); done
    archive=$top/target/native
fi
# No target-cpu and no fast mathematics: rustc then fuses nothing.
rustc -O --edition 2021 --crate-name differential -L dependency="$top/target/oracle" --extern oracle="$top/target/oracle/liboracle.rlib" \
    -L native="$archive" -o "$out/differential" "$here/main.rs"
exec "$out/differential" "$count" "${SEED:-1}" $words
