#!/usr/bin/env bash
# run.sh [RUST_TEXT]: time of a lookup, the library's and the crate's Rust text's side by side in one run.
#
# Builds the library's archive (tests/native-staticlib), the oracle from the Rust text (RUST_TEXT,
# ../shared/docs/src beside the repository unless told otherwise) and the measuring program. Needs rustc, and no network.
# Run it on a quiet machine. TENAHVAR_ARCHIVE=DIR measures DIR/libtenahvar.a instead of building one.
set -euo pipefail
here=$(cd "$(dirname "${BASH_SOURCE[0]}")" && pwd -P)
top=$(cd "$here/.." && pwd -P)
text=${1:-$top/../shared/docs/src}
if [ ! -f "$text/src/conversions/md_lut.rs" ]; then
    echo "bench: NOTHING MEASURED: the crate's Rust text is not at $text. Give its folder as an argument."
    exit 0
fi
command -v rustc >/dev/null || { echo "bench: no rustc" >&2; exit 2; }
out=$top/target/bench
mkdir -p "$out"
"$top/tests/oracle/build.sh" "$text" "$top/target/oracle"
archive=${TENAHVAR_ARCHIVE:-}
if [ -z "$archive" ]; then
    "$top/tests/native-staticlib" tenahvar
    archive=$top/target/native
fi
rustc -O --edition 2021 --crate-name bench -L dependency="$top/target/oracle" --extern oracle="$top/target/oracle/liboracle.rlib" \
    -L native="$archive" -o "$out/bench" "$here/main.rs"
exec "$out/bench"
