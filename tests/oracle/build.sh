#!/usr/bin/env bash
# build.sh [RUST_TEXT [OUT]]: the oracle as a Rust library, OUT/liboracle.rlib.
#
# RUST_TEXT is the folder with the crate's text, ../shared/docs/src beside the repository unless told otherwise; OUT is
# target/oracle. The text is compiled where it lies, unchanged: the file OUT/text.rs only names its place.
# Plain rustc -O for this machine's usual processor, which fuses no product with a sum.
# Exit status 3: the text is not there.
set -euo pipefail
here=$(cd "$(dirname "${BASH_SOURCE[0]}")" && pwd -P)
top=$(cd "$here/../.." && pwd -P)
text=${1:-$top/../shared/docs/src}
out=${2:-$top/target/oracle}
for file in md_lut interpolator; do
    [ -f "$text/src/conversions/$file.rs" ] || { echo "oracle: no $file.rs under $text: the crate's Rust text is not there" >&2; exit 3; }
done
text=$(cd "$text" && pwd -P)
mkdir -p "$out"
paths=$(for file in md_lut interpolator; do printf '#[path = "%s/src/conversions/%s.rs"]\npub(crate) mod %s;\n' "$text" "$file" "$file"; done)
# What was built from the same files stays.
if [ -f "$out/liboracle.rlib" ] && [ "$(cat "$out/text.rs" 2>/dev/null)" = "$paths" ] &&
    [ -z "$(find "$here" "$text/src/conversions" "$(command -v rustc)" -newer "$out/liboracle.rlib" -type f)" ]; then exit 0; fi
printf '%s\n' "$paths" >"$out/text.rs"
rustc -O --edition 2021 --crate-type rlib --crate-name num_traits -o "$out/libnum_traits.rlib" "$here/num_traits.rs"
ORACLE_TEXT=$out/text.rs rustc -O --edition 2021 --crate-type rlib --crate-name oracle \
    --cfg 'feature="lut"' --cfg 'feature="options"' --check-cfg 'cfg(feature, values("lut", "options"))' \
    --extern num_traits="$out/libnum_traits.rlib" -o "$out/liboracle.rlib" "$here/lib.rs"
