#!/usr/bin/env bash
# run.sh: the library's routine for the whole part of a product, at every f32 from 0 to below 255.
#
# The routine is no public function and stands in the archive only where the compiler put it into its callers. So it is taken out
# of the LLVM module that the prover hands to its compiler (tests/module), compiled alone as the archive is, and held to the rule
# that it had before, grid lines compared in turn, and to Rust's cast. Needs rustc and a C linker, and no network.
# TENAHVAR_MODULE=FILE holds the routine of the module in FILE, LLVM bitcode or text.
set -euo pipefail
here=$(cd "$(dirname "${BASH_SOURCE[0]}")" && pwd -P)
top=$(cd "$here/../.." && pwd -P)
command -v rustc >/dev/null || { echo "whole: no rustc" >&2; exit 2; }
rt=$(readlink -f "$(command -v rt)") || { echo "whole: no rt" >&2; exit 2; }
kit=$(cd "$(dirname "$rt")/.." && pwd -P)/toolchain
out=$top/target/whole
mkdir -p "$out"
module=${TENAHVAR_MODULE:-}
if [ -z "$module" ]; then
    "$top/tests/module" tenahvar "$out"
    module=$out/module.bc
fi
text=$out/module.ll
"$kit/bin/clang" -S -emit-llvm -Xclang -disable-llvm-passes -Wno-override-module -x ir "$module" -o "$text"
sed -e 's/^define internal \(.*\)@"cell::whole_part"(/define \1@whole_part(/' -e 's/@"cell::whole_part"(/@whole_part(/' "$text" >"$out/whole.ll"
[ "$(grep -c '^define .*@whole_part(float' "$out/whole.ll")" = 1 ] || { echo "whole: no routine cell::whole_part in $module" >&2; exit 1; }
"$kit/bin/clang" --target=x86_64-unknown-linux-gnu -O3 -fPIC -ffunction-sections -Wno-override-module -c -x ir "$out/whole.ll" -o "$out/whole.o" 2>"$out/said" ||
    { cat "$out/said" >&2; exit 1; }
rm -f "$out/libwhole.a"
"$kit/bin/llvm-ar" rcs "$out/libwhole.a" "$out/whole.o"
if command -v nm >/dev/null; then
    size=$(nm -S "$out/whole.o" | awk '$4 == "whole_part" { print $2 }')
    echo "whole: the routine alone takes $((16#$size)) bytes"
fi
rustc -O --edition 2021 --crate-name whole -L native="$out" -o "$out/whole" "$here/main.rs"
exec "$out/whole"
