#!/usr/bin/env bash
# sizes.sh [MODULE]: bytes of machine code of the routine for the whole part, compiled alone for several processors by the kit's clang.
#
# MODULE is an LLVM module in text form, target/whole/module.ll from run.sh unless told otherwise. Behind a size stand the runtime
# routines that the code calls, on processors without float instructions. Needs readelf; it tests nothing.
set -euo pipefail
top=$(cd "$(dirname "${BASH_SOURCE[0]}")/../.." && pwd -P)
module=${1:-$top/target/whole/module.ll}
[ -f "$module" ] || { echo "sizes: no $module: tests/whole/run.sh makes it" >&2; exit 2; }
rt=$(readlink -f "$(command -v rt)") || { echo "sizes: no rt" >&2; exit 2; }
clang=$(cd "$(dirname "$rt")/.." && pwd -P)/toolchain/bin/clang
room=$(mktemp -d)
trap 'rm -rf "$room"' EXIT

# alone ATTRIBUTES: the routine and what it calls, with no other function and for no processor yet.
alone() {
    awk '/^define internal .*@"(cell::whole_part|core::num::wrapping_sub_u32)"\(/, /^}/' "$module" | sed 's/^define internal \(.*\)@"cell::whole_part"(/define \1@whole_part(/'
    grep '^![0-9][0-9]* = ' "$module"
    echo "attributes #0 = { nounwind $1}"
}
alone "" >"$room/O3.ll"
alone "minsize optsize " >"$room/Oz.ll"
while read -r name words; do
    for level in O3 Oz; do
        # shellcheck disable=SC2086
        "$clang" $words -$level -fPIC -Wno-override-module -c -x ir "$room/$level.ll" -o "$room/alone.o"
        readelf -sW "$room/alone.o" | awk -v what="$name -$level" '$NF == "whole_part" { size = $3 } $7 == "UND" && NF == 8 { calls = calls " " $8 } END { print what ": " size calls }'
    done
done <<'TARGETS'
x86-64 --target=x86_64-unknown-linux-gnu
aarch64 --target=aarch64-unknown-linux-gnu
Cortex-M0 --target=thumbv6m-none-eabi
Cortex-M4F --target=thumbv7em-none-eabihf -mcpu=cortex-m4 -mfpu=fpv4-sp-d16
RV32IMC --target=riscv32-unknown-elf -march=rv32imc
TARGETS
