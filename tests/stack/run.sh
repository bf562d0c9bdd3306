#!/usr/bin/env bash
# run.sh [MODULE [ARCHIVE]]: how much stack a call can take, from the library's LLVM module, for x86-64, which the archive is made for.
# No function may call itself, directly or through others, and no chain of calls may take more bytes than the header's TENAHVAR_STACK.
#
# MODULE is LLVM bitcode or text; without it tests/module makes the library's, and its archive. The object in ARCHIVE, where one is given,
# must be the one whose stack is counted here, and the header must state that number of bytes.
# The calls are looked at twice: in the module as written, where every function stands by itself, and in its machine code, where some
# have gone into others and frames have their sizes. A call that does not name its function fails, and one to a function outside the
# module: only memcpy, memset and memmove may be imported.
# Not counted: the C library's own frames below memcpy's return address, and what a caller pushes as an exported function's arguments.
set -euo pipefail
[ $# -le 2 ] || { echo "usage: run.sh [MODULE [ARCHIVE]]" >&2; exit 2; }
for file in "$@"; do [ -f "$file" ] || { echo "stack: no file $file" >&2; exit 2; }; done
here=$(cd "$(dirname "$0")" && pwd -P)
module=${1:+$(readlink -f "$1")}
archive=${2:+$(readlink -f "$2")}
cd "$here/../.."
work=$PWD/target/stack
rt=$(readlink -f "$(command -v rt)") || { echo "stack: no rt" >&2; exit 2; }
kit=$(cd "$(dirname "$rt")/.." && pwd -P)/toolchain
stated=$(sed -n 's/.*archive it is at most \([0-9,]*\) bytes.*/\1/p' include/tenahvar.h | tr -d ,)
limit=$(awk '$1 == "#define" && $2 == "TENAHVAR_STACK" { print $3 }' include/tenahvar.h)
[[ $limit =~ ^[0-9]+$ ]] || { echo "stack: include/tenahvar.h has no number TENAHVAR_STACK"; exit 1; }

if [ -z "$module" ]; then
    tests/module tenahvar "$work"
    module=$work/module.bc
    archive=$work/x86-64.a
fi
room=$(mktemp -d)
trap 'rm -rf "$room"' EXIT
cd "$room"
cp "$module" module.bc

# compiled OUT FLAG..: with the flags that the prover gives its compiler for an archive.
compiled() {
    "$kit/bin/clang" --target=x86_64-unknown-linux-gnu -march=x86-64 -ffunction-sections -fdata-sections \
        -mllvm -trap-unreachable -mllvm -no-trap-after-noreturn -mllvm -no-x86-call-frame-opt -mllvm -disable-machine-licm \
        -mllvm -disable-postra-machine-licm -mllvm -sink-common-insts=false --no-default-config -no-canonical-prefixes \
        -fintegrated-cc1 -fno-crash-diagnostics -Werror -fPIC -O3 "${@:2}" -x ir module.bc -o "$1" 2>said ||
        { cat said; echo "stack: clang does not compile $module"; exit 1; }
}
compiled written.ll -S -emit-llvm -Xclang -disable-llvm-passes
compiled machine.s -S -fstack-usage
if [ -n "$archive" ]; then
    compiled module.o -c
    "$kit/bin/llvm-ar" p "$archive" | cmp -s - module.o || { echo "stack: $archive has another object than the module's"; exit 1; }
    echo "stack: $archive has this module's object"
fi

# calls NAME WHERE: what graph.awk makes of NAME.calls, in NAME.graph, or what it finds wrong.
calls() { awk -v where="$2" -f "$here/graph.awk" "$1.calls" >"$1.graph" || { cat "$1.graph"; exit 1; }; }
awk -f "$here/written.awk" written.ll >written.calls
calls written "the module as written"
awk -f "$here/machine.awk" machine.su machine.s >machine.calls
calls machine "the machine code"

many=$(awk '$1 == "functions" { print $2 }' written.graph)
awk -F '\t' -v limit="$limit" -v many="$many" -v stated="${archive:+${stated:-no}}" '
    $1 == "sum" {
        printf "stack: %s %d\n", $2, $3
        sum[++n] = $3
        if (n == 1 || $3 > sum[best]) best = n
    }
    $1 == "link" {
        lines[n] = lines[n] sprintf("  %6d  %s\n", $3, $2)
        chain[n] = chain[n] (chain[n] == "" ? "" : " > ") $2
    }
    END {
        if (n == 0) { print "stack: the module exports no function"; exit 1 }
        print "stack: the deepest chain, and what each of its functions holds at the call of the next:"
        printf "%s  %6d  in all\n", lines[best], sum[best]
        verdict = (sum[best] > limit) ? "too deep" : "no recursion among " many " functions"
        printf "stack: %s; at most %d bytes (TENAHVAR_STACK %d): %s\n", verdict, sum[best], limit, chain[best]
        if (stated != "" && stated != sum[best]) { print "stack: the header states " stated " bytes"; exit 1 }
        exit (sum[best] > limit)
    }' machine.graph
