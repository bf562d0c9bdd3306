#!/usr/bin/env bash
# replay.sh: proves and builds the program replay, and holds it to the table files' vectors, files.stdin and files.stdout.
# (crates/replay's own stdin and stdout are `rt ci`'s to hold it to; a crate has one of each.)
set -euo pipefail
here=$(cd "$(dirname "${BASH_SOURCE[0]}")" && pwd -P)
top=$(cd "$here/../.." && pwd -P)
mkdir -p "$top/target"
(cd "$top/crates/replay" && rt run >"$top/target/replay.log" 2>&1) || { tail -n 20 "$top/target/replay.log" >&2; exit 1; }
"$top/crates/replay/out/replay" <"$here/files.stdin" >"$top/target/files.stdout"
cmp "$top/target/files.stdout" "$here/files.stdout" || { echo "vectors: replay prints something else than files.stdout" >&2; exit 1; }
echo "vectors: replay answers all $(grep -c '' "$here/files.stdout") table files as the oracle does"
