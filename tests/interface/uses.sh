#!/usr/bin/env bash
# uses.sh: `look`, `install` and the Rust crate's build, used rightly and wrongly: what they say, to the letter, and their status.
# TENAHVAR_LIB_DIR names the folder with the archive. `look` proves its probe where that was not done; all else is quick.
set -euo pipefail
cd "$(dirname "$0")/../.."
top=$(pwd -P)
lib=$(cd "${TENAHVAR_LIB_DIR:?names the folder with libtenahvar.a}" && pwd)
unset TENAHVAR_LIB_DIR DESTDIR PKG_CONFIG_PATH
work=$top/target/interface/uses
uses=0
rm -rf "$work"
mkdir -p "$work"
say() { echo "uses: $*"; }
wrongly() {
    say "$*"
    exit 1
}

# expect STATUS OUT ERR COMMAND..: COMMAND ends with STATUS, and prints the lines OUT and on standard error the lines ERR.
expect() {
    local status=0 text=("$2" "$3") place=(out err) i
    "${@:4}" >"$work/out" 2>"$work/err" </dev/null || status=$?
    for i in 0 1; do
        diff <([ -z "${text[i]}" ] || printf '%s\n' "${text[i]}") "$work/${place[i]}" || wrongly "${*:4}: printed something else (>)"
    done
    [ "$status" = "$1" ] || wrongly "${*:4}: status $status, not $1"
    uses=$((uses + 1))
}

# counted WHAT: says how many uses were tried since the last time.
counted() {
    say "$1: $uses uses"
    uses=0
}

for part in scratch look install cargo; do . "tests/interface/uses/$part.sh"; done
say "passed"
