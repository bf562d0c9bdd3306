# What `look` and `install` share. They read this file from the repository's root.

# fail STATUS TEXT..: says TEXT and ends with STATUS.
fail() {
    echo "${0##*/}: ${*:2}" >&2
    exit "$1"
}

# need_rt WHAT: WHAT cannot be done without the toolchain.
need_rt() {
    command -v rt >/dev/null || fail 3 "no rt in PATH: $1 needs the Rattle toolchain"
}

# proving LOG CRATE COMMAND..: runs a command of the prover in the folder of CRATE, one at a time, with nothing to read. LOG gets all that it
# says, and standard error a line for each crate that was proved now or not proved, as it comes.
proving() {
    local line crate=
    mkdir -p target 2>/dev/null && [ -w target ] || fail 3 "cannot write to $PWD/target"
    (
        if command -v flock >/dev/null; then flock 9; fi
        (cd "crates/$2" && "${@:3}") 2>&1 </dev/null | while IFS= read -r line || [ -n "$line" ]; do
            printf '%s\n' "$line"
            # Of each crate it says how many of its modules were checked, and then the verdict.
            case $line in
            "crate "*": modules loaded="*)
                crate=${line#crate }
                crate=${crate%%:*}
                ;;
            "logic=proved "*) echo "${0##*/}: $crate proved" >&2 ;;
            "logic=not-proved"*) echo "${0##*/}: $crate NOT PROVED" >&2 ;;
            "rt: "*" did not build, so "* | "rt: "*"; waiting for it"*) printf '%s\n' "${0##*/}: ${line#rt: }" >&2 ;;
            esac
        done >"$1"
    ) 9>>target/proving.lock
}
