# `look`. Wrong words are tried where nothing could be built, then all with a probe that records what it is given, then the real probe.

look=$scratch/repository/look
out=$scratch/repository/crates/probe/out
usage=$(without_rt bash "$look" --help)
head -n 1 <<<"$usage" | grep -qx 'usage: bash look G N M CODE.. BYTE..' || wrongly "look --help starts with no usage"
expect 0 "$usage" "" without_rt bash "$look" --help
expect 0 "$usage" "" without_rt bash "$look" -h
expect 2 "" "$usage" without_rt bash "$look"

# wrong SHOWN WORD..: the first wrong one of the words is named, as SHOWN.
wrong() {
    expect 2 "" "look: $1 is not a whole number from 0 to 255 in decimal, without sign or leading zero" without_rt bash "$look" "${@:2}"
}
wrong "'256'" 256
wrong "'256'" 2 1 1 256 0 255
wrong "'256'" 2 1 1 255 0 256
wrong "'1000'" 2 1 1 1000 0 300
for word in 1.5 08 00 010 x -1 +1 -0 --version 0x10 1e2 260 300 18446744073709551616 '' ' 1' '1 ' '*' '1,2'; do
    wrong "'$word'" 2 1 1 "$word" 0 255
done
wrong "\$'1\\n2'" $'1\n2'
wrong "\$'\\331\\243'" $'\331\243'   # an Arabic three
mapfile -t most < <(yes 7 | head -n 16384)
expect 2 "" "look: 16385 words, and the probe reads at most 16384 bytes" without_rt bash "$look" "${most[@]}" 7
expect 3 "" "look: no rt in PATH: the probe needs the Rattle toolchain" without_rt bash "$look" 2 1 1 255 0 255

first="look: proving the probe first, some minutes; target/look.log has what the prover says"
answer=$'ok 2\n3F800000 00000000'
printf '%s\n' "$answer" >"$scratch/answer"
prover <<<'exit 9'
touch "$scratch/repository/target"
expect 3 "" "$first
look: cannot write to $scratch/repository/target" with_rt bash "$look" 0
rm "$scratch/repository/target"

# A probe that keeps the bytes and gives the answer that stands in a file.
script "$scratch/probe" <<END
[ "\$0 \$*" = "crates/probe/out/probe " ] || exit 8
cat >"$scratch/bytes"
cat "$scratch/answer"
END

# The log has all that the prover says. A line for each crate comes at once: this prover waits until the first one was seen. It has nothing
# to read, and it makes the probe.
prover <<END
$(called crates/probe run)
[ -z "\$(cat)" ] || exit 6
echo "fn lists::byte_at: proved"
echo "crate lists: modules loaded=0 checked=40"
echo "logic=proved functions=1"
for ((i = 0; i < 100; i++)); do
    if grep -qx 'look: lists proved' "$work/err"; then break; fi
    sleep 0.1
done
[ "\$i" -lt 100 ] || exit 7
echo "an error that is only a note" >&2
echo "rt: cell: another copy of the repository is building this library; waiting for it, at most half an hour, to use its work" >&2
echo "crate probe: modules loaded=3 checked=4"
echo "logic=proved functions=2"
mkdir -p out
cat "$scratch/probe" >out/probe
chmod +x out/probe
: >out/probe.stamp
END
expect 0 "$answer" "$first
look: lists proved
look: cell: another copy of the repository is building this library; waiting for it, at most half an hour, to use its work
look: probe proved" with_rt bash "$look" 2 1 2 255 0 255
diff - "$scratch/repository/target/look.log" <<'END' || wrongly "target/look.log has not what the prover said (<)"
fn lists::byte_at: proved
crate lists: modules loaded=0 checked=40
logic=proved functions=1
an error that is only a note
rt: cell: another copy of the repository is building this library; waiting for it, at most half an hour, to use its work
crate probe: modules loaded=3 checked=4
logic=proved functions=2
END
prover <<<'echo "rt: nothing has changed since the last proved build, by out/probe.stamp, so nothing is checked now"'
expect 0 "$answer" "" with_rt bash "$look" 2 1 2 255 0 255
rm "$out/probe.stamp"   # as `rt ci` does
expect 0 "$answer" "$first" with_rt bash "$look" 2 1 2 255 0 255
: >"$out/probe.stamp"
ln -s "$look" "$scratch/colour"
expect 0 "$answer" "" with_rt bash "$scratch/colour" 2 1 2 255 0 255

# given: the bytes that the probe was given, in decimal.
given() { od -An -v -tu1 "$scratch/bytes" | tr -s ' \n' ' '; }
for words in "0" "$(echo {0..255})" "${most[*]}"; do
    # shellcheck disable=SC2086
    expect 0 "$answer" "" with_rt bash "$look" $words
    [ "$(given)" = " $words " ] || wrongly "the probe was given$(given), not $words"
done

# Each refusal in the header's words, those that C gives.
"${CC:-cc}" -std=c99 -Wall -Wextra -Werror -pedantic -Iinclude tests/interface/words.c -o "$work/words"
"$work/words" | tail -n +2 >"$work/words.out"
for number in {1..21}; do
    echo "refused $number" >"$scratch/answer"
    expect 1 "refused $number" "$(sed -n "${number}p" "$work/words.out")" with_rt bash "$look" 0
done
echo "refused 6" >"$scratch/answer"
expect 1 "refused 6" "look: refused 6: the table is shorter than the sizes ask" with_rt bash "$look" 0

# A probe that fails, one that says something else, one that is not there, and one that is no longer proved.
echo "neither" >"$scratch/answer"
expect 3 "neither" "look: that is no answer of the probe" with_rt bash "$look" 0
rm "$scratch/answer"
script "$out/probe" <<<'exit 77'
expect 3 "" "look: the probe ended with status 77" with_rt bash "$look" 0
prover <<<"echo 'crate probing: modules loaded=1 checked=2
logic=not-proved
rt: the library probing did not build, so nothing above it was checked'; exit 1"
expect 3 "" "look: probing NOT PROVED
look: the library probing did not build, so nothing above it was checked
look: the probe is not proved (rt's status is 1): target/look.log has what the prover said" with_rt bash "$look" 0
prover <<<'exit 0'
rm "$out/probe"
expect 3 "" "$first
look: rt made no crates/probe/out/probe: remove crates/probe/out and try again" with_rt bash "$look" 0

# Two at a time: the second waits until the first has done with the prover.
if [ -e "$scratch/tools/flock" ]; then
    echo "$answer" >"$scratch/answer"
    prover <<<"mkdir '$scratch/busy' && sleep 0.5 && rmdir '$scratch/busy'"
    cat "$scratch/probe" >"$out/probe"
    chmod +x "$out/probe"
    with_rt bash "$look" 0 >"$work/other" 2>&1 &
    other=$!
    expect 0 "$answer" "" with_rt bash "$look" 0
    wait "$other" || wrongly "of two at a time one failed: $(cat "$work/other")"
fi

# The real probe: document 01's example, and document 01's refusals that a probe can give.
if command -v rt >/dev/null; then
    say "look: the real probe, which is proved first where that was not done"
    bash look 2 1 1 255 0 255 >"$work/out" || wrongly "look failed"
    expect 0 $'ok 1\n3F800000' "" bash look 2 1 1 255 0 255
    expect 0 $'ok 1\n3F800000' "" bash look 2 1 1 255 0 255 7 8
    expect 0 $'ok 1\n3F008081' "" bash look 2 1 1 128 0 255   # 128/255
    expect 1 "refused 1" "look: refused 1: the number of input inks is outside 1..15" bash look 2
    expect 1 "refused 2" "$(sed -n 2p "$work/words.out")" bash look 2 1 16
    expect 1 "refused 3" "look: refused 3: a grid size in use is 0" bash look 0 1 1
    expect 1 "refused 5" "look: refused 5: the table would have more than 4,294,967,295 entries" bash look 255 15 15
    expect 1 "refused 6" "look: refused 6: the table is shorter than the sizes ask" bash look 2 1 1 255 0
else
    say "look: no rt here: the real probe was not asked"
fi
counted look
