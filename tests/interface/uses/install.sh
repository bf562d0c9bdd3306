# `install`. Wrong uses and the ways to an archive are tried in the scratch repository; then the real archive is installed, and a
# program compiled with it.

install=$scratch/repository/install
prefix=$work/prefix
usage=$(without_rt bash "$install" --help)
head -n 1 <<<"$usage" | grep -qx 'usage: bash install PREFIX' || wrongly "install --help starts with no usage"
expect 0 "$usage" "" without_rt bash "$install" --help
expect 0 "$usage" "" without_rt bash "$install" -h
expect 2 "" "$usage" without_rt bash "$install"
expect 2 "" "install: PREFIX is empty" without_rt bash "$install" ""
expect 2 "" "install: no option '--prefix=lib': bash install PREFIX" without_rt bash "$install" --prefix=lib
expect 2 "" "install: 2 words, and one is wanted: bash install PREFIX" without_rt bash "$install" "$prefix" lib
expect 1 "" "install: cannot write to $work/out/here: Not a directory" without_rt bash "$install" "$work/out/here"
expect 3 "" "install: no rt in PATH: the library needs the Rattle toolchain" without_rt bash "$install" "$prefix"
expect 2 "" "install: no libtenahvar.a in $work, the folder that TENAHVAR_LIB_DIR names" \
    without_rt env TENAHVAR_LIB_DIR="$work" bash "$install" "$prefix"
[ -z "$(find "$prefix" -type f)" ] || wrongly "a failed install wrote files"

places=(include/tenahvar.h lib/libtenahvar.a lib/pkgconfig/tenahvar.pc share/doc/tenahvar/LICENSE share/doc/tenahvar/NOTICE)

# installed ROOT ARCHIVE: under ROOT are the five files and no others, and ARCHIVE is the one among them.
installed() {
    diff <(printf './%s\n' "${places[@]}") <(cd "$1" && find . -type f | LC_ALL=C sort) || wrongly "other files (>) are in $1"
    [ -z "$(find "$1" -type f ! -perm 644)" ] || wrongly "the files in $1 are not for all to read"
    cmp "$2" "$1/lib/libtenahvar.a"
    cmp include/tenahvar.h "$1/include/tenahvar.h"
    for file in LICENSE NOTICE; do cmp "$file" "$1/share/doc/tenahvar/$file"; done
}

# listed ROOT: what install prints.
listed() { printf "install: $1/%s\n" "${places[@]}"; }

# A prover that makes an archive, and one that does not.
first="install: proving the library first, some minutes where that was not done; target/install.log has what the prover says"
made=$scratch/repository/crates/tenahvar/out
failed="install: the library is not proved or not built: target/install.log has what was said"
prover <<END
$(called crates/tenahvar 'lib --cpu x86-64')
[ -z "\$(cat)" ] || exit 6
echo "crate lists: modules loaded=0 checked=40"
echo "logic=proved functions=1"
mkdir -p out
echo "the archive" >out/libtenahvar.a
END
expect 0 "$(listed "$prefix")" "$first"$'\ninstall: lists proved' with_rt bash "$install" "$prefix"
installed "$prefix" "$made/libtenahvar.a"
prover <<<$'echo "crate lists: modules loaded=0 checked=40\nlogic=not-proved"; exit 1'
expect 3 "" "$first"$'\ninstall: lists NOT PROVED\n'"$failed" with_rt bash "$install" "$prefix"

# An archive that is named: from here, from the repository's root, and where both have one from here. It may be the installed one itself.
mkdir -p "$here/target/native" "$scratch/repository/target/native"
expect 0 "$(listed "$prefix")" "" without_rt env TENAHVAR_LIB_DIR=crates/tenahvar/out bash "$install" "$prefix"
installed "$prefix" "$made/libtenahvar.a"
echo "an archive of the tests" >"$scratch/repository/target/native/libtenahvar.a"
echo "another archive" >"$here/target/native/libtenahvar.a"
expect 0 "$(listed "$prefix")" "" without_rt env TENAHVAR_LIB_DIR=target/native bash "$install" "$prefix"
installed "$prefix" "$here/target/native/libtenahvar.a"
expect 0 "$(listed "$prefix")" "" without_rt env TENAHVAR_LIB_DIR="$prefix/lib" bash "$install" "$prefix"
installed "$prefix" "$here/target/native/libtenahvar.a"

# Where it goes: a relative prefix, one with a blank, below another folder, and where a file cannot be written.
expect 0 "$(listed "$here/a b")" "" without_rt env TENAHVAR_LIB_DIR="$lib" bash "$install" "a b"
installed "$here/a b" "$lib/libtenahvar.a"
expect 0 "$(listed "$here/stage$prefix")" "" without_rt env DESTDIR=stage TENAHVAR_LIB_DIR="$lib" bash "$install" "$prefix"
installed "$here/stage$prefix" "$lib/libtenahvar.a"
mkdir "$prefix/lib/libtenahvar.a.new"
expect 1 "install: $prefix/include/tenahvar.h" "install: cannot write $prefix/lib/libtenahvar.a: Is a directory" \
    without_rt env TENAHVAR_LIB_DIR="$lib" bash "$install" "$prefix"
rm -rf "$prefix"

# The version stands in the header, in the crate and in the list of changes.
read -r version numbers < <("$work/words")
crate=$(sed -n 's/^version = "\(.*\)"$/\1/p' bindings/rust/Cargo.toml)
locked=$(sed -n '/^name = "tenahvar"$/,$s/^version = "\(.*\)"$/\1/p' bindings/rust/Cargo.lock)
changed=$(sed -n 's/^## \([0-9.]*\).*/\1/p' CHANGELOG.md | head -n 1)
for other in "$numbers" "$crate" "$locked" "$changed"; do
    [ "$other" = "$version" ] || wrongly "the header's version is $version, and elsewhere it is $other"
done

# flags PREFIX WORD..: what pkg-config gives for the installed library; without pkg-config, what the file for it says.
flags() {
    local pc=$1/lib/pkgconfig
    if command -v pkg-config >/dev/null; then
        PKG_CONFIG_PATH=$pc pkg-config "${@:2}" tenahvar
        return
    fi
    for word in "${@:2}"; do
        case $word in --modversion) name=Version ;; --cflags) name=Cflags ;; --libs) name=Libs ;; esac
        sed -n "s/^$name: //p" "$pc/tenahvar.pc" | sed -e "s|\${includedir}|$pc/../../include|" -e "s|\${libdir}|$pc/../../lib|"
    done
}

# A program compiled with what was installed gives the example's colours; so it does when all was moved.
command -v pkg-config >/dev/null || say "no pkg-config here: its file was read by hand"
expect 0 "$(listed "$prefix")" "" env TENAHVAR_LIB_DIR="$lib" bash install "$prefix"
installed "$prefix" "$lib/libtenahvar.a"
mkdir "$work/elsewhere"
for place in "$prefix" "$work/elsewhere/moved"; do
    [ -e "$place" ] || mv "$prefix" "$place"
    [ "$(flags "$place" --modversion)" = "$version" ] || wrongly "the installed version is $(flags "$place" --modversion), not $version"
    # shellcheck disable=SC2046
    "${CC:-cc}" -std=c99 -Wall -Wextra -Werror -pedantic -MD -MF "$work/used" examples/lookup.c $(flags "$place" --cflags --libs) \
        -Wl,-t -o "$work/lookup" >"$work/linked"
    for file in used linked; do grep -qF "$place/" "$work/$file" || wrongly "not compiled with the files in $place"; done
    expect 0 "$(cat examples/lookup.out)" "" "$work/lookup"
done
counted install
