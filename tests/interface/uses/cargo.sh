# The Rust crate's build: where it finds the archive. Where a wrong folder would be taken there is a file of that name that is no archive.

if ! command -v cargo >/dev/null; then
    say "no cargo here: the Rust crate's search for the archive was not tried"
    return
fi
colours=$(cat examples/lookup.out)
repository=$work/rust
package=$repository/bindings/rust
caller=$work/caller
mkdir -p "$package" "$caller/lib" "$repository"/{lib,target/native,crates/tenahvar/out}
cp -R examples "$repository/"
cp -R bindings/rust/{Cargo.toml,Cargo.lock,build.rs,src} "$package/"

# example FOLDER WORD..: runs the example by cargo, called in FOLDER with the environment that WORD.. change.
example() {
    local cargo=(cargo run --offline --quiet --manifest-path "$package/Cargo.toml" --example lookup)
    (cd "$1" && env "${@:2}" CARGO_TARGET_DIR="$work/cargo" "${cargo[@]}")
}

# complaint FOLDER WORD..: what the crate's build said when it failed.
complaint() { example "$@" 2>&1 | sed -n '/^ *--- stderr$/,$s/^  //p' | tail -n +2; }

# A folder that is named: absolute, from the caller's folder, from the repository's root, from the package.
archive=$lib/libtenahvar.a
named="TENAHVAR_LIB_DIR names the folder that it lies in; an absolute path is always understood"
expect 0 "$colours" "" example / TENAHVAR_LIB_DIR="$lib"
cp "$archive" "$caller/lib/"
echo "no archive" >"$repository/lib/libtenahvar.a"
expect 0 "$colours" "" example "$caller" TENAHVAR_LIB_DIR=lib
rm "$repository/lib/libtenahvar.a"
expect 101 "no libtenahvar.a in $work/lib, nor in $repository/lib, nor in $package/lib
$named" "" complaint "$work" TENAHVAR_LIB_DIR=lib
expect 101 "no libtenahvar.a in $repository/lib, nor in $package/lib
$named" "" complaint "$caller" -u PWD TENAHVAR_LIB_DIR=lib
expect 101 "no libtenahvar.a in $caller
$named" "" complaint / TENAHVAR_LIB_DIR="$caller"
cp "$archive" "$repository/lib/"
expect 0 "$colours" "" example "$work" TENAHVAR_LIB_DIR=lib
expect 0 "$colours" "" example "$caller" -u PWD TENAHVAR_LIB_DIR=../../lib

# No folder is named: where rt writes the archive comes first, then where the tests leave it.
advice="build it in the repository, by \`rt lib --cpu x86-64\` in crates/tenahvar;
or name the folder that it lies in: TENAHVAR_LIB_DIR=FOLDER"
first=$repository/crates/tenahvar/out
second=$repository/target/native
cp "$archive" "$first/"
echo "no archive" >"$second/libtenahvar.a"
expect 0 "$colours" "" example "$caller" TENAHVAR_LIB_DIR=
mv "$first/libtenahvar.a" "$second/"
expect 0 "$colours" "" example "$caller"
rm "$second/libtenahvar.a"
expect 101 "no libtenahvar.a in $first, nor in $second
$advice" "" complaint "$caller"
counted "the crate's build"
