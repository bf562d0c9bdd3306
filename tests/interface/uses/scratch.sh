# A repository with the scripts alone, and a toolchain that says what it is told to: uses.sh reads this first.
# The scripts are called in a folder of their own, and are given no path outside of target/ and the scratch folder: a wrong one can then do
# no harm. That folder lies outside the repository, since some of what is tried here is a link, and `rt ci` stops at a link anywhere in it.

scratch=$(mktemp -d)
trap 'rm -rf "$scratch"' EXIT
scratch=$(cd "$scratch" && pwd -P)
kit=$scratch/kit
here=$scratch/here
tools=(bash cat chmod dirname env grep mkdir mv readlink rmdir sed sleep)
mkdir -p "$scratch"/{here,tools,rt,repository/crates/{probe,tenahvar},kit/bin}
cp -R look install scripts include LICENSE NOTICE "$scratch/repository/"
for tool in "${tools[@]}"; do ln -s "$(command -v "$tool")" "$scratch/tools/"; done
if flock=$(command -v flock); then ln -s "$flock" "$scratch/tools/"; fi

# script FILE: standard input becomes a program.
script() {
    { echo "#!$(command -v bash)" && cat; } >"$1"
    chmod +x "$1"
}

# prover: standard input is what the toolchain does when it is called.
prover() { script "$kit/bin/rt"; }
ln -s "$kit/bin/rt" "$scratch/rt/rt"

# called FOLDER COMMAND: a line for a prover, which says with status 8 that it was called in another folder or by another command.
called() { echo "[ \"\$PWD \$*\" = '$scratch/repository/$1 $2' ] || exit 8"; }

# without_rt, with_rt COMMAND..: runs COMMAND where there is no toolchain, or where it is the one that `prover` gave.
without_rt() { (cd "$here" && env PATH="$scratch/tools" LC_ALL=C "$@"); }
with_rt() { (cd "$here" && env PATH="$scratch/rt:$scratch/tools" LC_ALL=C "$@"); }
