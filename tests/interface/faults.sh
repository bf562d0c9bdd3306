#!/bin/bash
# faults.sh PROGRAM PROFILES: what PROGRAM, made of examples/profile, says to each wrong use and of each fault of a file, word for word, and
# with which status. PROFILES is a folder with profiles by profile.c: mAB1-A2B1 and so on.
set -euo pipefail
place=$(mktemp -d)
trap 'chmod -R u+rwx "$place"; rm -rf "$place"' EXIT
cp "$1" "$place/profile"
chmod 755 "$place" "$place/profile"   # another user runs the program too, see below
for kind in mAB1 mft1 mft2-2; do cp "$2/$kind-A2B1" "$place/$kind"; done
name=$1
cd "$place"
tried=0
as=(env)

wrong() { echo "faults: $name ${*:2}: $1" >&2; exit 1; }

# ends STATUS TEXT OUT WORD..: with these words the program writes this line to its stderr and ends with this status; its stdout is OUT.
ends() {
    local status=0
    timeout 20 "${as[@]}" ./profile "${@:4}" >"$3" 2>err || status=$?
    printf '%s\n' "$2" | diff - err >&2 && [ "$status" = "$1" ] || wrong "status $status; asked for were $1 and: $2" "${@:4}"
    tried=$((tried + 1))
}

# says STATUS TEXT WORD..: the same, and it writes nothing to its stdout.
says() {
    ends "$1" "$2" out "${@:3}"
    [ ! -s out ] || wrong "colours beside a complaint" "${@:3}"
}

# put FILE PLACE BYTES: a file gets other bytes at a place.
put() { printf "$3" | dd of="$1" bs=1 seek="$2" conv=notrunc status=none; }

# changed PROFILE PLACE BYTES TEXT: this is said of the profile with other bytes at a place.
changed() {
    cp "$1" changed
    put changed "$2" "$3"
    says 1 "changed: $4" changed
}

# The command line.
says 2 'usage: profile FILE [TAG]'
says 2 'usage: profile FILE [TAG]' mAB1 A2B1 A2B0
says 2 'usage: profile FILE [TAG]' mAB1 A2B1 A2B0 A2B2
says 2 "A2B: a tag's name has four characters" mAB1 A2B
says 2 "A2B10: a tag's name has four characters" nothing A2B10
says 2 ": a tag's name has four characters" mAB1 ''

# Files that are none to read.
mkdir folder
mkfifo pipe
ln -s nothing link
: >empty
printf 'no profile, but a text of some length%.0s' 1 2 3 4 >text
truncate -s 4294967296 large
says 1 'nothing: no such file' nothing
says 1 'link: no such file' link
says 1 ': no such file' ''
says 1 '%s%n: no such file' '%s%n'
says 1 $'\xff\xfe: no such file' $'\xff\xfe'
says 1 'folder: this is a directory' folder
says 1 'pipe: this is no regular file' pipe
says 1 '/dev/null: this is no regular file' /dev/null
says 1 'text/profile: the file cannot be read' text/profile
says 1 'large: the file is larger than a profile can be' large
says 1 'empty: the file is too short for a profile' empty
says 1 'text: this is no ICC profile' text
[ ! -c /dev/full ] || ends 1 'mAB1: the colours cannot be written' /dev/full mAB1

# Tags: the entry of the table's tag stands at 156, the tag at 208.
says 1 'mAB1: there is no such tag' mAB1 B2A0
says 1 'mAB1: there is no such tag' mAB1 a2b1
says 1 "mAB1: the tag's type is not mAB, mBA, mft1 or mft2" mAB1 A2B0
changed mAB1 0 '\377' 'the profile is cut off'
changed mAB1 36 'A' 'this is no ICC profile'
changed mAB1 128 '\377\377\377\377' 'the tag table is cut off'
changed mAB1 131 '\31' 'the tag table is cut off'
changed mAB1 131 '\2' "the tag's type is not mAB, mBA, mft1 or mft2"
changed mAB1 131 '\1' 'there is no tag A2B1 and no A2B0'
changed mAB1 131 '\0' 'there is no tag A2B1 and no A2B0'
changed mAB1 160 '\377\377\377\377' 'the tag is not in the file'
changed mAB1 160 '\0\0\1\254' 'the tag is not in the file'
changed mAB1 164 '\377\377\377\377' 'the tag is not in the file'
changed mAB1 164 '\0\0\0\334' 'the tag is not in the file'
changed mAB1 164 '\0\0\0\3' "the tag's type is not mAB, mBA, mft1 or mft2"
changed mAB1 164 '\0\0\0\37' 'the tag is too short for its type'
changed mft1 164 '\0\0\0\57' 'the tag is too short for its type'
changed mft2-2 164 '\0\0\0\63' 'the tag is too short for its type'
changed mAB1 232 '\0\0\0\0' 'the tag has no CLUT'
changed mAB1 232 '\0\0\0\334' 'the CLUT is not in the tag'

# Refusals of a CLUT element, and of plain values.
changed mAB1 216 '\0' 'refused 1: the number of input inks is outside 1..15'
changed mAB1 216 '\377' 'refused 1: the number of input inks is outside 1..15'
changed mAB1 217 '\20' 'refused 2: the number of output inks is outside 1..15, or for a cube method not 3 or 4'
changed mAB1 240 '\0' 'refused 3: a grid size in use is 0'
changed mAB1 240 '\377\377\377\377' 'refused 5: the table would have more than 4,294,967,295 entries'
changed mAB1 232 '\0\0\0\310' 'refused 13: the CLUT element has under 20 bytes'
changed mAB1 232 '\0\0\0\333' 'refused 13: the CLUT element has under 20 bytes'
changed mAB1 256 '\3' 'refused 14: the precision is neither 1 nor 2'
changed mAB1 256 '\2' 'refused 15: there is too little data'
changed mAB1 240 '\200\200\200' 'refused 15: there is too little data'
for kind in mft1 mft2-2; do
    changed $kind 216 '\0' 'refused 1: the number of input inks is outside 1..15'
    changed $kind 216 '\20' 'refused 1: the number of input inks is outside 1..15'
    changed $kind 216 '\377' 'refused 1: the number of input inks is outside 1..15'
    changed $kind 217 '\0' 'refused 2: the number of output inks is outside 1..15, or for a cube method not 3 or 4'
    changed $kind 218 '\0' 'refused 3: a grid size in use is 0'
    changed $kind 218 '\377' 'refused 5: the table would have more than 4,294,967,295 entries'
    changed $kind 218 '\200' 'refused 15: there is too little data'
done
changed mft2-2 256 '\377\377' 'refused 15: there is too little data'
cp mft1 one-entry
put one-entry 216 '\1\1\1'
changed one-entry 164 '\0\0\0\60' 'refused 15: there is too little data'

# A file that may not be read. Root may read any, so there another user tries.
cp mAB1 locked
mkdir closed
chmod 000 locked closed
[ "$(id -u)" != 0 ] || as=(setpriv --reuid=65534 --regid=65534 --clear-groups)
if [ "$("${as[@]}" ./profile nothing 2>&1 || true)" = 'nothing: no such file' ]; then
    says 1 'locked: no permission to read it' locked
    says 1 'closed/file: no permission to read it' closed/file
else
    echo "faults: no other user than root here: a file without permission was not tried"
fi
echo "faults: $name: $tried wrong uses and faults, each with its words and its status"
