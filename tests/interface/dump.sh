#!/bin/bash
# dump.sh ARCHIVE FOLDER: the page on table files. Its program compiles and works, and its file is, byte by byte, the one that the
# library writes. FOLDER is for what is made.
set -euo pipefail
cd "$(dirname "$0")/../.."
page=docs/TABLE-FILES.md
say() { echo "dump: $*"; }

sed -n 's/^    //p' "$page" >"$2/snippet.h"
"${CC:-cc}" -std=c99 -Wall -Wextra -Werror -pedantic -Iinclude "-I$2" tests/interface/dump.c "$1" -o "$2/dump"
"$2/dump" >"$2/written" || { say "the program on the page does not do what it says"; exit 1; }

# Rows of a place and bytes: '508 | 01 01 02 00', or '22 | 486 times 00'. Each must begin where the one before ends.
awk -F ' *[|] *' '
    $2 !~ /^[0-9]+$/ || $3 !~ /^([0-9]+ times )?[0-9A-F][0-9A-F]( [0-9A-F][0-9A-F])*$/ { next }
    $2 != at + 0 { print "the row of byte " $2 " comes at byte " at + 0 }
    { count = split($3, words, " ") }
    count > 1 && words[2] == "times" { for (i = 0; i < words[1]; i++) print words[3]; at += words[1]; next }
    { for (i = 1; i <= count; i++) print words[i]; at += count }
' "$page" >"$2/shown"
diff "$2/written" "$2/shown" || { say "what the library writes (<) and the page (>) differ"; exit 1; }
say "$(wc -l <"$2/shown") bytes on the page are those that the library writes"
