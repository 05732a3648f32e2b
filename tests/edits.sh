#!/usr/bin/env bash
# Every edit of crates/*/must-fail stands as crate/name in the last column of one row of docs/THEOREMS.md's table of wrong implementations,
# every edit that the document names is a file, and a must-fail folder holds nothing but files NAME.edit.
set -euo pipefail
cd "$(dirname "$0")/.."
document=docs/THEOREMS.md
heading='## Wrong implementations that are ruled out'
# Lines `crate/name LINE`: an edit of the table, and the line of its row.
rows=$(awk -F'|' -v heading="$heading" '
    /^## / { inside = $0 == heading }
    inside && /^\|/ { n = split($(NF - 1), words, /[^a-z0-9_\/]+/); for (i = 1; i <= n; i++) if (words[i] ~ /^[a-z_]+\/[a-z0-9_]+$/) print words[i], NR }' "$document")
tabled=$(cut -d' ' -f1 <<< "$rows" | sort -u)
crates=$(sed -nE 's,^([a-z_]+)[ :].*,\1,p' crates.txt | paste -sd'|')
named=$(grep -oP "(?<![\w/.-])($crates)/[a-z0-9_]+(?![\w/]|\.\w)" "$document" | sort -u || true)
edits=0
wrong=0

fault() {
    echo "edits: $1" >&2
    wrong=1
}

for file in crates/*/must-fail/*.edit; do
    crate=${file#crates/}
    name=${crate%%/*}/$(basename "$file" .edit)
    edits=$((edits + 1))
    grep -qxF "$name" <<< "$tabled" || fault "the table of $document lacks $name"
done
for name in $(sort -u <<< "$tabled"$'\n'"$named"); do
    [ -f "crates/${name%/*}/must-fail/${name#*/}.edit" ] || fault "$document names $name, and crates/${name%/*}/must-fail/${name#*/}.edit is missing"
done
for name in $(cut -d' ' -f1 <<< "$rows" | sort | uniq -d); do
    fault "the table of $document has $name more than once, in the lines $(grep "^$name " <<< "$rows" | cut -d' ' -f2 | paste -sd' ')"
done
while read -r file; do
    fault "$file is no file NAME.edit directly in a must-fail folder (a name is of a-z, 0-9 and _)"
done < <(find crates/*/must-fail -mindepth 1 -regextype posix-extended ! \( -type f -regex 'crates/[^/]+/must-fail/[a-z0-9_]+\.edit' \) | sort)
[ "$wrong" = 0 ]
echo "edits: $edits edits, as $document says"
