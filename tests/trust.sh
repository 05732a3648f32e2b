#!/usr/bin/env bash
# Every file of public definitions stands in docs/TRUST.md with its number of lines, without blanks, comments and `use` lines, and so does the sum.
set -euo pipefail
cd "$(dirname "$0")/.."
document=docs/TRUST.md
sum=0
wrong=0

expect() {
    grep -qF "$1" "$document" && return
    echo "trust: $document lacks: $1" >&2
    wrong=1
}

for file in crates/*/specs/*.antt; do
    case $file in */Lib.antt | */Inner.antt | crates/points/*) continue ;; esac
    lines=$(grep -cvE '^[[:space:]]*(--|$)|^use ' "$file")
    sum=$((sum + lines))
    expect "| \`${file#crates/}\` | $lines |"
done
expect "| in all | $sum |"
for file in $(grep -oE '^\| `[a-z]+/specs/[A-Za-z]+\.antt`' "$document" | tr -d '|` '); do
    [ -f "crates/$file" ] && continue
    echo "trust: $document names crates/$file, which is missing" >&2
    wrong=1
done
[ "$wrong" = 0 ]
echo "trust: $sum lines of definitions, as $document says"
