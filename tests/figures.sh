#!/usr/bin/env bash
# README's figures are the tree's: lines of code, of definitions and of proof of the product's crates, without blanks, comments and `use` lines.
set -euo pipefail
cd "$(dirname "$0")/.."

count() { # the folder of each crate, the files' ending
    find crates/*/"$1" -name "*.$2" ! -path 'crates/trials/*' ! -path 'crates/trial_calls/*' ! -path 'crates/limits/*' ! -path 'crates/points/*' \
        -exec cat {} + | grep -cvE '^[[:space:]]*(--|//|$)|^[[:space:]]*(ghost )?use '
}

thousands() { printf '%s' "$1" | sed -E ':a; s/^([0-9]+)([0-9]{3})/\1,\2/; ta'; }

code=$(count src rt)
definitions=$(grep -oE '^\| in all \| [0-9]+' docs/TRUST.md | grep -oE '[0-9]+')
proof=$(count proofs antt)
row="| $(thousands "$code") | $(thousands "$definitions") | $(thousands "$proof") |"
if ! grep -qF "$row" README.md; then
    echo "figures: README.md lacks the row: $row" >&2
    exit 1
fi
echo "figures: $code lines of code, $definitions of definitions to read, $proof of proof, as README.md says"
