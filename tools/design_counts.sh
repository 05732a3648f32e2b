#!/usr/bin/env bash
# Counts the places of docs/DESIGN-PASS.md's points by their text, in the tree of a folder: bash tools/design_counts.sh FOLDER
set -euo pipefail
cd "$1"
S=$(find crates/*/src -name '*.rt')
c() { cat $S | grep -cE "$1" || true; }
echo "1a variants that say refused, none or failed in own enums: $(c '^    (Refused|Invalid|Malformed|Missing|Beyond|Bad|Failed|Nothing|Ended|Conflict)(\([a-zA-Z0-9, ]*\))?,$')"
echo "1b functions that answer a refusal number, 0 for none: $(c '^// (The refusal number|The refusals that come|The number of the first fault)')"
echo "1c number constants for kinds and words: $(cat crates/trials/src/messages.rt crates/trials/src/names.rt | grep -cE '^pub const [A-Z_]+: (u32|usize) = [0-9]+;' || true)"
echo "2a casts in a function of their own: $(c 'fn (wide|byte_value|widened)\(')"
echo "2b a run of bytes up to a test, copies, sums, clears, equality: $(c 'fn (word_end|line_end|space_end|find|behind|copy|store|clear|equal|holds|same|all_untouched|sum_of|put_all)\(')"
echo "3a while: $(c '^ *(.[a-z]+: )?while ')"
echo "3b loop: $(c '^ *loop \{')"
echo "3c counters (x += 1 or x += 3): $(c '^ *[a-z_]+ \+= [123];|^ *[a-z_]+ -= 1;')"
echo "4a return true or false from a ladder: $(c '^ *return (true|false);')"
echo "4b derives of Clone and Copy alone: $(c 'derive\(Clone, Copy\)\]')"
echo "5a requires on the two limits: $(c 'requires.*variables ≤ max_variables')"
echo "5b requires Readable: $(c 'requires.*Readable variables')"
echo "5c requires Fits variables clauses: $(c 'requires.*Fits variables clauses')"
echo "5d requires a session that passes (read_refusal ≡ 0): $(c 'requires.*read_refusal book.now session.now ≡ 0')"
echo "5e requires well_formed: $(c 'requires.*well_formed book.now ≡ true')"
echo "6a pairs of clause_start: $(c 'clause_start\(.*c \+ 1\)|clause_start\(book, clause \+ 1\)')"
echo "6b an end of what is written beside a buffer: $(c 'at: usize, out: &mut \[u8\]')"
echo "6c index pairs for a part: $(c 'span\.(from|to)')"
echo "8a lines of Answers and Invariants: $(find crates/*/proofs -name Answers.antt -o -name Invariants.antt | xargs cat | wc -l)"
echo "8b answers: $(find crates/*/proofs -name Answers.antt | xargs cat | grep -cE '^pub ')"
echo "8c citations of raw names: $(find crates/*/proofs -name '*.antt' | xargs cat | grep -oE '(true|false)-raw|before\.before' | wc -l)"
echo "8d let lines in answers: $(find crates/*/proofs -name Answers.antt | xargs cat | grep -cE '^ +let ')"
echo "lines of src: $(cat $S | wc -l); of proofs and specs: $(find crates/*/proofs crates/*/specs -name '*.antt' | xargs cat | wc -l)"
