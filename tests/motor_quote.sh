#!/usr/bin/env bash
# The C example that says what a session needs and costs at most, and then what it cost, built as C, as C++ and with sanitizers, prints on the motor
# session what is stored. That has the length and W by the tariff's text, the lines `b k` by grep, and the take-backs and checks that `desk` prints.
# The same holds of other scripts; one of too many lines must be refused, and wrong headers must be noticed.
set -euo pipefail
cd "$(dirname "$0")/.."
. tests/support/common.sh
. tests/support/c_example.sh
motor=examples/motor
script=$motor/script

# What it says of a failure counts as printed.
run() {
    "$1" "$motor/tariff.cnf" "$script" 2>&1
}

# due SCRIPT ANSWERS: what is due, by the tariff's text, which repeats no literal in a rule, the lines of the script, and the answers of `desk` to it.
due() {
    local lines
    lines=$(LC_ALL=C grep -a -c -E '^b [0-9]{1,9}$' "$1") || true
    awk -v lines="$lines" -v apostrophe="'" '
        function grouped(n) { return n < 1000 ? n : grouped(int(n / 1000)) sprintf(",%03d", n % 1000) }
        function counted(n, word) { return grouped(n) " " word (n == 1 ? "" : "s") }
        $1 == "end" { backs = $5; checks = $7; next }
        FILENAME !~ /cnf$/ || /^c/ { next }
        $1 == "p" { length_due = 5 + 5 * $3 + 6 * $4; next }
        { for (i = 1; i <= NF; i++) if ($i != 0) n++; else { if (n >= 2) worst += 2 * n - 3; n = 0 } }
        END {
            print "before the session"
            print "  it needs " counted(length_due, "number")
            print "  the tariff" apostrophe "s rules cost at most " counted(worst, "check") " until the first take-back, and as many again after each one"
            print "  the script has " counted(lines, "line") " of take-backs, so it costs at most " counted(worst * (lines + 1), "check")
            print "after the session"
            print "  " counted(backs, "take-back") (backs == 1 ? " was" : " were") " accepted"
            print "  it cost " counted(checks, "check")
        }' "$motor/tariff.cnf" "$2"
}

# agrees FILE: what is stored of the example is what is due.
agrees() {
    diff <(due "$motor/script" "$motor/output") "$1"
}

# quotes_as_due NAME: on the script of this name in the example's folder it prints what is due.
quotes_as_due() {
    local desk=$PWD/$program
    script=$folder/$1
    cp "$motor/tariff.cnf" "$folder"
    (cd "$folder" && "$desk" <"$1" >answers)
    diff <(due "$script" "$folder/answers") <(run "target/tests/$name.sanitized") || wrong "another quote than due for $script"
}

# asks_often COUNT: from now on the script is so many take-backs.
asks_often() {
    script=$folder/many
    awk -v count="$1" 'BEGIN { while (count-- > 0) print "b 1" }' >"$script"
}

need_program
example "$motor/quote.c" "$motor/quote.output" motor_quote
prints_stored_in_every_build
agrees "$stored"
echo "$name: the length and W of the tariff's text, the lines that grep counts, and what desk says"
outputs=('s/1,279/1,278/' 's/1,279/1279/' 's/260/259/' 's/2 lines/1 line/' 's/780/779/' 's/780/520/' '/accepted/s/2/1/' 's/34/33/' '2d' '$d')
notices_in_stored "${outputs[@]}"
edits=('s/^b 1$/b  1/' 's/^b/B/' 's/$/\r/' '/^b 2$/s/2/0000000002/' '/^b/s/$/\n&\n&/' 's/^b 2$/b 999999999/' '1i b 0' '/^b/d' '$s/$/\nb 3/' '7,14d')
for edit in "${edits[@]}"; do
    edited "$motor/script" "$edit"
    quotes_as_due script
done
printf '%s\nb 1' "$(cat "$motor/script")" >"$folder/open"
quotes_as_due open
asks_often 1000001
says "$name" 'the script has more than 1,000,000 lines of take-backs'
asks_often 1000000
[[ $(run "target/tests/$name") = *'has 1,000,000 lines of take-backs, so it costs at most 260,000,260 checks'* ]] || wrong 'no quote for 1,000,000 lines'
script=$motor
says "$name" 'the script cannot be read'
script=$motor/script
diff "$stored" <(cat "$script" | "target/tests/$name" "$motor/tariff.cnf" /dev/stdin) || wrong 'another quote for a script that comes through a pipe'
notices 's/(TARIFF_QUOTED_LENGTH) 0/\1 1/; s/(TARIFF_QUOTED_WORST) 1/\1 0/'
notices 's/(TARIFF_QUOTED_WORST) 1/\1 2/; s/(TARIFF_QUOTED_BACK_LINES) 2/\1 1/'
notices 's/(TARIFF_QUOTED_LENGTH) 0/\1 2/; s/(TARIFF_QUOTED_BACK_LINES) 2/\1 0/'
notices 's/(TARIFF_TAKE_BACKS) 1/\1 0/; s/(TARIFF_CHOICES) 0/\1 1/'
notices 's/(TARIFF_ACCEPTED) 0/\1 2/; s/(TARIFF_REFUSED) 2/\1 0/'
notices '/ tariff_wanted/s/2 \* feature/& + 1/'
echo "$name: notices ${#outputs[@]} wrong outputs and $noticed wrong headers; $((${#edits[@]} + 1)) other scripts are quoted for as due"
