#!/usr/bin/env bash
# The C example that says what checks each chapter of a tariff has cost, built as C, as C++ and with sanitizers, prints on the motor session what is stored.
# That has the rules that the tariff's comments number under each heading, the sum of their checks, rule by rule, and the total that `desk` prints.
# Then the tariff is written in other ways, which must print the same, or cannot be filed, which it must say; and wrong headers must be noticed.
set -euo pipefail
cd "$(dirname "$0")/.."
. tests/support/common.sh
. tests/support/c_example.sh
motor=examples/motor
tariff=$motor/tariff.cnf

# What it says of a failure counts as printed.
run() {
    "$1" "$tariff" "$motor/script" 2>&1
}

# by_comments: what is due, by the comments `c rule 5:`, `c rules 6 to 15:` and `c rules 84 and 85:` under the headings, the checks of each rule
# and the output of `desk`.
by_comments() {
    awk '
        function grouped(n) { return n < 1000 ? n : grouped(int(n / 1000)) sprintf(",%03d", n % 1000) }
        function counted(count, word) { return grouped(count + 0) " " word (count == 1 ? "" : "s") }
        FILENAME ~ /checks$/ { checks[$1] = $2; next }
        $1 == "end" { total = $NF; next }
        /^c == / { names[++headings] = substr($0, 6) }
        /^c rules? [0-9]/ {
            last = ($2 == "rule" ? $3 : $5) + 0
            for (rule = $3 + 0; rule <= last; rule++) { rules[headings]++; sums[headings] += checks[rule] }
        }
        END {
            for (n = 1; n <= headings; n++) printf "%3d %s: %s, %s\n", n - 1, names[n], counted(rules[n], "rule"), counted(sums[n], "check")
            print counted(total, "check") " in all"
        }' "$folder/checks" "$motor/output" "$motor/tariff.cnf"
}

# agrees FILE: what is stored of the example is what is due, and the checks of its chapters sum up to the total.
agrees() {
    diff <(by_comments) "$1" && awk '
        function ungrouped(n) { gsub(/,/, "", n); return n + 0 }
        / in all$/ { total = ungrouped($1); next }
        { sum += ungrouped($(NF - 1)) }
        END { exit sum != total }' "$1"
}

# written EDIT: from now on the example is run on a copy of the tariff with this sed edit.
written() {
    edited "$motor/tariff.cnf" "$1"
    tariff=$folder/tariff.cnf
}

# prints_the_same EDIT...: on each of these copies it prints what is stored.
prints_the_same() {
    local edit
    for edit in "$@"; do
        written "$edit"
        prints_stored "$name.sanitized" || wrong "prints something else with: $edit"
    done
}

# headed COUNT: an edit with which the tariff has so many headings, the last of its twelve as often as it takes.
headed() {
    printf 's/^c == Discounts$/&'
    printf '\\n&%.0s' $(seq 13 "$1")
    printf '/'
}

example "$motor/chapters.c" "$motor/chapters.output" motor_chapters
prints_stored_in_every_build
compile "$name.checks" tests/motor_chapters/checks.c "-I$motor" "${library[@]}"
run "target/tests/$name.checks" >"$folder/checks"
agrees "$stored"
echo "$name: $(wc -l <"$folder/checks") rules in the chapters of the tariff's comments, and their checks"
outputs=('/ Region:/s/5 checks/6 checks/' '/ Region:/s/5 checks/4 checks/; / Discounts:/s/4 checks/5 checks/' '/ Usage:/s/13 rules/12 rules/'
    '/ Add-ons:/d' 's/Driver circle/Driver/' 's/^ 10/ 12/' '$s/34/33/' '$d')
notices_in_stored "${outputs[@]}"
spellings=('s/$/\r/' '/^[cp]/!s/ /\n/g' '/^[cp]/!s/ /\nc 0\n/g' '/^[cp]/!s/ 0$/ 000/' '/^c$/s/$/ \x00/'
    's/^-16 -17 0$/-16/; s/^c == Vehicle class$/&\n-17 0/')
prints_the_same "${spellings[@]}"
written '/^c == Liability$/d'
says "$name.sanitized" 'a rule begins before the first heading'
written '/^c == Usage$/s/== /==/'
says "$name.sanitized" 'a heading is not `c ==`, a blank and a name'
written '/^c == Usage$/s/Usage//'
says "$name.sanitized" 'a heading is not `c ==`, a blank and a name'
written "$(headed 33)"
says "$name.sanitized" 'the tariff has more than 32 headings'
written "$(headed 32)"
[[ $(run "target/tests/$name.sanitized") = *$'\n 31 Discounts: 16 rules, 4 checks\n'* ]] || wrong 'no chapter 31'
tariff=$motor/tariff.cnf
notices '/define TARIFF_CHAPTERS/s/32/31/'
says "$name.wrong" 'the chapters do not fit the rules'
notices '/ tariff_number/s/\)answer/)(answer >> 1)/'
says "$name.wrong" 'the session is refused'
notices '/ tariff_filed/s/== 1/== 0/'
says "$name.wrong" 'the chapters do not fit the rules'
notices 's/(TARIFF_ACCEPTED) 0/\1 1/; s/(TARIFF_CONFLICT) 1/\1 0/'
notices 's/(TARIFF_ACCEPTED) 0/\1 2/; s/(TARIFF_REFUSED) 2/\1 0/'
notices '/ tariff_wanted/s/2 \* feature/& + 1/'
echo "$name: notices ${#outputs[@]} wrong outputs and $noticed wrong headers; ${#spellings[@]} other spellings of the tariff print the same"
