#!/usr/bin/env bash
# The C example that writes a quote record and reads the host's, built as C, as C++ and with sanitizers, prints on the motor session what is stored.
# That has the bytes that awk makes as text of the amounts that it works out from the table, the rate list and the literals that `desk` settles, and the values
# of the host's records; wrong ways do not agree. The same holds of other ages, rate lists and records; wrong outputs and headers must be noticed.
set -euo pipefail
cd "$(dirname "$0")/.."
. tests/support/common.sh
. tests/support/c_example.sh
. tests/support/priced.sh
age=22
host=examples/quote/answers

# What it says of a failure counts as printed.
run() {
    "$1" "$tariff" "$rates" "$script" "$bands" "$age" "$host" 2>&1
}

# due [FAULT]: what is due; with a fault, what a wrong price or record prints.
due() {
    amounts tests/quote_record/due.awk "${1:-}" part=bands "$bands" part=host "$host" age="$age"
}

# answered EDIT: from now on the host's records are a copy with this sed edit.
answered() {
    edited examples/quote/answers "$1"
    host=$folder/answers
}

example examples/quote/record.c examples/quote/output quote_record
prints_stored_in_every_build
faults=('half to zero' 'applies open lines' 'counts false lines as open' 'leaves the base' 'F for plus' 'premium first' 'F read as minus' 'A read as plus'
    'absent as 0' 'a surplus byte read')
other_prices "${faults[@]}"
echo "$name: the bytes by the table, the rate list and the literals that desk settles, and the values of the host's records"
outputs=('s/139,354/139,355/' 's/0000000139354C/0000000139354F/' 's/0000000030000C/0000000030000D/' 's/  07 /  06 /' 's/0139354C/139354C/' '/1 byte /d'
    's/the same/another/' '/F for plus/s/139/-139/' '/refund/s/-12/12/' '/nothing/s/ -$/ 0/' '/too many/s/ .refused.*/   2/' '/fourth/s/23/24/' '$d')
notices_in_stored "${outputs[@]}"

for age in 0 17 18 20 21 24 25 64 65 74 75 120; do as_due "age $age"; done
age=22
lists=('s/30000/30001/' 's/30000/0/' 's/30000/1000000000/' 's/ 28650/-9999999/' 's/ 4800/-139354/' '/^[^#b]/d' '4,$d; s/30000/0/' "$(doubled 9)")
for edit in "${lists[@]}"; do
    listed "$edit"
    as_due "rates with $edit"
    if prints_stored "$name.sanitized" >/dev/null; then wrong "not noticed in the rate list: $edit"; fi
done
rates=$motor/rates
records=('s/F$/C/; /refund/s/D/C/' 's/F$/D/' 's/F$/E/' 's/F$/0/' '/refund/s/1/A/' '/refund/s/0012/9912/' '/refund/s/0/9/g; /refund/s/92/02/' '/F for/s/02/01/'
    '/F for/s/02/04/' '/F for/s/02/03/' '/F for/s/02/00/' '/nothing/s/00/01/' '/nothing/s/00//' '/nothing/s/00/08/' '/nothing/s/00/80/' '/nothing/s/00/FF/'
    '/all three/s/07/06/' '/all three/s/ 07/ 7F/' '/base and/s/C/D/g' '/minus zero/s/0D/1D/' '/too few/s/35$/354C/' '/too many/s/ 00$//'
    '/all three/s/$/ 00000000000000000000000000000000000000000000/')
for edit in "${records[@]}"; do
    answered "$edit"
    as_due "answers with $edit"
    if prints_stored "$name.sanitized" >/dev/null; then wrong "not noticed in the answers: $edit"; fi
done
for edit in 's/  +/ /g' 's/$/\r/' 's/^$/ \t /' 's/^([^#].*: *)(..) /\1\2/' '/^[^#]/s/([0-9A-F]{2})([0-9A-F]{2})/\1 \2/'; do
    answered "$edit"
    prints_stored "$name.sanitized"
done

unread=(': 02 0000000139354' ': 02 0000000139354c' ': 0 20000000139354C' ': 02 0000000139354G' ': 02-0000000139354C' ': 0x02' ' 02 0000000139354C'
    ": $(printf '00%.0s' $(seq 45))")
for line in "${unread[@]}"; do
    answered "s/^nothing.*/nothing$line/"
    says "$name.sanitized" "this is no record: nothing$line"
done
answered "/^nothing/s/.*/$(printf '&\\n%.0s' $(seq 24))/"
says "$name.sanitized" 'there are more than 32 answers'
host=$motor
says "$name.sanitized" 'the file of answers cannot be read'
host=$folder/none
says "$name.sanitized" 'no such file of answers'
host=examples/quote/answers
for age in 121 -1 x 22x 1234567890; do says "$name.sanitized" "this is no age: $age"; done
age=22
edited "$motor/bands" '/^young/s/21/22/'
bands=$folder/bands
says "$name.sanitized" 'the table of age bands is not good'
bands=$motor/bands
edited "$motor/script" '7,$d'
script=$folder/script
says "$name.sanitized" 'there is no premium: a contradiction stands (14)'
script=$motor/script
(
    run() { "$1" "$tariff" "$rates" "$script" "$bands" "$age" 2>&1; }
    says "$name.sanitized" 'usage: record TARIFF RATES SCRIPT BANDS AGE ANSWERS'
)

notices 's/(TARIFF_HAS_BASE) 1/\1 2/; s/(TARIFF_HAS_PREMIUM) 2/\1 1/'
notices 's/(TARIFF_HAS_PREMIUM) 2/\1 4/; s/(TARIFF_HAS_OPEN_LINES) 4/\1 2/'
notices 's/(TARIFF_HAS_BASE) 1/\1 4/; s/(TARIFF_HAS_OPEN_LINES) 4/\1 1/'
notices 's/(TARIFF_HAS_OPEN_LINES) 4/\1 3/'
notices 's/(TARIFF_HAS_OPEN_LINES) 4/\1 8/'
notices 's/(TARIFF_MOST_FIELD) 7/\1 6/'
notices 's/(TARIFF_MOST_FIELD) 7/\1 3/'
notices 's/(TARIFF_MOST_RECORD) 22/\1 21/'
notices '$a #define tariff_read_quote(record, length, base, premium, open_lines) tariff_read_quote(record, length, premium, base, open_lines)'
notices '$a #define tariff_read_quote(record, length, base, premium, open_lines) tariff_read_quote(record, length, base, open_lines, premium)'
notices '$a #define tariff_write_quote(map, base, premium, open_lines, out, n) tariff_write_quote(map, premium, base, open_lines, out, n)'
notices 's/(TARIFF_ACCEPTED) 0/\1 2/; s/(TARIFF_REFUSED) 2/\1 0/'
notices '/ tariff_kind/s/>> 32/>> 34/'
notices '/ tariff_number/s/\)answer/)(answer >> 1)/'
echo "$name: notices ${#faults[@]} wrong prices and records, ${#outputs[@]} wrong outputs and $noticed wrong headers"
echo "$name: ${#lists[@]} other rate lists and ${#records[@]} other records print something else, as due"
