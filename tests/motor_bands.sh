#!/usr/bin/env bash
# The C example that judges a table of age bands and says the premium of each band, built as C, as C++ and with sanitizers, prints on the motor session what is stored.
# That has the amounts that awk works out from the table, the rate list and the literals that `desk` settles, and wrong ways to work them out do not agree.
# The same holds of other good tables, rate lists and scripts; of a table that is not good it must say why, and wrong outputs and headers must be noticed.
set -euo pipefail
cd "$(dirname "$0")/.."
. tests/support/common.sh
. tests/support/c_example.sh
. tests/support/priced.sh
good='the table is good: every age from 0 to 120 lies in exactly one band'

# What it says of a failure counts as printed.
run() {
    "$1" "$tariff" "$rates" "$script" "$bands" 2>&1
}

# due [FAULT]: what is due; with a fault, what a wrong price prints.
due() {
    amounts tests/motor_bands/due.awk "${1:-}" part=bands "$bands"
}

# tabled EDIT: from now on the table is a copy with this sed edit.
tabled() {
    edited "$motor/bands" "$1"
    bands=$folder/bands
}

# judged WORDS: it prints these words, and nothing else, and fails.
judged() {
    local said
    if said=$(run "target/tests/$name.sanitized") || [ "$said" != "$1" ]; then wrong "not said: $1"; fi
}

# parted COUNT: an edit with which the table has so many bands, each of one age but for the last; it is good but for their number.
parted() {
    printf '4,$d; 3s/$/'
    printf '\\nage %d: %d %d %d' $(seq 0 $(($1 - 2)) | awk '{ print $1, $1, $1, 50 * $1 }')
    printf '\\nold: %d 120 900/' $(($1 - 1))
}

need_program
example "$motor/bands.c" "$motor/bands.output" motor_bands
prints_stored_in_every_build
faults=('half to zero' 'half to even' 'rounds the total' 'applies open lines' 'counts false lines as open' 'leaves the base' 'scales the premium'
    'excludes the first age')
other_prices "${faults[@]}"
echo "$name: the scaled bases and premiums by the table, the rate list and the literals that desk settles"
outputs=('1d' 's/48,600/48,601/' 's/139,354/139,355/' '/young/s/1,620/1,621/' '/senior/s/2 lines/1 line/' '/high age/d' 's/65 to 74 /65 to 73 /' '3{h;d};4G' '$d')
notices_in_stored "${outputs[@]}"

tables=('s/1620/1621/' 's/1620/0/' 's/1620/5000/' 's/1000$/999/' '/^new/s/20/21/; /^young/s/21/22/' '/^through/s/17/16/; /^new/s/18/17/'
    '/^young/s/young/&er, up to 24, or not so young/' '/^young/d; /^new/s/20/24/' '/^high/s/120/119/; $s/$/\noldest: 120 120 4999/'
    '/^through/s/ 0 / 1 /; $s/$/\nnewborn: 0 0 1/' '6,$d; 5s/.*/all: 0 120 1250/' "$(parted 2)" "$(parted 64)")
for edit in "${tables[@]}"; do
    tabled "$edit"
    as_due "bands with $edit"
    if prints_stored "$name.sanitized" >/dev/null; then wrong "not noticed in the table: $edit"; fi
done
same=('/^grown-up/{h;d};$G' '/^new/{h;d};/^high/G' 's/$/\r/' 's/^$/ \t /' 's/  +/\t/g' '/^young/s/.*/\n# &\n&  /')
for edit in "${same[@]}"; do
    tabled "$edit"
    prints_stored "$name.sanitized"
done
tabled '/^young/s/1620/1250/'
lists=('s/30000/30001/' 's/30000/30002/' 's/30000/0/' 's/30000/1000000000/' 's/ 4500/-99999/' '/^young/s/28/-28/' '/^[^#b]/d')
for edit in "${lists[@]}"; do
    listed "$edit"
    as_due "rates with $edit"
done
tabled '6,$d; 5s/.*/all: 0 120 1000/'
listed "$(doubled 10)"
as_due 'an amount of 1,000,000,000,000'
tabled '6,$d; 5s/.*/all: 0 120 1001/'
judged "$(due | head -n 3)
bands: the amount is beyond 1,000,000,000,000 cents after a line (20)"
bands=$motor/bands
listed 's/30000/1000000001/'
judged "$good
bands: the base or a line of the rate list is outside its range (19)"
rates=$motor/rates
cp "$tariff" "$folder"
scripts=('s/^/-/; s/^-b/b/' '7,$d' '8,$d' '$s/$/\n50\n-37/' '$s/$/\nb 11/')
for edit in "${scripts[@]}"; do
    played "$edit"
    as_due "script with $edit"
done
script=$motor/script
answers=$motor/output

# at_fault EDIT WORDS: with this edit of the table it says this of it.
at_fault() {
    tabled "$1"
    judged "$2"
    unfit=$((unfit + 1))
}

unfit=0
at_fault '/^new/s/18/19/' 'age 18 lies in no band (25)'
at_fault '/^senior/d' 'age 65 lies in no band (25)'
at_fault '/^through/d' 'age 0 lies in no band (25)'
at_fault '/^through/s/ 0 / 1 /' 'age 0 lies in no band (25)'
at_fault '/^high/s/120/119/' 'age 120 lies in no band (25)'
at_fault '/^[^#]/d' 'age 0 lies in no band (25)'
at_fault 'd' 'age 0 lies in no band (25)'
at_fault '/^young/s/24/25/' 'age 25 lies in several bands (26): grown-up, young'
at_fault '/^young/s/24/120/' 'age 25 lies in several bands (26): grown-up, young'
at_fault '/^young/s/.*/&\n&\n&/' 'age 21 lies in several bands (26): young, young, young'
at_fault '/^senior/s/65/0/' 'age 0 lies in several bands (26): senior, through a guardian'
at_fault '$s/$/\noldest: 120 120 0/' 'age 120 lies in several bands (26): high age, oldest'
at_fault '/^new/s/18/17/; /^senior/d' 'age 17 lies in several bands (26): new driver, through a guardian'
at_fault '/^new/s/18/19/; /^young/s/24/25/' 'age 18 lies in no band (25)'
ranges='is outside its ranges: ages to 120, the first not over the last, by at most 5000'
at_fault '/^high/s/120/121/' "the table is false: high age, 75 to 121 by 1315, $ranges"
at_fault '/^high/s/75 +120/999999999 999999999/' "the table is false: high age, 999999999 to 999999999 by 1315, $ranges"
at_fault '/^young/s/21/25/' "the table is false: young, 25 to 24 by 1620, $ranges"
at_fault '/^young/s/1620/5001/' "the table is false: young, 21 to 24 by 5001, $ranges"
at_fault '/^young/s/1620/5001/; /^through/d' "the table is false: young, 21 to 24 by 5001, $ranges"
at_fault "$(parted 65)" 'the table is false: it has more than 64 bands'
at_fault "$(parted 100)" 'the table is false: it has more than 64 bands'

unread=(': 21 24' ': 21 24 1620 thousandths' ': 21 24 1.620' ': 21 24 1,620' ': 21-24 1620' ': -1 24 1620' ': 21 -24 1620' ': 21 24 -1620' ': 1234567890 24 1620'
    ': 1234567890 24' ': 21 1234567890' ': 21 24 1234567890' ': to 24 1620' ' 21 24 1620')
for line in "${unread[@]}"; do
    tabled "s/^young.*/young$line/"
    says "$name.sanitized" "this is no band: young$line"
done
tabled "$(parted 65); 3s/\$/\nyoung/"
says "$name.sanitized" 'this is no band: young'
tabled '/^young/s/^/\x00/'
says "$name.sanitized" 'the table of age bands has a byte 0'
bands=$motor
says "$name.sanitized" 'the table of age bands cannot be read'
bands=$folder/none
says "$name.sanitized" 'no such table of age bands'
bands=$motor/bands
(
    run() { "$1" "$tariff" "$rates" "$script" 2>&1; }
    says "$name.sanitized" 'usage: bands TARIFF RATES SCRIPT BANDS'
)

# From here on it runs on three tables more, one for each thing that can be wrong; that it fails on these does not count, what it says does.
at_fault '/^young/s/24/25/' 'age 25 lies in several bands (26): grown-up, young'
mv "$bands" "$folder/several"
at_fault '/^senior/d' 'age 65 lies in no band (25)'
mv "$bands" "$folder/gap"
at_fault '/^young/s/1620/5001/' "the table is false: young, 21 to 24 by 5001, $ranges"
mv "$bands" "$folder/false"
run() {
    local table
    for table in "$motor/bands" "$folder/several" "$folder/gap" "$folder/false"; do "$1" "$tariff" "$rates" "$script" "$table" 2>&1 || true; done
}
stored=$folder/said
run "target/tests/$name" >"$stored"
prints_stored "$name.sanitized"
notices 's/(TARIFF_FALSE) 3/\1 2/; s/(TARIFF_REFUSED) 2/\1 3/'
notices 's/(TARIFF_FALSE) 3/\1 0/; s/(TARIFF_ACCEPTED) 0/\1 3/'
notices 's/(TARIFF_FALSE) 3/\1 1/; s/(TARIFF_CONFLICT) 1/\1 3/'
notices 's/(TARIFF_ACCEPTED) 0/\1 2/; s/(TARIFF_REFUSED) 2/\1 0/'
notices 's/(TARIFF_BAND_NUMBERS) 3/\1 2/'
notices 's/(TARIFF_BAND_NUMBERS) 3/\1 4/'
notices 's/(TARIFF_MOST_BANDS) 64/\1 4/'
notices 's/(TARIFF_MOST_AGE) 120/\1 119/'
notices 's/(TARIFF_MOST_FACTOR) 5000/\1 4999/'
notices 's/(TARIFF_LINE_NUMBERS) 3/\1 2/'
notices 's/(TARIFF_AMOUNT) 0/\1 1/; s/(TARIFF_THOUSANDTHS) 1/\1 0/'
notices '/ tariff_number/s/\)answer/)(answer >> 1)/'
notices '/ tariff_kind/s/>> 32/>> 33/'
notices '/ tariff_good/s/== 0/!= 0/'
notices '/ tariff_good/s/answer == 0/tariff_kind(answer) != TARIFF_REFUSED/'
echo "$name: notices ${#faults[@]} wrong prices, ${#outputs[@]} wrong outputs and $noticed wrong headers, and says of $((unfit - 3)) tables what is wrong"
echo "$name: ${#tables[@]} other tables print other premiums, as due, and ${#same[@]} the same; ${#lists[@]} other rate lists and ${#scripts[@]} scripts are priced as due"
