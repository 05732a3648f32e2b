#!/usr/bin/env bash
# The C example that says the premium by a rate list, built as C, as C++ and with sanitizers, prints on the motor session what is stored.
# That has the amounts and open lines that awk works out from the rate list and the literals that `desk` settles, and wrong ways to work them out do not agree.
# The same holds of other rate lists, scripts and a tariff; a rate list at fault must be refused, and wrong outputs and headers must be noticed.
set -euo pipefail
cd "$(dirname "$0")/.."
. tests/support/common.sh
. tests/support/c_example.sh
. tests/support/priced.sh

# What it says of a failure counts as printed.
run() {
    "$1" "$tariff" "$rates" "$script" 2>&1
}

# due [FAULT]: what is due; with a fault, what a wrong price prints.
due() {
    amounts tests/motor_price/due.awk "${1:-}"
}

# repeated COUNT: an edit with which the rate list has so many lines.
repeated() {
    printf '/^yearly payment/s/.*/&'
    printf '\\n&%.0s' $(seq 17 "$1")
    printf '/'
}

need_program
example "$motor/price.c" "$motor/price.output" motor_price
prints_stored_in_every_build
faults=('half to zero' 'half to even' 'rounds the total' 'applies open lines' 'counts false lines as open')
other_prices "${faults[@]}"
echo "$name: the amounts and open lines by the rate list and the literals that desk settles"
outputs=('s/34,465/34,466/' 's/108,379/108,380/' '/choice 5,/s/8 lines/7 lines/' '/no premium/d' 's/98/99/' 's/2 choices/1 choice/' '/^  motorcycle/d'
    '/^  high region/s/applies/open/' '/^  legal/s/open/applies/' '/^  without a garage/s/-47/ 47/' 's/does not apply/applies/' 's/-6,000/-6000/' '$d')
notices_in_stored "${outputs[@]}"
lists=('s/30000/30001/' 's/30000/0/' 's/30000/1000000000/' 's/ 28650/-28650/' 's/28650/10000000/' 's/28650/-10000000/' 's/-125/ 1000/' 's/-125/-1000/'
    's/-75/-76/' '/^electric/d' '/^commuting/{h;d};/^electric/G' '/^young/s/thousandths/amount/' '/^young/s/28/-28/' '/^young/s/.*/&\n&/' '/^legal/s/50/64/'
    's/ 4500/-99999/' '/^yearly/s/^/a/' '/^[^#b]/d')
for edit in "${lists[@]}"; do
    listed "$edit"
    as_due "rates with $edit"
    if prints_stored "$name.sanitized" >/dev/null; then wrong "not noticed in the rate list: $edit"; fi
done
listed "$(repeated 200)"
as_due '200 lines'
listed "$(doubled 10)"
as_due 'an amount of 1,000,000,000,000'
for edit in 's/$/\r/' 's/^$/ \t /' 's/^$/  \r/'; do
    listed "$edit"
    prints_stored "$name.sanitized"
done
rates=$motor/rates
cp "$tariff" "$folder"
scripts=('s/^/-/; s/^-b/b/' '7,$d' '8,$d' '8,10d' '/^b/d' '1i b 1' '/^b/s/$/\nhello\n\n-0\n65\n b 1/' '$s/$/\n50\n-37/' '$s/$/\nb 11/')
for edit in "${scripts[@]}"; do
    played "$edit"
    as_due "script with $edit"
done
listed 's/30000/-1/'
edited "$motor/tariff.cnf" 's/^-13 18 0$/-13 0/'
tariff=$folder/tariff.cnf
played '1d'
as_due 'a contradiction at the opening, and a base outside its range'
tariff=$motor/tariff.cnf
script=$motor/script
outside=('s/30000/-1/' 's/30000/1000000001/' 's/ 28650/10000001/' 's/ 28650/-10000001/' 's/-125/1001/' 's/-125/-1001/' '/^motorcycle/s/-6000/-99999999/'
    '/^legal/s/50/0/' '/^legal/s/50/65/' '/^legal/s/50/-65/' '/^legal/s/50/999999999/')
for edit in "${outside[@]}"; do
    listed "$edit"
    says "$name.sanitized" 'the base or a line of the rate list is outside its range (19)'
done
listed "$(doubled 10)"'; /^base/s/$/\nliability cover: 13 amount 1/'
says "$name.sanitized" 'the amount is beyond 1,000,000,000,000 cents after a line (20)'
listed "$(repeated 201)"
says "$name.sanitized" 'the rate list has more than 200 lines'
unread=(': 50 amount' ': 50 amount 6900 cents' ': 50 amount 69.00' ': 50 Amount 6900' ': 50 amount 1234567890' ': 1234567890 amount 6900'
    ': fifty amount 6900' ' 50 amount 6900' ': 50amount 6900' ': 50 amount6900' ': 50 thousandths690')
for line in "${unread[@]}"; do
    listed "s/^legal.*/legal$line/"
    says "$name.sanitized" "this is no rate: legal$line"
done
listed '/^base/s/$/ cents/'
says "$name.sanitized" 'this is no base: base: 30000 cents'
listed '/^base/s/30000/10000000000/'
says "$name.sanitized" 'this is no base: base: 10000000000'
listed '/^base/s/^/the /'
says "$name.sanitized" 'this is no base: the base: 30000'
listed '/^[^#]/d'
says "$name.sanitized" 'the rate list has no base'
listed '/^legal/s/^/\x00/'
says "$name.sanitized" 'the rate list has a byte 0'
rates=$motor
says "$name.sanitized" 'the rate list cannot be read'
rates=$folder/none
says "$name.sanitized" 'no such rate list'
rates=$motor/rates
script=$motor
says "$name.sanitized" 'the script cannot be read'
script=$folder/none
says "$name.sanitized" 'no such script'
script=$motor/script
(
    run() { "$1" "$tariff" "$script" 2>&1; }
    says "$name.sanitized" 'usage: price TARIFF RATES SCRIPT'
)
notices 's/(TARIFF_AMOUNT) 0/\1 1/; s/(TARIFF_THOUSANDTHS) 1/\1 0/'
notices 's/(TARIFF_THOUSANDTHS) 1/\1 2/'
notices 's/(TARIFF_LINE_NUMBERS) 3/\1 2/'
notices 's/(TARIFF_LINE_NUMBERS) 3/\1 4/'
notices 's/(TARIFF_MOST_LINES) 200/\1 15/'
notices '/ tariff_wanted/s/2 \* feature/& + 1/'
notices '/ tariff_barred/s/ \+ 1//'
notices '/ tariff_number/s/\)answer/)(answer >> 1)/'
notices 's/(TARIFF_ACCEPTED) 0/\1 2/; s/(TARIFF_REFUSED) 2/\1 0/'
notices 's/(TARIFF_IS_OPEN) 0/\1 1/; s/(TARIFF_IS_WANTED) 1/\1 0/'
notices 's/(TARIFF_IS_WANTED) 1/\1 2/; s/(TARIFF_IS_BARRED) 2/\1 1/'
echo "$name: notices ${#faults[@]} wrong prices, ${#outputs[@]} wrong outputs and $noticed wrong headers, and refuses rate lists at fault"
echo "$name: ${#lists[@]} other rate lists print other premiums, as due; ${#scripts[@]} other scripts are priced as due"
