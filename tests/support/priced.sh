# Shared by the tests of the C examples that price the motor session; stands behind c_example.sh. The test defines `due [FAULT]`, which prints what is due of
# the example or, with a fault, what a wrong price prints.
motor=examples/motor
tariff=$motor/tariff.cnf
rates=$motor/rates
bands=$motor/bands
script=$motor/script
answers=$motor/output

# amounts DUE FAULT [FILE...]: what the awk program works out from the rate list, the tariff's names, the answers of `desk` and more files.
amounts() {
    awk -v fault="$2" -f tests/support/premium.awk -f "$1" part=rates "$rates" part=tariff "$tariff" part=answers "$answers" "${@:3}"
}

# agrees FILE: what is stored of the example is what is due.
agrees() {
    diff <(due) "$1"
}

# as_due WORDS: it prints what is due.
as_due() {
    diff <(due) <(run "target/tests/$name.sanitized") || wrong "another premium than due: $1"
}

# other_prices FAULT...: what is stored is what is due, and not what these wrong prices print.
other_prices() {
    local fault
    agrees "$stored"
    for fault in "$@"; do
        if diff <(due "$fault") "$stored" >/dev/null; then wrong "a wrong price prints what is stored: $fault"; fi
    done
}

# listed EDIT: from now on the rate list is a copy with this sed edit.
listed() {
    edited "$motor/rates" "$1"
    rates=$folder/rates
}

# played EDIT: from now on the script is a copy with this sed edit, and the answers are those of `desk` to it, on the tariff in the example's folder.
played() {
    local desk=$PWD/$program
    edited "$motor/script" "$1"
    (cd "$folder" && "$desk" <script >answers)
    script=$folder/script
    answers=$folder/answers
}

# doubled COUNT: an edit with which the rate list is a base of 976,562,500 and so many lines that double it, which apply from the opening on.
doubled() {
    printf '4,$d; /^base/{s/30000/976562500/'
    printf ';s/$/\\nliability cover: 13 thousandths 1000/%.0s' $(seq "$1")
    printf '}'
}
