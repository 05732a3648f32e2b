# Shared by what is due of the examples that price a session: the premium by a rate list and the answers of `desk` to a script, and how it is said.
# Stands before a due.awk, as: awk -v fault=FAULT -f premium.awk -f due.awk part=rates RATES part=tariff TARIFF part=answers ANSWERS; with a fault the
# premium is a wrong one. Every product is below 2^53, and so exact.
function grouped(n) { return n < 0 ? "-" grouped(-n) : n < 1000 ? n "" : grouped(int(n / 1000)) sprintf(",%03d", n % 1000) }

function right(n, columns) {
    n = grouped(n)
    return length(n) < columns ? sprintf("%" columns "s", n) : " " n
}

# Thousandths of a cent to the nearest cent, halves away from zero.
function rounded(n,    size, whole, rest) {
    size = n < 0 ? -n : n
    whole = int(size / 1000)
    rest = size - 1000 * whole
    if (rest > 500 || rest == 500 && fault != "half to zero" && (fault != "half to even" || whole % 2)) whole++
    return n < 0 ? -whole : whole
}

function changed(running, i) {
    if (kind[i] == "amount") return running + value[i]
    return fault == "rounds the total" ? rounded(running * (1000 + value[i])) : running + rounded(running * value[i])
}

# The settled literals, over all choices in force.
function settle(    level, k, i, words) {
    split("", holds)
    for (level = 0; level <= choices; level++) {
        k = split(forced[level], words, " ")
        for (i = 1; i <= k; i++) holds[words[i] + 0]
    }
}

function is_open(l) { return !(l in holds) && !(-l in holds) }

# The amount from a start on, and how many lines are open, by the first n lines.
function price(start, n,    i) {
    amount = start
    unsettled = 0
    for (i = 1; i <= n; i++) {
        if (literal[i] in holds || fault == "applies open lines" && is_open(literal[i])) amount = changed(amount, i)
        else if (is_open(literal[i]) || fault == "counts false lines as open") unsettled++
    }
}

function premium() { return right(amount, 19) right(unsettled, 5) " line" (unsettled == 1 ? "" : "s") " open" }

{ sub(/\r$/, "") }
part == "tariff" && /^c [0-9]+ / { number = $2; sub(/^c [0-9]+ /, ""); feature[number] = $0 }
part == "tariff" || /^#/ || /^[ \t]*$/ || $1 == "refused" || $1 == "end" { next }
part == "rates" && /^base:/ { base = $2; next }
part == "rates" { name[++lines] = $0; sub(/:.*/, "", name[lines]); literal[lines] = $(NF - 2) + 0; kind[lines] = $(NF - 1); value[lines] = $NF + 0; next }
part == "answers" { rule = $(NF - 1) == "rule" ? $NF : 0 }
part == "answers" && $1 == "open" { forced[0] = $0; sub(/^[^:]*:?/, "", forced[0]) }
part == "answers" && $1 == "choose" { forced[++choices] = $0; sub(/^[^:]*:?/, $2, forced[choices]) }
part == "answers" && $1 == "back" { choices -= $2 }
