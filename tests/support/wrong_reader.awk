# A wrong reader for the self-tests: writes a rule book to the file `out`, its rules changed so that the right reader makes of them what the fault
# does, and prints the number of the first rule that is always met, or 0, and whether a feature stands twice in a rule. A text that is not plain
# (over 59,900 bytes, a header or a word that is at fault) is not written, and ends it with 1.
function not_plain() { odd = 1; exit 1 }

function emit(literals) { book = book literals "0\n" }

# The literals of the rule, each once: at its first place, or at its last one.
function once(last,    i, at, list, seen) {
    for (i = 1; i <= n; i++) {
        at = last ? n + 1 - i : i
        if (rule[at] in seen) continue
        seen[rule[at]]
        list = last ? rule[at] " " list : list rule[at] " "
    }
    return list
}

# The literals of the rule whose opposite does not stand in it.
function one_way(    i, list) {
    for (i = 1; i <= n; i++) if (!(-rule[i] in stands)) list = list rule[i] " "
    return list
}

function take(literal) {
    rule[++n] = literal
    text = text literal " "
    if (-literal in stands && !both) both = -literal
    if (literal in stands) repeated = 1
    stands[literal]
}

function close_rule() {
    rules++
    if (both && !met) met = rules
    if (both || repeated) twice = 1
    if (fault == "leaves rules with repeated literals out" && repeated) emit("1 -1 ")
    else if (fault == "keeps repeated literals at their last place" && repeated && !both) emit(once(1))
    else if (fault == "forces one literal of a feature both ways" && both) emit(both " ")
    else if (fault == "takes just the feature both ways out" && both && one_way() != "") emit(one_way())
    else if (fault == "gives rules with a feature both ways no number" && both) dropped++
    else if (fault == "counts only the literals that are kept" && both) emit(both " " (-both) " ")
    else if (fault == "counts only the literals that are kept") emit(once(0))
    else emit(text)
    begin_rule()
}

function begin_rule() {
    n = both = repeated = 0
    text = ""
    split("", stands)
}

{ bytes += length($0) + 1 }
/^c/ { next }
{ gsub(/\r/, " ") }
!header {
    if (substr($0, 1, 1) != "p" || NF != 4 || $1 != "p" || $2 != "cnf" || ($3 $4) !~ /^[0-9]+$/ || length($3) > 9 || length($4) > 9) not_plain()
    header = 1
    variables = $3
    clauses = $4
    begin_rule()
    next
}
{
    for (i = 1; i <= NF; i++) {
        if ($i !~ /^-?[0-9]+$/ || $i ~ /^-0+$/ || length($i) - ($i ~ /^-/) > 9) not_plain()
        if ($i + 0 == 0) close_rule()
        else take($i + 0)
    }
}
END {
    if (odd || !header || bytes > 59900) exit 1
    printf "p cnf %s %d\n%s%s\n", variables, clauses - dropped, book, text > out
    print met + 0, twice + 0
}
