# What examples/motor/price.c is to print, by a rate list, the names in a tariff and the answers of `desk` to a script; with a fault, what a wrong price prints.
# Called behind tests/support/premium.awk, which works the amounts out.
function filled(text, columns) { return length(text) < columns ? sprintf("%-" columns "s", text) : text " " }

function say(made) {
    settle()
    price(base, lines)
    print filled("  " made, 42) (rule ? "   no premium: rule " rule " is contradicted (14)" : premium())
}

function say_line(i,    state) {
    state = literal[i] in holds ? "applies" : is_open(literal[i]) ? "open" : "does not apply"
    printf "  %-30s %4d  %-11s%s   %-14s%s\n", name[i], literal[i], kind[i], right(value[i], 11), state, right(amount, 19)
}

$1 == "open" { print "the premium after each choice, in cents"; say("the opening") }
$1 == "choose" { say("choice " choices ", " feature[$2 < 0 ? -$2 : $2] ($2 < 0 ? ", barred" : "")) }
$1 == "back" { say($2 " choice" ($2 == 1 ? "" : "s") " taken back") }
END {
    if (rule) { print "there is no premium: a contradiction stands (14)"; exit }
    print "the premium at the end, line by line, in cents"
    print filled("  base", 78) right(base, 19)
    for (i = 1; i <= lines; i++) { price(base, i); say_line(i) }
    print filled("  premium", 78) premium()
}
