# What examples/motor/bands.c is to print of a good table of age bands, by it, a rate list and the answers of `desk` to a script; with a fault, what a wrong
# price prints. Called behind tests/support/premium.awk, which works the amounts out, and with part=bands BANDS among the files.

# The base by the factor of an age; a wrong price leaves it as it is, or takes the factor of the band before.
function scaled(age) {
    if (fault == "leaves the base" || fault == "scales the premium") return base
    return rounded(base * (fault == "excludes the first age" && age ? by[age - 1] : by[age]))
}

function say_band(first,    start) {
    start = scaled(first)
    price(start, lines)
    if (fault == "scales the premium") amount = rounded(amount * by[first])
    printf "  %3d to %-3d  %-25s%s%s%s\n", first, last[first], band[first], right(by[first], 7), right(start, 19), premium()
}

part == "bands" {
    first = $(NF - 2) + 0
    last[first] = $(NF - 1) + 0
    band[first] = $0
    sub(/:.*/, "", band[first])
    for (age = first; age <= last[first]; age++) by[age] = $NF
}
END {
    print "the table is good: every age from 0 to 120 lies in exactly one band"
    if (rule) { print "there is no premium: a contradiction stands (14)"; exit }
    print "the premium at the end by age, in cents"
    print "  ages        band                      factor      base x factor            premium"
    settle()
    for (age = 0; age <= 120; age++) if (age in last) say_band(age)
}
