# What examples/quote/record.c is to print for an age, by a rate list, a table of age bands, the answers of `desk` to a script and the records that a host
# answers with; with a fault, what a wrong price or record prints. Called behind tests/support/premium.awk, which works the amounts out, and with
# part=bands BANDS part=host ANSWERS age=AGE among the files.

function sign_of(value) { return value < 0 ? "D" : fault == "F for plus" ? "F" : "C" }

# The digits are text of their number; %.0f takes all that fit in a field.
function field_of(value, bytes) { return sprintf("%0" (2 * bytes - 1) ".0f", value < 0 ? -value : value) sign_of(value) }

function say_field(name, value) { printf "  %s  %-10s%s\n", field_of(value, 7), name, right(value, 19) }

function say_shortest(value,    bytes) {
    print "the premium as a field by itself"
    for (bytes = 1; length(field_of(value, bytes)) > 2 * bytes; bytes++) printf "  %d byte%s  refused (24)\n", bytes, bytes == 1 ? " " : "s"
    printf "  %d byte%s  %s\n", bytes, bytes == 1 ? " " : "s", field_of(value, bytes)
}

# The value of a field as text with commas; nothing where it is bad.
function value_of(field,    value) {
    if (field !~ /^[0-9]+[CDF]$/ && !(fault == "A read as plus" && field ~ /^[0-9]+A$/) || length(field) != 14) return ""
    value = substr(field, 1, 13) + 0
    return grouped(value && (field ~ /D$/ || fault == "F read as minus" && field ~ /F$/) ? -value : value)
}

# The columns of a record behind its name.
function reading(text,    map, bit, place, value, columns) {
    map = substr(text, 1, 1) == "0" ? index("01234567", substr(text, 2, 1)) - 1 : -1
    columns = sprintf("%5d", map)
    place = 3
    for (bit = 1; map >= 0 && bit < 8; bit *= 2) {
        value = int(map / bit) % 2 ? value_of(substr(text, place, 14)) : fault == "absent as 0" ? "0" : "-"
        if (int(map / bit) % 2) place += 14
        if (value == "") map = -1
        columns = columns sprintf("%19s", value)
    }
    if (fault == "a surplus byte read" && length(text) == place + 1) return columns
    return map < 0 || length(text) != place - 1 ? "  refused (23)" : columns
}

part == "bands" { for (year = $(NF - 2) + 0; year <= $(NF - 1) + 0; year++) by[year] = $NF }
part == "host" { said = $0; sub(/:.*/, "", said); sub(/^[^:]*:/, ""); gsub(/[ \t]/, ""); host[++records] = sprintf("  %-30s", said) reading($0) }
END {
    settle()
    price(fault == "leaves the base" ? base : rounded(base * by[age]), lines)
    print "the quote of a customer of " age ", in cents"
    print "  base      " right(base, 19)
    print "  premium   " premium()
    print "its record for the policy host, 22 bytes"
    print "  07              the map"
    say_field("base", fault == "premium first" ? amount : base)
    say_field("premium", fault == "premium first" ? base : amount)
    say_field("open lines", unsettled)
    print "read back it is the same quote"
    say_shortest(amount)
    print "what the host answers             map               base            premium         open lines"
    for (i = 1; i <= records; i++) print host[i]
}
