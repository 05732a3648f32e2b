#!/usr/bin/env bash
# Nothing that the scan runs divides: the MIR of the engine's `open` and `decide` and of all that they call, the scan among it, has no division
# and no remainder, nor has the machine code of `tariff_open` and `tariff_decide`. Then programs that divide must be noticed, by their functions,
# and one that does not must pass.
set -euo pipefail
cd "$(dirname "$0")/.."
. tests/support/common.sh
# Outside the checkout: `rt ci` refuses copies of crates and links in it.
wrong=$(mktemp -d)
trap 'rm -rf "$wrong"' EXIT

# Both of these print the functions of a program: a line `function F`, `calls F G` for each function that it names, `divides F` where it does.

# in_mir [--with F=OPERATOR]: of all crates that are built and of the library's core, in MIR; of the function F the last operator is taken for this one.
core=$(dirname "$(rt doc)")/rlibs/core.rlib
in_mir() {
    python3 tests/division/mir.py built "$@" crates/*/out/rlib/*.rlib "$core"
}

# in_code FILE: of an object file or a library, in machine code. A call is a target by name or a relocation, but for constants and for the
# memory functions of the C library; one that cannot be read is of a function that is not there. MIR has direct calls only, so a jump by
# address is the table of a `match`.
in_code() {
    objdump -dr --no-show-raw-insn "$1" | awk '
        /^[0-9a-f]+ <.*>:$/ { name = $2; gsub(/^<|>:$/, "", name); print "function", name; next }
        {
            code = $0; sub(/^[^\t]*\t/, "", code)
            while (sub(/^(bnd|notrack|rep[nez]*|lock|data16|addr32|[cdefgs]s|rex[.A-Z]*|\{[a-z0-9]+\}) +/, "", code)) { }
        }
        code ~ /^((v|f|fi|i)?div|fprem)/ { print "divides", name }
        code ~ /^call +\*/ { print "calls", name, "by-address" }
        code ~ /^(call|j)/ && $NF ~ /^<[^+]*>$/ { callee = $NF; gsub(/^<|>$/, "", callee); print "calls", name, callee }
        $2 ~ /^R_X86_64_/ {
            callee = $3; sub(/-0x[0-9a-f]+$/, "", callee)
            if (callee ~ /^(mem(set|cpy|move|cmp)|bcmp)$/ || callee ~ /^\.rodata/) next
            sub(/^\.text\./, "", callee)
            print "calls", name, ($2 ~ /_(PLT32|PC32)$/ ? callee : "by-" $2)
        }'
}

# divides_below ROOT...: of functions as above, those that the roots reach and that divide; in the last line how many are reached.
# A root or a called function that is not there is a fault of the reading.
divides_below() {
    awk -v roots="$*" '
        $1 == "function" { known[$2] }
        $1 == "divides" { divides[$2] }
        $1 == "calls" { calls[$2] = calls[$2] " " $3 }
        END {
            n = split(roots, queue, " ")
            for (i = 1; i <= n; i++) reached[queue[i]]
            for (i = 1; i <= n; i++) {
                if (!(queue[i] in known)) { print "division: no function " queue[i] ", from " roots " on" > "/dev/stderr"; exit 2 }
                if (queue[i] in divides) print queue[i]
                k = split(calls[queue[i]], callees, " ")
                for (j = 1; j <= k; j++) if (!(callees[j] in reached)) { reached[callees[j]]; queue[++n] = callees[j] }
            }
            print n
        }'
}

# holds WHAT ROOT...: nothing below the roots divides, in the functions of the input.
holds() {
    local said
    said=$(divides_below "${@:2}")
    if [ "$(wc -l <<< "$said")" != 1 ]; then
        sed '$d; s/^/division: divides: /' <<< "$said" >&2
        exit 1
    fi
    echo "division: no division in the $1 of $said functions, from ${*:2} on"
}

# written TREE CRATE [FILE FUNCTION EDIT].. : a copy of the crate with these sed edits, of which `rt check` writes the MIR of these functions, proved or not.
# Where an edit is empty the function is as it is.
written() {
    local tree=$wrong/$1 crate=$2 below part file starts=()
    shift 2
    mkdir -p "$tree/crates"
    for below in base refusals book run layout engine; do
        grep "^$below:" crates.txt >> "$tree/crates.txt"
        mkdir -p "$tree/crates/$below/out"
        for part in src specs proofs; do
            [ ! -e "crates/$below/$part" ] || cp -r "crates/$below/$part" "$tree/crates/$below"
        done
        cp -r "crates/$below/out/rlib" "$tree/crates/$below/out"
    done
    while [ $# -gt 0 ]; do
        file=$tree/crates/$crate/src/$1
        cp "$file" "$tree/before"
        sed -E -i "$3" "$file"
        [ -z "$3" ] || ! cmp -s "$tree/before" "$file" || { echo "division: an edit changes nothing: $3" >&2; exit 1; }
        starts+=(--start "${2#*::}")
        shift 3
    done
    (cd "$tree/crates/$crate" && rt check "${starts[@]}" --generated "$tree/written") > "$tree/log" 2>&1 || true
    python3 tests/division/mir.py written "$crate" "$tree/written" crates/*/out/rlib/*.rlib > "$tree/mir" || { cat "$tree/log" >&2; exit 1; }
}

# lines FUNCTION FILE: what the file has of this function.
lines() {
    grep -E "^[a-z]+ $1( |\$)" "$2"
}

# alike TREE FUNCTION..: as they are, these functions are the same in both forms of MIR.
alike() {
    local function
    for function in "${@:2}"; do
        lines "$function" "$wrong/mir" > "$wrong/edited" || { echo "division: no MIR of $function" >&2; exit 1; }
        diff <(sort "$wrong/edited") <(lines "$function" "$wrong/$1/mir" | sort) || { cat "$wrong/$1/log" >&2; exit 1; }
    done
}

# finds TREE FUNCTION ROOT [FUNCTION]: with this function as that copy of its crate has it, the MIR divides below the root in it and in no other, or as the
# last word says.
finds() {
    local said
    lines "$2" "$wrong/$1/mir" > "$wrong/edited" || { echo "division: no MIR of $2" >&2; cat "$wrong/$1/log" >&2; exit 1; }
    said=$({ grep -vE "^[a-z]+ $2( |\$)" "$wrong/mir"; cat "$wrong/edited"; } | divides_below "$3")
    said=$(sed '$d' <<< "$said")
    [ "$said" = "${4-$2}" ] || { echo "division: found '$said' in place of '${4-$2}': $1" >&2; exit 1; }
    [ -z "$said" ] || noticed=$((noticed + 1))
}

# finds_operator OPERATOR FUNCTION [FUNCTION]: with this operator in this function the MIR of the engine's `decide` divides in it and in no other, or as the last word says.
finds_operator() {
    local said
    said=$(in_mir --with "$2=$1" | divides_below engine::decide)
    said=$(sed '$d' <<< "$said")
    [ "$said" = "${3-$2}" ] || { echo "division: found '$said' in place of '${3-$2}': $1 in $2" >&2; exit 1; }
    [ -z "$said" ] || noticed=$((noticed + 1))
}

# finds_code FUNCTION LANGUAGE OPTION.. <<< TEXT: of this text, compiled so, the machine code divides below `outer`, in this function and no other.
finds_code() {
    local said
    gcc -O1 -fno-inline "${@:3}" -x "$2" -c -o "$wrong/code.o" -
    said=$(in_code "$wrong/code.o" | divides_below outer)
    said=$(sed '$d' <<< "$said")
    [ "$said" = "$1" ] || { echo "division: found '$said' in place of '$1' in machine code, with ${*:2}" >&2; exit 1; }
    noticed=$((noticed + 1))
}

need_library
in_mir > "$wrong/mir"
holds MIR engine::open engine::decide < "$wrong/mir"
in_code "${library[1]}" | holds 'machine code' tariff_open tariff_decide

noticed=0
finds_operator Div layout::values::value_of
finds_operator Rem layout::values::value_of
finds_operator FloatDiv layout::values::value_of
finds_operator Unknown layout::values::value_of
finds_operator Xor layout::values::value_of ''
written layout layout values.rt layout::values::value_of '' values.rt layout::values::parity '' offsets.rt layout::offsets::clause_of_node ''
alike layout layout::values::value_of layout::values::parity layout::offsets::clause_of_node
written engine engine scan.rt engine::scan::next_position '' scan.rt engine::scan::scan_clause '' visit.rt engine::visit::seek ''
alike engine engine::scan::next_position engine::scan::scan_clause engine::visit::seek
written halves layout values.rt layout::values::value_of 's,literal >> 1,literal / 2,' \
    values.rt layout::values::parity 's,x - 2 \* \(x >> 1\),x % 2,' \
    offsets.rt layout::offsets::clause_of_node 's,\(node as usize - 1\) >> 1,(node as usize - 1) / 2,'
finds halves layout::values::value_of layout::values::value_of
finds halves layout::values::parity layout::values::value_of
finds halves layout::offsets::clause_of_node layout::offsets::clause_of_node
written rests engine scan.rt engine::scan::next_position 's,else \{ 0 \},else { (position + 1) % n },' \
    scan.rt engine::scan::scan_clause 's,checks \+= 1;,checks /= 1;,' \
    visit.rt engine::visit::seek 's,^    let c = clause_of_node\(walk.node\);,    let c = clause_of_node(walk.node) % 7;,'
finds rests engine::scan::next_position engine::decide
finds rests engine::scan::scan_clause engine::decide
finds rests engine::visit::seek engine::open
written floats engine scan.rt engine::scan::next_position 's,^    if position \+ 1 < n,    let half: f64 = 3.0 / 2.0;\n&,'
finds floats engine::scan::next_position engine::decide
written harmless engine scan.rt engine::scan::next_position 's,\{ position \+ 1 \},{ (position \& 255) + ((position | 1) ^ (position << 1)) - (position >> 1) },'
finds harmless engine::scan::next_position engine::decide ''
finds_code inner c -ffunction-sections <<< 'unsigned inner(unsigned a, unsigned b) { return a % b; } unsigned outer(unsigned a, unsigned b) { return inner(a, b) + 1; }'
finds_code inner c <<< 'static unsigned inner(unsigned a, unsigned b) { return a / b; } unsigned outer(unsigned a, unsigned b) { return inner(a, b) + 1; }'
finds_code outer c -mavx <<< 'double outer(double a, double b) { return a / b; }'
finds_code inner assembler <<< $'inner: cs divl %ecx\nret\nouter: ja inner\nret'
echo "division: notices $noticed programs that divide"
