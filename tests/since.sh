#!/usr/bin/env bash
# The C example that says since which choice each feature is settled, built as C, as C++ and with sanitizers, prints on the motor session what is stored,
# and that has each settled literal at the level at which `desk` settles it in its own stored output.
# Then, with a header whose states and levels of a lookup are wrong, it must print something else.
set -euo pipefail
cd "$(dirname "$0")/.."
. tests/support/common.sh
. tests/support/c_example.sh
motor=examples/motor

run() {
    "$1" "$motor/tariff.cnf" "$motor/script"
}

# Both of these print the literals that are settled at the end of an output, a line `LEVEL LITERAL` each.

# levels_by_desk FILE: a line of `desk` that forces literals lists them behind the choice.
levels_by_desk() {
    awk '
        $1 == "open" { forced[0] = $0; sub(/^[^:]*:/, "", forced[0]) }
        $1 == "choose" { forced[++level] = $0; sub(/^[^:]*:/, " " $2, forced[level]) }
        $1 == "back" { level -= $2 }
        END { for (n = 0; n <= level; n++) { k = split(forced[n], literals, " "); for (i = 1; i <= k; i++) print n, literals[i] } }' "$1" | sort
}

# levels_by_example FILE: a line of the example says it in words.
levels_by_example() {
    sed -E '1,/^settled at the end/d; /features are open$/d; s/since the opening$/since choice 0/' "$1" |
        sed -E 's/^  ([0-9]+) .*: wanted.* choice ([0-9]+).*/\2 \1/; s/^  ([0-9]+) .*: barred.* choice ([0-9]+).*/\2 -\1/' | sort
}

# agrees FILE: what is stored of the example has the literals that `desk` settles, at the same levels.
agrees() {
    diff <(levels_by_desk "$motor/output") <(levels_by_example "$1")
}

example "$motor/since.c" "$motor/since.output"
prints_stored_in_every_build
agrees "$stored"
echo "since: $(levels_by_example "$stored" | wc -l) literals at the levels at which desk settles them"
edits=('/marten bite/s/choice 4/choice 3/' '/seasonal plate/s/barred/wanted/' '/liability cover/s/the opening/choice 1/' '/: wanted, choice 11/d')
notices_in_stored "${edits[@]}"
notices '/ tariff_state/s/% 4/% 2/'
notices '/ tariff_state/s/% 4/% 8/'
notices '/ tariff_state/s,% 4,/ 4,'
notices '/ tariff_level/s,/ 4,/ 2,'
notices '/ tariff_level/s,/ 4,/ 8,'
notices '/ tariff_level/s,/ 4,% 4,'
notices '/ tariff_level/s,/ 4,& + 1,'
notices 's/(TARIFF_IS_OPEN) 0/\1 1/; s/(TARIFF_IS_WANTED) 1/\1 0/'
notices 's/(TARIFF_IS_WANTED) 1/\1 2/; s/(TARIFF_IS_BARRED) 2/\1 1/'
notices 's/(TARIFF_IS_OPEN) 0/\1 2/; s/(TARIFF_IS_BARRED) 2/\1 0/'
notices 's/(TARIFF_IS_OPEN) 0/\1 3/'
notices 's/(TARIFF_IS_WANTED) 1/\1 3/'
notices 's/(TARIFF_IS_BARRED) 2/\1 3/'
echo "since: notices ${#edits[@]} wrong outputs and $noticed wrong headers"
