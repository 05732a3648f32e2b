#!/usr/bin/env bash
# The C example that puts a session away, built as C, as C++ and with sanitizers, prints on its tariff what is stored.
# Then, with a header whose kinds, literals, state and level of a lookup or places of figures are wrong, it must print something else.
set -euo pipefail
cd "$(dirname "$0")/.."
. tests/support/common.sh
. tests/support/c_example.sh

run() {
    "$1" examples/put_away/tariff.cnf "$1.numbers"
}

example examples/put_away/put_away.c examples/put_away/output
prints_stored_in_every_build
notices 's/(TARIFF_ACCEPTED) 0/\1 1/; s/(TARIFF_CONFLICT) 1/\1 0/'
notices 's/(TARIFF_CONFLICT) 1/\1 2/; s/(TARIFF_REFUSED) 2/\1 1/'
notices 's/(TARIFF_ACCEPTED) 0/\1 2/; s/(TARIFF_REFUSED) 2/\1 0/'
notices '/ tariff_wanted/s/2 \* feature/& + 1/'
notices '/ tariff_barred/s/ \+ 1//'
notices '/ tariff_kind/s/>> 32/>> 31/'
notices '/ tariff_number/s/\)answer/)(answer >> 1)/'
notices '/ tariff_state/s/% 4/% 2/'
notices '/ tariff_state/s/tariff_kind\(answer\) == TARIFF_ACCEPTED/1/'
notices '/ tariff_level/s,/ 4,/ 2,'
notices 's/(TARIFF_IS_BARRED) 2/\1 3/; s/(TARIFF_IS_REFUSED) 3/\1 2/'
notices 's/(TARIFF_CHOICES) 0/\1 1/; s/(TARIFF_TAKE_BACKS) 1/\1 0/'
notices 's/(TARIFF_TAKE_BACKS) 1/\1 2/; s/(TARIFF_SETTLED) 2/\1 1/'
notices 's/(TARIFF_SETTLED) 2/\1 3/; s/(TARIFF_RULE) 3/\1 2/'
echo "put_away: notices $noticed wrong headers"
