#!/usr/bin/env bash
# Premiums: by the library, on sessions that calls have led to, on the motor tariff, and on damaged sessions and books, with random rate lists and on both
# sides of every limit, the amount, the open lines and the refusals are K1's; for tables of age bands, good, at fault and false, what the checker says and the
# premium for an age are K9's. Wrong ways to price and to check must be noticed, and right ones must not.
set -euo pipefail
cd "$(dirname "$0")/.."
. tests/support/common.sh

need_library
# The long lists take longer to optimise than to run.
build pricing -O1 "${library[@]}"
target/tests/pricing examples/motor/tariff.cnf
