#!/usr/bin/env bash
# An outside solver: what `desk` settles after every line is the unit closure that CaDiCaL fixes of the rules as they are written.
# --selftest: only wrong programs are tried.
set -euo pipefail
cd "$(dirname "$0")/.."
. tests/support/common.sh

need_program
need_cadical
build solver -lcadical
self_test solver 60 "drops the last forced literal" "turns the last forced literal" "doubles the last forced literal" \
    "swaps forced literals" "misses contradictions" "contradicts each time" "names the next rule" "says 14 for 15" "says 13 for 18" \
    "takes back too much" "keeps choices" "counts a choice too many" "counts a take-back too many" "checks above the ceiling" \
    "leaves rules with repeated literals out" "forces one literal of a feature both ways" "takes just the feature both ways out" \
    "gives rules with a feature both ways no number" "names a rule that is always met"
run_cases solver "$@"
