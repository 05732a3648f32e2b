#!/usr/bin/env bash
# Bytes: `desk` answers damaged and random rule books and scripts by the paper's forms and numbers. --selftest: only wrong programs are tried.
set -euo pipefail
cd "$(dirname "$0")/.."
. tests/support/common.sh

need_program
build bytes
self_test bytes 300 "other refusals" "a blank at the end of lines" "a leading zero" "an answer missing" "no end line" "exit code 3" \
    "refuses a feature twice by 7" "counts only the literals that are kept" "forces one literal of a feature both ways" "names a rule that is always met"
run_cases bytes "$@"
