#!/usr/bin/env bash
# Quotes: by the library, on random books and scripts, the length, W, the lines `b k` and the ceiling are another reader's, the lines of every third
# script are grep's, too, and the answers are K11's; no script costs more than its ceiling, by the C calls and by `desk`, and a session opens in the quoted length and in no less.
# Wrong quotes, engines, openings and programs must be noticed. --selftest: only wrong programs are tried.
set -euo pipefail
cd "$(dirname "$0")/.."
. tests/support/common.sh

need_program
need_library
build quote "${library[@]}"
self_test quote 30 "counts no checks" "counts a check too few" "counts a check too many" "checks above the ceiling" \
    "counts a take-back too many" "no end line"
run_cases quote "$@"
