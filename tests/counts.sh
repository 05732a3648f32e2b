#!/usr/bin/env bash
# Exact counts: every line of `desk`, every number of a session after every call, and what is looked up, with its level, are those of a second run.
# --selftest: only wrong programs are tried.
set -euo pipefail
cd "$(dirname "$0")/.."
. tests/support/common.sh

need_program
need_library
build counts "${library[@]}"
self_test counts 60 "counts no checks" "counts a check too few" "counts a check too many" "keeps repeated literals at their last place"
compile counts.sanitized tests/counts/main.cpp "${library[@]}" "${sanitizers[@]}"
quiet target/tests/counts.sanitized "$program" target/tests/counts.sanitized.d 45
echo "counts: the first 45 cases agree with gcc's address and undefined-behaviour sanitizers too"
run_cases counts "$@"
