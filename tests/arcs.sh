#!/usr/bin/env bash
# Arc consistency: in support encodings (source document 002) `desk` leaves the domains of AC-3. --selftest: only wrong programs are tried.
set -euo pipefail
cd "$(dirname "$0")/.."
. tests/support/common.sh

need_program
build arcs
self_test arcs 40 "drops the last forced literal" "misses contradictions" "contradicts each time" "leaves rules with repeated literals out"
run_cases arcs "$@"
