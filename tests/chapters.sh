#!/usr/bin/env bash
# Checks by chapter: by the library, on random sessions, on lent counts and on damaged sessions and books, the totals of chapters are the sums of the
# counts of their rules, and the answers are K6's. Wrong sums and answers must be noticed, and right ones that are made in other ways must not.
set -euo pipefail
cd "$(dirname "$0")/.."
. tests/support/common.sh

need_library
build chapters "${library[@]}"
target/tests/chapters
