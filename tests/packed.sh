#!/usr/bin/env bash
# Packed decimal: by the library, on all fields of 1 and 2 bytes, all maps, all lengths and rooms near and many far, values on both sides of every limit, and
# random fields and records with each half byte damaged, what is written and read and the refusals are K8's, and what is written is read back. Wrong ways to
# write and to read must be noticed, and a right one must not.
set -euo pipefail
cd "$(dirname "$0")/.."
. tests/support/common.sh

need_library
build packed "${library[@]}"
target/tests/packed
