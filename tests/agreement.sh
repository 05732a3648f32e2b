#!/usr/bin/env bash
# Two agents, one outcome: by the library, sessions on one book with the same choices, made in other orders and after other take-backs, look every feature
# up alike but for the level, or the choices contradict in both. Wrong lookups and engines must be noticed, and others with the same outcome must not.
set -euo pipefail
cd "$(dirname "$0")/.."
. tests/support/common.sh

need_library
build agreement "${library[@]}"
target/tests/agreement
