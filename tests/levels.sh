#!/usr/bin/env bash
# An outside solver on levels: by the library, the level of a settled feature is the least number of oldest choices whose unit closure, as CaDiCaL fixes it
# of the rules as they are written, holds it; main.cpp says how far that goes in contradiction. Wrong levels must be noticed.
set -euo pipefail
cd "$(dirname "$0")/.."
. tests/support/common.sh

need_library
need_cadical
build levels "${library[@]}" -lcadical
target/tests/levels
