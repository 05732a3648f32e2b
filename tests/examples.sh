#!/usr/bin/env bash
# Every folder of examples/ with tariff.cnf, script and output is run by `desk`, whose answer must be the stored output.
set -euo pipefail
cd "$(dirname "$0")/.."
. tests/support/common.sh

need_program
desk=$PWD/$program
ran=0
failed=0
for folder in examples/*/; do
    [ -f "$folder/tariff.cnf" ] && [ -f "$folder/script" ] && [ -f "$folder/output" ] || continue
    name=$(basename "$folder")
    ran=$((ran + 1))
    if (cd "$folder" && "$desk" < script | diff output -); then
        echo "$name: as stored"
    else
        echo "$name: not as stored (< stored, > printed)" >&2
        failed=1
    fi
done
if [ "$ran" = 0 ]; then
    echo "examples/ has no folder with tariff.cnf, script and output" >&2
    exit 1
fi
exit "$failed"
