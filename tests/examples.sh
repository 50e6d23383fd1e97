#!/usr/bin/env bash
# Each script of examples/ prints the lines that stand beside it.
set -eu -o pipefail
top=$(cd "$(dirname "$0")/.." && pwd)
played=0
for script in "$top"/examples/*.script; do
    [ -f "$script" ] || { echo 'examples: there are none'; exit 1; }
    expected=${script%.script}.expected
    name=$(basename "$script" .script)
    [ -f "$expected" ] || { echo "examples: $name has no expected lines"; exit 1; }
    "$top/airbench" "$script" | diff - "$expected" || { echo "examples: $name prints other lines"; exit 1; }
    played=$((played + 1))
done
for expected in "$top"/examples/*.expected; do
    [ -f "${expected%.expected}.script" ] || { echo "examples: $(basename "$expected") has no script"; exit 1; }
done
echo "examples: $played played, as expected"
