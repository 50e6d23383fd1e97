#!/usr/bin/env bash
# airbench plays an input of 65,536 bytes whole, and tells one byte more, or many more, as too long.
set -eu
top=$(cd "$(dirname "$0")/.." && pwd)
input=$(mktemp)
trap 'rm -f "$input"' EXIT

# Plays so many bytes of lines that are faulty at their first byte, two bytes a line.
play() {
    yes x | head -c "$1" > "$input"
    "$top/airbench" "$input"
}

played=$(play 65536 | sort | uniq -c | sed 's/^ *//')
[ "$played" = '32768 (bad 31 1)' ] || { echo "input limit: 65,536 bytes print $played"; exit 1; }
for bytes in 65537 65538 1000000; do
    printed=$(play "$bytes")
    [ "$printed" = '(bad 34 0)' ] || { echo "input limit: $bytes bytes do not print (bad 34 0) alone"; exit 1; }
done
echo 'input limit: 65,536 bytes are played, more are not'
