#!/usr/bin/env bash
# In the crates of worked scripts the scripts of data/, the expected lines beside them and the list have the same names,
# each once, and the list is in order. The rows of docs/CASES.md name the scripts of all of them.
set -eu
export LC_ALL=C
top=$(cd "$(dirname "$0")/.." && pwd)
work=$(mktemp -d)
trap 'rm -rf "$work"' EXIT

# Writes the names of the files of a folder with the ending given, in order.
named() {
    find "$1" -maxdepth 1 -type f -name "*.$2" | sed "s|.*/||; s|\.$2\$||" | sort
}

: > "$work/all"
for crate in cases more_cases; do
    data=$top/crates/$crate/data
    named "$data" script > "$work/scripts"
    named "$data" expected > "$work/expected"
    [ -s "$work/scripts" ] || { echo "$crate: there are none"; exit 1; }
    diff "$work/scripts" "$data/list" || { echo "$crate: list has other names than the scripts, or another order"; exit 1; }
    diff "$work/scripts" "$work/expected" || { echo "$crate: a script or its expected lines are missing"; exit 1; }
    count=$(wc -l < "$work/scripts")
    [ "$(cat "$top/crates/$crate/stdout")" = "$count scripts played, 0 differ" ] ||
        { echo "$crate: crates/$crate/stdout does not count $count scripts"; exit 1; }
    cat "$work/scripts" >> "$work/all"
done
sed -n 's/^| `\([a-z0-9_]*\)` |.*/\1/p' "$top/docs/CASES.md" | sort > "$work/rows"
sort "$work/all" | diff - "$work/rows" || { echo 'cases: docs/CASES.md has other rows than scripts'; exit 1; }
echo "cases: $(wc -l < "$work/all") scripts, each listed and described"
