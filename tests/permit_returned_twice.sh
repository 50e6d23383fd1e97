#!/usr/bin/env bash
# A permit that was brought back cannot be brought back again: the compiler refuses it as a value that has moved.
# The same function with one return is proved, so that the refusal is of the second return and of nothing else.
set -u
top=$(cd "$(dirname "$0")/.." && pwd)
work=$(mktemp -d)
trap 'rm -rf "$work"' EXIT
mkdir -p "$work/crates/misuse/src"
for c in signalling parts rules stays requests access; do cp -r "$top/crates/$c" "$work/crates/"; done
grep -E '^(signalling|parts|rules|stays|requests|access):' "$top/crates.txt" > "$work/crates.txt"
echo 'misuse: signalling parts rules stays requests access' >> "$work/crates.txt"

# Writes a function that takes a permit and brings it back by the lines given, and prints what the check says.
check() {
    cat > "$work/crates/misuse/src/lib.rt" <<EOF
#![tactic(auto)]

use access::permit::Kept;
use access::set::Set;
use parts::plan::NetworkPlan;
use parts::service::Service;
use parts::source::DrawSource;

pub fn bring_back<D: DrawSource, S: Service + Drop, P: NetworkPlan>(set: &mut Set<D, S, P>) -> Result<(), Kept> {
    let permit = set.take();
    $1
}
EOF
    (cd "$work/crates/misuse" && rt check 2>&1)
}

once=$(check 'set.sent(permit)')
case "$once" in
    *'fn misuse::bring_back: proved'*) ;;
    *) echo "a permit brought back once is refused: $once" | tail -3; exit 1 ;;
esac
twice=$(check 'set.sent(permit)?; set.sent(permit)')
case "$twice" in
    *'error[borrow-e0382]: use of moved value: `permit`'*) echo 'a permit brought back twice is refused' ;;
    *) echo "a permit brought back twice is not refused: $twice" | tail -3; exit 1 ;;
esac
