#!/usr/bin/env bash
# The gate: each must-fail edit names its faults, and each public function has two; each claim has a proof of its type;
# few crates know the record of a state; every crate proved from nothing, every edit refused and each program run (rt
# ci), and in each edit every function that it names refused; then the static library, and the tests over it and over
# the program. It fails if any fails. Its end is a table by crate, and the last line of rt ci, 'N passed, 0 failed'.
set -euo pipefail
cd "$(dirname "$0")/.."
report=$(mktemp)
trap 'rm -f "$report"' EXIT

fail() {
    echo "gate: $*" >&2
    exit 1
}

tools/edits.sh --check
tools/claims.sh
tools/fields.sh

# The report has in front of each line of rt ci the second in which it came.
SECONDS=0
rt ci | while IFS= read -r line; do
    printf '%s\n' "$line"
    printf '%d %s\n' "$SECONDS" "$line" >&3
done 3>"$report"

# rt ci passes an edit that can't be applied or read, and one that is refused only because a proof names what is gone.
said=$(sed -nE 's/^[0-9]+ (rt: ok; .*)/\1/p' "$report")
[ -n "$said" ] || fail 'rt ci printed no line that begins with rt: ok'
! grep -qE ', [1-9][0-9]* bad' <<<"$said" || fail "must-fail edits are bad: $said"
! grep -F '(only because a proof file names' "$report" || fail 'an edit takes away what a proof names'
edits=(crates/*/must-fail/*.edit)
grep -q "; must-fail edits: ${#edits[@]} refused" <<<"$said" || fail "there are ${#edits[@]} must-fail edits: $said"

make --no-print-directory check lib
mkdir -p target/bin
cp crates/panelrights/out/panelrights target/bin
tools/edits.sh --refused
tests/interface.sh
tests/cases.sh
tests/reference.sh
tests/differential.sh
tests/panelrights.sh
tools/seconds.sh "$report"
tail -n 1 "$report" | cut -d ' ' -f 2-
