#!/usr/bin/env bash
# Runs the program PanelRights on the cases of tests/panelrights and on inputs at the limits of its length, and compares
# what it prints.
set -euo pipefail
cd "$(dirname "$0")/.."
program=target/bin/panelrights
work=$(mktemp -d)
trap 'rm -rf "$work"' EXIT
passed=0

# Standard input to the program must give what the file has, within ten seconds and with a stack of 8 MB.
expect() {
    local name=$1 expected=$2
    (ulimit -S -s 8192 && timeout 10 "$program") >"$work/printed" || { echo "panelrights $name: it failed"; exit 1; }
    cmp "$work/printed" "$expected" || { echo "panelrights $name: it printed something else"; exit 1; }
    passed=$((passed + 1))
}

# The same of an input that is to have so many bytes.
expect_bytes() {
    local bytes=$1 name="$1 bytes, $2" expected=$3
    cat >"$work/input"
    [ "$(stat -c %s "$work/input")" = "$bytes" ] || { echo "panelrights $name: the input has another length"; exit 1; }
    expect "$name" "$expected" <"$work/input"
}

# A read or a write that fails is the program's error: it has the status 1, and says so on standard error alone.
expect_error() {
    local name=$1 ended=0
    "$program" >"${2-$work/printed}" 2>"$work/complaint" || ended=$?
    [ "$ended" = 1 ] || { echo "panelrights $name: it ended with $ended"; exit 1; }
    [ -n "${2-}" ] || [ ! -s "$work/printed" ] || { echo "panelrights $name: it printed something"; exit 1; }
    grep -q '^Error: ' "$work/complaint" || { echo "panelrights $name: it did not complain"; exit 1; }
}

# So many copies of a line; `yes` ends by a closed pipe.
repeated() {
    yes "$1" | head -n "$2" || true
}

founding='state 1 1 0 1 0 0 0'

for input in tests/panelrights/*.in; do
    name=$(basename "$input")
    expected=${input%.in}.out
    expect "$name" "$expected" <"$input"
    expect "$name, a byte at a time" "$expected" < <(dd if="$input" bs=1 status=none)
done

printf '%s\n' '1 0' '2 0' 'state 1 3 0 3 0 0 0' >"$work/expected"
expect 'lines that come in pieces' "$work/expected" \
    < <(printf '1 0 1'; sleep 0.2; printf ' 0\n1 0 2'; sleep 0.2; printf ' 0\n')

{ seq -f '%.0f 13' 65536; echo "$founding"; } >"$work/expected"
expect '65,536 empty lines' "$work/expected" < <(repeated '' 65536)

{ echo '1 0'; seq -f '%.0f 6' 2 8192; echo 'state 1 2 0 2 0 0 0'; } >"$work/expected"
expect_bytes 65536 'one line again and again' "$work/expected" < <(repeated '1 0 1 0' 8192)

{ echo '1 0'; seq -f '%.0f 6' 2 8191; echo '8192 0'; echo 'state 1 3 0 3 0 0 0'; } >"$work/expected"
expect_bytes 65536 'the last line accepted' "$work/expected" < <(repeated '1 0 1 0' 8191; echo '1 0 2 0')

{ echo '1 0'; seq -f '%.0f 6' 2 8191; echo '8192 13'; echo 'state 1 2 0 2 0 0 0'; } >"$work/expected"
expect_bytes 65536 'the last line without byte 10' "$work/expected" < <(repeated '1 0 1 0' 8191; printf '1 0 10 0')

{ echo '1 13'; echo "$founding"; } >"$work/expected"
expect_bytes 65536 'in one line' "$work/expected" < <(head -c 65536 /dev/zero)

echo 'too long' >"$work/expected"
expect_bytes 65537 'an empty line last' "$work/expected" < <(repeated '1 0 1 0' 8192; echo)
expect_bytes 65537 'the last line would be accepted' "$work/expected" < <(repeated '1 0 1 0' 8191; echo '1 0 10 0')
expect_bytes 65537 'in one line' "$work/expected" < <(head -c 65537 /dev/zero)
expect 'input without end' "$work/expected" < <(yes '1 0 1 0')

expect_error 'a folder for an input' <"$work"
expect_error 'a full disk' /dev/full <tests/panelrights/session.in

echo "panelrights: $passed inputs, each printed as it should be; a read and a write that fail"
