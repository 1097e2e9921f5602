#!/usr/bin/env bash
# The cases of tests/cases, over the C interface: instructions, recipes and access questions with their answers
# (machine.txt), and site files with what the reader and the label finder say of each (files.in, files.out). It takes
# target/lib/libpanelrights.a as `make lib` left it.
set -euo pipefail
cd "$(dirname "$0")/.."
library=target/lib/libpanelrights.a
work=$(mktemp -d)
trap 'rm -rf "$work"' EXIT

fail() {
    echo "cases: $*" >&2
    exit 1
}

build() {
    gcc -std=c99 -O2 -Wall -Wextra -Werror -pedantic -Iinclude \
        "tests/cases/$1.c" tests/cases/cases.c "$library" -o "$work/$1" || fail "$1.c is not built"
}

[ -f "$library" ] || fail "$library is not there: run make lib"
build machine
build files

machine=$("$work/machine" <tests/cases/machine.txt) || fail 'a line of machine.txt fails'
"$work/files" <tests/cases/files.in >"$work/files.out" || fail 'a line of files.in fails'
cmp "$work/files.out" tests/cases/files.out || {
    diff tests/cases/files.out "$work/files.out" >&2 || true
    fail 'files.out (<) is not what the library says of files.in (>)'
}
files=$(grep -c '^  ' tests/cases/files.in)
echo "cases: $machine; $files site files and labels, and a good file with each of its bytes changed"
