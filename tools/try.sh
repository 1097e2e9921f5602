#!/usr/bin/env bash
# Tries must-fail edits: checks a copy of the crate with the edit in it, several side by side, and prints what the
# prover says of each, above all a line 'fn NAME: ..' for each function. What is said is kept in
# target/edits/CRATE/LABEL.log, and an edit is tried again only where something has changed that such a check reads.
set -euo pipefail
export LC_ALL=C
cd "$(dirname "$0")/.."

[ $# -gt 0 ] || { echo 'usage: try.sh CRATE/LABEL ..' >&2; exit 2; }

edit_of() {
    echo "crates/${1%/*}/must-fail/${1#*/}.edit"
}

log_of() {
    echo "target/edits/$1.log"
}

# The crate and those below it, a line each.
with_below() {
    awk -v wanted="$1" '
        { sub(/#.*/, "") }
        match($0, /:/) { name = $1; sub(/:.*/, "", name); sub(/[^:]*:/, ""); below[name] = $0; order[++crates] = name }
        END {
            in_it[wanted] = 1
            for (i = crates; i > 0; i--) {
                if (!(order[i] in in_it)) continue
                count = split(below[order[i]], names, " ")
                for (k = 1; k <= count; k++) in_it[names[k]] = 1
            }
            for (i = 1; i <= crates; i++) if (order[i] in in_it) print order[i]
        }' crates.txt
}

parts_of() {
    local part
    for part in src specs proofs; do
        [ ! -d "crates/$1/$part" ] || echo "crates/$1/$part"
    done
}

# A sum of what a check of the crate with the edit reads: the kit, the edit, and the files of the crate and of those
# below it.
sum_of() {
    local folders
    mapfile -t folders < <(for it in $(with_below "${1%/*}"); do parts_of "$it"; done)
    {
        rt version
        cat "$(edit_of "$1")"
        find "${folders[@]}" -type f -print0 | sort -z | xargs -0 sha256sum
    } | sha256sum
}

is_tried() {
    [ "$(head -n 1 "$(log_of "$1")" 2>/dev/null)" = "$2" ]
}

# Makes the changes of the edit in the crate that stands in a folder.
apply() {
    local edit=$1 folder=$2 line file='' old='' text
    while IFS= read -r line; do
        case $line in
        'file: '*) file=$folder/${line#file: } ;;
        'old: '*) old=${line#old: } ;;
        'new:'*)
            line=${line#new:}
            text=$(<"$file")
            [[ $text == *"$old"* ]] || { echo "try: $edit: '$old' is not in $file" >&2; return 1; }
            printf '%s\n' "${text/"$old"/"${line# }"}" >"$file"
            ;;
        esac
    done <"$edit"
}

# By links, where the file system has them; no check writes into a file that is there.
put() {
    mkdir -p "$2"
    cp -rl "$1" "$2" 2>/dev/null || cp -r "$1" "$2"
}

try() (
    crate=${1%/*} log=$(log_of "$1")
    room=$(mktemp -d)
    trap 'rm -rf "$room"' EXIT
    for below in $(with_below "$crate"); do
        grep -E "^$below( |:)" crates.txt >>"$room/crates.txt"
        [ "$below" != "$crate" ] || continue
        for part in $(parts_of "$below"); do put "$part" "$room/crates/$below"; done
        [ ! -d "crates/$below/out/rlib" ] || put "crates/$below/out/rlib" "$room/crates/$below/out"
    done
    mkdir -p "$room/crates/$crate" "target/edits/$crate"
    for part in $(parts_of "$crate"); do cp -r "$part" "$room/crates/$crate"; done
    apply "$(edit_of "$1")" "$room/crates/$crate"
    { echo "$2"; (cd "$room/crates/$crate" && rt check --jobs 1 2>&1) || true; } >"$room/log"
    mv "$room/log" "$log"
)

left=() running=0
declare -A sum=() is_below=()
for it; do
    sum[$it]=$(sum_of "$it")
    is_tried "$it" "${sum[$it]}" || left+=("$it")
done
for it in "${left[@]}"; do
    for below in $(with_below "${it%/*}"); do [ "$below" = "${it%/*}" ] || is_below[$below]=1; done
done
mkdir -p target/edits
mapfile -t crates < <(sed -nE 's/^([a-z0-9_]+)[^:]*:.*/\1/p' crates.txt)
for crate in "${crates[@]}"; do
    [ -n "${is_below[$crate]-}" ] || continue
    (cd "crates/$crate" && rt lib) >target/edits/lib.log 2>&1 || { cat target/edits/lib.log >&2; exit 1; }
done
for it in "${left[@]}"; do
    [ "$running" -lt "$(nproc)" ] || { wait -n || true; running=$((running - 1)); }
    try "$it" "${sum[$it]}" &
    running=$((running + 1))
done
wait
for it; do
    is_tried "$it" "${sum[$it]}" || { echo "try: $it was not tried" >&2; exit 1; }
    cat "$(log_of "$it")"
done
