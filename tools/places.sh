#!/usr/bin/env bash
# The places in crates/*/src where the code has a form of the older Rattle, for the points of docs/DESIGN-PASS.md: a
# count for each kind of place, and with --list the lines in front of it. PLACES_OF names another checkout to count in.
# What is found by name or by arithmetic may be no place after all: the page says so of each line that is found today.
set -euo pipefail
export LC_ALL=C
cd "${PLACES_OF:-$(dirname "$0")/..}"

list=false
case ${1-} in
'') ;;
--list) list=true ;;
*) echo 'usage: places.sh [--list]' >&2; exit 2 ;;
esac

sources=(crates/*/src/*.rt)

# Lines that match, without comments.
lines() {
    grep -nE "$1" "${sources[@]}" | grep -vE '^[^:]+:[0-9]+: *//' || true
}

# The functions, each on one line: file, name, parameters, result, requires; and behind // the comment above it.
functions() {
    awk '
        function tell() { print place ": " held " //" comment; held = ""; comment = "" }
        FNR == 1 { comment = ""; held = "" }
        held != "" && (/^ *ensures/ || /^ *[{;]/ || /\{$/) { tell(); next }
        held != "" { held = held " " $0; next }
        /^ *\/\// { comment = comment " " $0; next }
        /^ *(pub )?(extern "C" )?fn / { place = FILENAME ":" FNR; held = $0; if (/\{$/) tell(); next }
        /^ *#\[/ { next }
        { comment = "" }
    ' "${sources[@]}" | sed -E 's/ +/ /g'
}

# Lines that match and are followed by one that does.
followed() {
    awk -v first="$1" -v second="$2" '
        FNR > 1 && held ~ first && $0 ~ second { print FILENAME ":" FNR - 1 ":" held }
        { held = $0 }
    ' "${sources[@]}"
}

all=$(functions)
inner=$(grep -v '^crates/capi/' <<<"$all")
find_in() { grep -E -- "$2" <<<"$1" || true; }
but_for_c() { grep -v '^crates/capi/' || true; }

told() {
    local point=$1 what=$2 found
    found=$(cat)
    if $list && [ -n "$found" ]; then cut -c1-150 <<<"$found" | sed 's/^/    /'; fi
    printf '%s %5d  %s\n' "$point" "$(grep -c . <<<"$found" || true)" "$what"
}

lines '^    pub (refusal|place): u8,|^    (NoAccess|NoCode|NoneLost|Unreadable|Refused\(u8\)|Unexplained\(u8\)),$' |
    told 1a 'types with a number for a refusal, or with a value or a variant for none'
none="[Rr]efusal([^']|\$)|f there is none|f none|[Ff]or none|no access|out access|lacks access|256 if|both are 0"
find_in "$inner" "-> (u8|u16|u32|usize|Place|Entry|\[u8; 32\])( requires.*)? //.*($none|0 if|; 31|nothing follows)" |
    told 1b 'functions with a number for a refusal or for none, but for C'
refused='return |[Rr]efused\(|outcome_of\(|without_pair\(|Unexplained\(|refusal: |refusal != |else \{ '
lines "($refused|Decoded::.* => |EARLY.*\[)([1-9]|1[0-5]|2[1-9]|3[01])\b|^ +1[0-5]\$" |
    told 1c 'refusals written as numbers'
part='USERS|AREAS|OBJECTS|OWNERS|DEFINITIONS|STRUCTURE|IMPORTS|EXPORTS'
lines "\bkind: u8|\bkind == [0-9]|^const ($part): usize|\b(rows_[0-9]+|write_rows)\([a-z]+, [0-9]" |
    told 1d 'kinds as numbers: of an operand, and of the parts of a record by their bytes'
named='with_(user|area|object|owner|definition|structure|import|export)|are_(valid|well_formed)|add|remove'
find_in "$all" "fn ([a-z_]*_(1|2|32|64|alone)|$named)\(" |
    told 2a 'functions named by a size, a field or a constant'
lines '^pub fn (owners|definitions|structure|imports|exports|labels)\(' |
    told 2b 'functions, one for each table'
lines '\bfor [a-z_]+ in [^{]*\.\.|\bwhile |\bloop \{' |
    told 3a 'loops over a counted number, and other loops than over values'
lines 'fn (number_of\(answer|answer_of|[a-z]+_code|[a-z]+_number|joined|byte_from|print_[a-z]+|misfit)\b' |
    told 4a 'conversions and printing by functions of the code'
lines '256 \* byte_at|\* 256 \+ table|[%/] 256\)|<< 8|>> from|\b48 \+|- 48\)|value as u8' | but_for_c |
    told 4b 'bytes of numbers and digits by arithmetic, but for C'
lines '^#\[derive\(Drop\)\]' |
    told 4c 'types that derive Drop alone'
find_in "$all" '[(,] ?(mut )?[a-z]+: State\b' |
    told 5a 'functions that take a state by value'
find_in "$all" "definitions: &('a )?\[u" |
    told 5b 'functions that take the relations one by one'
find_in "$inner" 'code: u8, activator: u8, a: u8, b: u8' |
    told 5c 'functions that take four bytes one by one, but for C'
find_in "$all" 'imported: u32, exported: u32' |
    told 5d 'functions that take the rows of an object one by one'
find_in "$inner" '[(, ]u: u8, a: u8, b: u8' |
    told 5e 'functions that take an activator, a and b one by one, but for C'
find_in "$all" 'requires .*(is_record|instruction_count)' |
    told 5f 'functions that require a fact which three or more require'
find_in "$all" "(out|bytes): &(.a )?mut \[u8\], at: usize.*-> usize" |
    told 6a 'functions that take a buffer and a place in it, and answer the next place'
place="((k|i|n|from): u|at: usize)"
find_in "$all" "(table|recipe|bytes|rows): &('a )?\[u(8|32)(; 9)?\], $place|rows: &('a )?\[u32\], limit: u8" |
    told 6b 'functions that take a slice or an array, and a place or a number of its elements'
lines '\[[^];]*\b[a-z)]+ \* ([a-z_]+::)?[A-Z0-9][A-Z_0-9]*[^];]*\]|= at \+ i \* 4' |
    told 6c 'elements of a table found by arithmetic'
lines "numbers: &'a \[u8\], met|let met = \[" |
    told 6d 'parallel arrays'
{ followed 'match (kind|number|code) [{]$' '^ *([0-9]|[A-Z_]+ =>)'; lines '\b[A-Z_]+ \+ [0-9_]+,$'; } |
    told 7a 'steps chosen by a number'
find crates/*/proofs -name Answers.antt | told 8a 'files of answers'
find crates/*/proofs -name Answers.antt -print0 | xargs -0 grep -E '^pub .*: goal\.' | told 8b 'answers'
find crates/*/proofs -name '*.antt' -print0 | xargs -0 cat | wc -l | xargs printf '8c %5d  lines of proofs\n'
