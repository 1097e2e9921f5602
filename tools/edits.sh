#!/usr/bin/env bash
# The must-fail edits by crate and function, with what each gets wrong. An edit begins with a line '# WHAT: SENTENCE'
# for each fault that it plants, and WHAT is one or more names with ', ' between: a public function of the edit's own
# crate (machine::step, state::State::empty), or a claim of any crate (claim Demand3). Where the fault is planted in a
# private function that those call, its name follows in parentheses: '# lines::first_line (extended): SENTENCE'; of a
# method as the prover names it: '(TurnedMoves::next)'. It fails where a line is not so, where it names what is not
# there, and where fewer than two faults name a public function of a library. With --check it counts the edits and their
# faults, and prints no table. With --refused it tries each edit that names a function (tools/try.sh), several side by
# side, and reads what the prover says: each function that is named must be refused, where an edit plants several faults
# none of theirs because of another, and none only because its proof file names what the edit took away.
set -euo pipefail
export LC_ALL=C
cd "$(dirname "$0")/.."

table=false refused=false
case ${1-} in
'') table=true ;;
--check) ;;
--refused) refused=true ;;
*) echo 'usage: edits.sh [--check | --refused]' >&2; exit 2 ;;
esac

word='[A-Za-z0-9_]+'
named="($word(::$word)+|claim $word)"
form="^# $named(, $named)*( \\($word(::$word)*\\))?: [^ ]"
edits=0 planted=0 public=0 faults=0
# The claims of all crates; of the crate at hand the public functions, how many edits each name has, their rows in the
# table, and the names that are not of a public function.
declare -A is_claim=() is_public=() count=() rows=()
others=()

fault() {
    echo "edits: $*" >&2
    faults=$((faults + 1))
}

listed_crates() {
    sed -nE 's/#.*//; s/^([a-z0-9_]+)[^:]*:.*/\1/p' crates.txt
}

stated_claims() {
    sed -nE 's/^(abbrev|unfoldable) pub ([^ ]+) : Type 0$/\2/p' crates/*/specs/*.antt
}

# The public functions of a crate, in the order of its source; a method has its type in front.
public_functions() {
    awk -v crate="$1" '
        FNR == 1 || /^}/ { type = "" }
        /^impl[ <]/ { type = $0; sub(/^impl(<[^>]*>)? */, "", type); sub(/[^A-Za-z0-9_].*/, "::", type) }
        sub(/^ *pub (extern "C" )?fn /, "") { sub(/[^A-Za-z0-9_].*/, ""); print crate "::" type $0 }
    ' "crates/$1"/src/*.rt
}

# Is there what the edit names, and is a function of the edit's own crate?
check_name() {
    local crate=$1 edit=$2 name=$3
    case $name in
    'claim '*) [ -n "${is_claim[${name#claim }]-}" ] || fault "$edit: no crate's specs/ has the $name" ;;
    "$crate::"*) [ -n "${is_public[$name]-}" ] || fault "$edit: $name is no public function of crates/$crate/src" ;;
    *) fault "$edit: $name is not of the crate $crate" ;;
    esac
}

# What the prover said of a function in its log of an edit.
said_of() {
    sed -n "s/^fn $2: //p" "$1" 2>/dev/null | head -n 1 || true
}

# Is the function refused? Where others of the edit have a fault too, not because of one of them alone: what is not
# proved of the function itself, the prover says in front of what it calls.
check_refused() {
    local log=$1 edit=$2 name=$3 planted_in=$4 said callee next
    said=$(said_of "$log" "$name")
    while [[ $said == 'no proof: it calls `'* ]]; do
        # What is passed on beside the call, as a type with a method, has no line of its own.
        next=
        for callee in $(tr '`' '\n' <<<"$said" | grep ::); do
            [[ $planted_in != *",$callee,"* ]] || fault "$edit: $name is refused because of $callee"
            [ -z "$(said_of "$log" "$callee")" ] || next=$callee
        done
        said=$(said_of "$log" "$next")
    done
    case $said in
    'not proved'* | 'no proof'*)
        ! is_unread "$log" "$name" || fault "$edit: the proof of $name no longer fits, see $log"
        ;;
    *) fault "$edit: $name is not refused: '$said' in $log" ;;
    esac
}

# Are all errors in the function's proof files of names that are gone?
is_unread() {
    local folder=${2#*::} errors
    errors=$(grep -E "^\./proofs/\+?${folder//:://}/[A-Za-z]+\.antt:[0-9]+:[0-9]+: error" "$1" || true)
    [ -n "$errors" ] && ! grep -qvE 'has no field|is not in scope|has no `' <<<"$errors"
}

# Tries the edits that name a function.
try_edits() {
    grep -lE "^# (claim $word, )*$word::" crates/*/must-fail/*.edit |
        sed -E 's|^crates/([^/]*)/must-fail/(.*)\.edit$|\1/\2|' | xargs tools/try.sh >/dev/null
}

# The functions that the faults of an edit are planted in, with a comma before and behind each.
places_of() {
    local crate=$1 line
    shift
    for line; do
        line=${line#'# '} line=${line%%: *}
        case $line in
        *')')
            line=${line##*(}
            printf ',%s' "$crate::${line%)}"
            ;;
        *) printf ',%s' "${line//, /,}" ;;
        esac
    done
    echo ,
}

# Adds one fault of an edit to the rows of each name that it has.
take_fault() {
    local crate=$1 edit=$2 line=$3 row=$4 log=$5 places=$6 name leaf before=,
    if ! [[ $line =~ $form ]]; then
        fault "$edit: '$line' is not '# WHAT: SENTENCE'"
        return
    fi
    planted=$((planted + 1))
    line=${line#'# '} line=${line%%: *}
    if [[ $line == *')' ]]; then
        leaf=${line##*(} leaf=$crate::${leaf%)} line=${line%' ('*}
        ! $refused || check_refused "$log" "$edit" "$leaf" "$places"
        places=,
    fi
    while IFS= read -r name; do
        [[ $before != *",$name,"* ]] || fault "$edit: it names $name twice"
        before+=$name,
        check_name "$crate" "$edit" "$name"
        [ -n "${is_public[$name]-}${rows[$name]-}" ] || others+=("$name")
        count[$name]=$((${count[$name]-0} + 1))
        rows[$name]+=$row$'\n'
        ! $refused || [[ $name == 'claim '* ]] || check_refused "$log" "$edit" "$name" "$places"
    done <<<"${line//, /$'\n'}"
}

# Takes the faults of an edit, a leading line each. An edit that changes no file of src/ changes a definition.
take_edit() {
    local crate=$1 edit=$2 text label lines line row log places=,
    text=$(<"$edit")
    label=${edit##*/} label=${label%.edit}
    log=target/edits/$crate/$label.log
    mapfile -t lines < <(sed '/^#/!Q' "$edit")
    [ "${#lines[@]}" -gt 0 ] || fault "$edit: it does not begin with '# WHAT: SENTENCE'"
    [ "${#lines[@]}" -le 1 ] || places=$(places_of "$crate" "${lines[@]}")
    for line in "${lines[@]}"; do
        printf -v row '    %-28s %s' "$label" "${line#*: }"
        [[ $text == *$'\nfile: src/'* ]] || row+=' [definition]'
        take_fault "$crate" "$edit" "$line" "$row" "$log" "$places"
    done
}

print_rows() {
    [ -z "${rows[$1]-}" ] || printf '  %s\n%s' "$1" "${rows[$1]}"
}

take_crate() {
    local crate=$1 functions edit name
    functions=$(public_functions "$crate")
    is_public=() count=() rows=() others=()
    for name in $functions; do is_public[$name]=1; done
    for edit in "crates/$crate"/must-fail/*.edit; do
        [ -f "$edit" ] || continue
        take_edit "$crate" "$edit"
        edits=$((edits + 1))
    done
    for name in $functions; do
        [ -f "crates/$crate/src/lib.rt" ] || continue
        public=$((public + 1))
        [ "${count[$name]-0}" -ge 2 ] || fault "crates/$crate/src: $name has fewer than two faults: ${count[$name]-0}"
    done
    if $table && [ "${#rows[@]}" -gt 0 ]; then
        echo "$crate"
        for name in $functions "${others[@]}"; do print_rows "$name"; done
    fi
}

! $refused || try_edits
claims=$(stated_claims)
for name in $claims; do is_claim[$name]=1; done
crates=$(listed_crates)
for crate in $crates; do take_crate "$crate"; done
[ "$faults" -eq 0 ] || exit 1
if $refused; then
    echo "edits: each function that a fault names is refused, in $edits edits"
else
    echo "edits: $edits edits with $planted faults; each of the $public public functions has two or more"
fi
