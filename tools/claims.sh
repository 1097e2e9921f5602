#!/usr/bin/env bash
# Sees that each claim has a proof of that very type. A claim is a name that a file of a crate's specs/ states by
# 'abbrev pub NAME : Type 0' or 'unfoldable pub NAME : Type 0', but for names of lists, and for Answer, Bytes, Decoded,
# Line and Picked where they name an Option, a Result or a type of the code and nothing more: these are types of data.
# Its proof is a line 'pub some-name : NAME' with a definition of some-name behind it, in a file that the
# proofs/Lib.antt of the same crate declares, where NAME stands alone and is that of the crate's own specs/. It fails
# with the claims that have none.
set -euo pipefail
export LC_ALL=C
cd "$(dirname "$0")/.."

[ $# -eq 0 ] || { echo 'usage: claims.sh' >&2; exit 2; }

# The files of a crate's proofs/ that its proofs/Lib.antt declares.
declared_proofs() {
    local proofs=crates/$1/proofs name
    [ -f "$proofs/Lib.antt" ] || return 0
    sed -nE 's/^(pub )?mod ([A-Za-z0-9_]+)$/\2/p' "$proofs/Lib.antt" | while IFS= read -r name; do
        [ ! -f "$proofs/$name.antt" ] || echo "$proofs/$name.antt"
    done
}

# For each claim of a crate 'proved' or 'open', and where it is stated; for the crate's specs, then its proofs.
judge_claims() {
    awk -v crate="$1" '
        # In a file of proofs: the files of specs by the names they are imported as, the claims that are imported one by
        # one, and the names whose type is a claim.
        function begin_file() {
            file = FILENAME; sub(/.*\//, "", file); sub(/\.antt$/, "", file)
            in_specs = FILENAME ~ /\/specs\//
            split("", imported); split("", taken); split("", typed)
            stated = ""
        }
        function take_import(path,    names, count, i) {
            if (sub("^Rattle[.]" crate "[.]specs[.]", "", path) == 0) return
            if (path ~ /[.]\{/) {
                names = path; sub(/.*[.]\{/, "", names); sub(/\}.*/, "", names); sub(/[.]\{.*/, "", path)
                count = split(names, name, /, */)
                for (i = 1; i <= count; i++) taken[name[i]] = path "." name[i]
            } else if (path ~ / as /) {
                names = path; sub(/.* as /, "", names); sub(/ as .*/, "", path)
                imported[names] = path
            } else imported[path] = path
        }
        # The claim that a type is, as FILE.NAME; nothing if it is none of the crate.
        function claim_of(type,    front) {
            if (type in taken) return taken[type]
            front = type; sub(/[.][^.]*$/, "", front); sub(/.*[.]/, "", type)
            return front in imported ? imported[front] "." type : ""
        }

        # Does the line name a type of data: one of these names, for an Option, a Result or a type of the code?
        function names_data() {
            return $0 ~ /^(Answer|Line|Picked) = Option [^ ]+$/ || $0 ~ /^Decoded = Result [^ ]+ [^ ]+$/ ||
                $0 == "Bytes = DeclaredBytes"
        }

        FNR == 1 { begin_file() }
        in_specs && $1 == stated && $2 == "=" && $3 == "List" { claims-- }
        in_specs && $1 == stated && names_data() { claims-- }
        in_specs { stated = "" }
        in_specs && /^(abbrev|unfoldable) pub [A-Z][^ ]* : Type 0$/ {
            stated = $3
            claim[++claims] = file "." stated
            at[claims] = FILENAME
        }
        in_specs { next }
        /^use / { take_import(substr($0, 5)) }
        /^pub [a-z][^ ]* : [^ ]+$/ { typed[$2] = claim_of($4) }
        /^[a-z][^ ]* (.* )?=( |$)/ && ($1 in typed) { proved[typed[$1]] = 1 }
        END {
            for (i = 1; i <= claims; i++)
                print (claim[i] in proved ? "proved" : "open"), at[i] ": " substr(claim[i], index(claim[i], ".") + 1)
        }' "${@:2}"
}

verdicts=$(
    for specs in crates/*/specs; do
        crate=${specs#crates/} crate=${crate%/specs}
        mapfile -t proofs < <(declared_proofs "$crate")
        judge_claims "$crate" "$specs"/*.antt "${proofs[@]}"
    done
)
open=$(sed -n 's/^open /claims: without a proof of that type: /p' <<<"$verdicts")
[ -z "$open" ] || { echo "$open" >&2; exit 1; }
[ -n "$verdicts" ] || { echo 'claims: no claim was found' >&2; exit 1; }
echo "claims: $(wc -l <<<"$verdicts") claims, each with a proof of that type"
