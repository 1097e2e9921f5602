#!/usr/bin/env bash
# Sees that the record of a state is known in few crates: no other crate's source names a field of a `State` or makes
# one, and no other crate's proof looks into `site`, which says what a record stands for. So another way of keeping a
# state changes these crates, and what they lend its arrays to. A crate that stands in the list without need is a fault.
set -euo pipefail
export LC_ALL=C
cd "$(dirname "$0")/.."

[ $# -eq 0 ] || { echo 'usage: fields.sh' >&2; exit 2; }

# Those of the second line only lend the arrays on; the last one's claims are about the record.
known=' state counts readings updates inspection site_tables record_reader record_writer'
known+=' search validity chain_finder lost_pairs site_writer'
known+=' refinement '
field='\.(users|areas|objects|owners|definitions|structure|imports|exports)([^A-Za-z0-9_(]|$)'
faults=0 crates=0

# The places where a crate knows the record: in its source, in what its source opens, in its proofs.
names_field() {
    grep -nE "$field|(^ *|[=(,] )State \{" "$1"src/*.rt
}
opens_site() {
    grep -n 'Stands::site' "$1"src/*.rt
}
looks_into_site() {
    [ -d "$1proofs" ] && grep -rnE '^ *unfolding ([^ ]+ )*site( |$)' "$1proofs"
}

for folder in crates/*/; do
    crate=$(basename "$folder")
    if [[ $known == *" $crate "* ]]; then
        names_field "$folder" >/dev/null || opens_site "$folder" >/dev/null || looks_into_site "$folder" >/dev/null || {
            echo "fields: crates/$crate stands in the list, and knows nothing of the record" >&2
            faults=$((faults + 1))
        }
        continue
    fi
    crates=$((crates + 1))
    if names_field "$folder"; then
        echo "fields: the source of crates/$crate names a field of a State" >&2
        faults=$((faults + 1))
    fi
    if opens_site "$folder"; then
        echo "fields: a proof of crates/$crate is to look into site" >&2
        faults=$((faults + 1))
    fi
    if looks_into_site "$folder"; then
        echo "fields: a proof of crates/$crate looks into site" >&2
        faults=$((faults + 1))
    fi
done
[ "$faults" -eq 0 ] || exit 1
echo "fields: $crates crates name no field of a State"
