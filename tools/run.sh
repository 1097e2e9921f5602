#!/usr/bin/env bash
# Proves PanelRights and what it rests on, with a line for each crate as it is proved, and runs the session of document
# 01. What else the checker prints goes into target/run.log, which is shown if something fails.
set -euo pipefail
cd "$(dirname "$0")/.."
log=$PWD/target/run.log printed=$PWD/target/run.out session=$PWD/tests/panelrights/session.in

# From what `rt run` prints, as it comes: a line for each crate that it proves.
shorten() {
    local line name='' proved=0 before=0
    while IFS= read -r line; do
        case $line in
        'crate '*) name=${line#crate } name=${name%%:*} ;;
        'logic=proved '*)
            printf '  %-18s proved in %3d s\n' "$name" $((SECONDS - before))
            before=$SECONDS proved=$((proved + 1))
            ;;
        'logic='*) printf '  %-18s NOT PROVED\n' "$name" ;;
        esac
    done
    [ "$proved" -gt 0 ] || echo '  nothing to prove: all is unchanged since it was last proved'
}

mkdir -p target/bin
echo 'Proving the crates below PanelRights:'
(cd crates/panelrights && rt run <"$session" 2>&1 >"$printed") | tee "$log" | shorten || {
    status=$?
    cat "$log" >&2
    echo "run: it failed; what rt printed stands above, and in $log" >&2
    exit "$status"
}
cp crates/panelrights/out/panelrights target/bin
echo
echo 'PanelRights, on the session of document 01 (tests/panelrights/session.in):'
cat "$printed"
echo
echo 'On a file of your own: target/bin/panelrights <FILE'
