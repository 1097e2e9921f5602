#!/usr/bin/env bash
# What `rt ci` did by crate, off what it printed (a file, or standard input), each line with the second in front in
# which it came: when the crate's proof was done, or that it is kept from an earlier run, and the must-fail edits
# refused; beside them how many functions the crate has. Several crates run side by side, so no line tells the seconds
# of one.
set -euo pipefail
[ $# -eq 0 ] || exec <"$1"
cd "$(dirname "$0")/.."

functions() {
    awk '
        FNR == 1 { split(FILENAME, part, "/") }
        /^ *(pub )?(extern "C" )?fn / { count[part[2]]++ }
        END { for (crate in count) print crate, count[crate] }' crates/*/src/*.rt
}

awk '
    function row(name, f, p, e) { printf "%-18s %9s %12s %9s\n", name, f, p, e }

    FILENAME == "crates.txt" { sub(/#.*/, ""); if (sub(/[ \t]*:.*/, "")) crate[++crates] = $1; next }
    FILENAME != "-" { functions[$1] = $2; next }
    { second = $1; sub(/^[0-9]+ /, "") }
    /^rt: [^ ]+ proved$/ { done[$2] = second; proved++ }
    /^rt: [^ ]+ is kept: / { done[$2] = "kept"; kept++ }
    /^rt: must-fail [^ ]+: refused, as it must be/ { split($3, part, "/"); edits[part[1]]++; all_edits++ }
    /^rt: [^ ]+ ran( \(|,)/ { programs++ }
    END {
        if (proved + kept == 0) { print "seconds: no crate is proved in what was read" >"/dev/stderr"; exit 1 }
        row("crate", "functions", "proved at, s", "edits")
        for (i = 1; i <= crates; i++) {
            c = crate[i]
            all_functions += functions[c]
            row(c, functions[c] + 0, c in done ? done[c] : "NOT PROVED", edits[c] + 0)
        }
        row("sum", all_functions, "", all_edits + 0)
        printf "rt ci: %d s; %d crates proved and %d kept; %d runs of programs\n", second, proved, kept, programs
    }' crates.txt <(functions) -
