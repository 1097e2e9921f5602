#!/usr/bin/env bash
# The library as its callers meet it: a C program against the archive, an installed copy and a shared object; the
# version, wherever it stands; the programs of README.md; the examples in C and Rust; the tests of the Rust package. It
# takes target/lib/libpanelrights.a as `make lib` left it.
set -euo pipefail
cd "$(dirname "$0")/.."
unset PANELRIGHTS_LIB_DIR
export CARGO_TARGET_DIR=target/cargo
library=target/lib/libpanelrights.a
work=$(mktemp -d)
trap 'rm -rf "$work"' EXIT
runs=0 # of the examples

fail() {
    echo "interface: $*" >&2
    exit 1
}

# Runs a command that should succeed, and shows what it printed only if it does not.
quietly() {
    "$@" >"$work/log" 2>&1 || { cat "$work/log" >&2; fail "failed: $*"; }
}

compile_c() {
    quietly gcc -std=c99 -O2 -Wall -Wextra -Werror -pedantic "$@"
}

checks=(tests/interface/{main,names,machine,recipes,forms,agreement,lending,explaining,reasons,records,reading}.c
    tests/interface/{files,writing,blocks,edges,check}.c)

# The C checks, built with the flags given to the compiler; prints how many there were.
run_checks() {
    compile_c "${checks[@]}" "$@" -o "$work/checks"
    "$work/checks" || fail "the checks in C fail (built with $*)"
}

# The numbers of the list that a definition gives this name, one a line.
numbers_of() {
    sed -n "s/^$1 = //p" "$2" | grep -oE '[0-9]+' || fail "$2 does not say $1"
}

# Puts a block of README.md in this language into a file, and what stands from there to the next block into another: the
# first block, or the first behind a heading.
take_readme() {
    awk -v fence="\`\`\`$1" -v block="$2" -v behind="$3" -v heading="${4-}" '
        $0 ~ "^## " heading { found = 1 }
        place == 0 && found && $0 == fence { place = 1; next }
        place == 1 && $0 == "```" { place = 2; next }
        place == 2 && /^```/ { exit }
        place == 1 { print >block }
        place == 2 { print >behind }' README.md
    [ -s "$2" ] || fail "README.md has no block in the language $1"
}

# The program must end with the status, print what the file has, and write the complaint, if any, to standard error.
expect() {
    local status=$1 expected=$2 complaint=$3 ended=0
    shift 3
    runs=$((runs + 1))
    "$@" >"$work/printed" 2>"$work/complaint" || ended=$?
    [ "$ended" = "$status" ] || fail "$*: it ended with $ended and not with $status"
    cmp "$work/printed" "$expected" || fail "$*: it printed something else"
    [ "$(cat "$work/complaint")" = "$complaint" ] || fail "$*: it complained: $(cat "$work/complaint")"
}

# What is no argument for a number from 0 to 255.
wrong_numbers=(256 1000000000000000000000 -1 +1 '' ' 1' 1/ 1: 0x1)

# The bytes that a text has in hexadecimal, with remarks behind '#'.
bytes_of() {
    printf '%b' "$(sed 's/#.*//; s/[0-9a-f][0-9a-f]/\\x&/g' "$1" | tr -d ' \n')"
}

# The school's site file with other bytes from a place on, as $work/changed.site.
change_school() {
    local place=$1
    shift
    cp examples/school.site "$work/changed.site"
    printf '%b' "$(printf '\\x%s' "$@")" | dd of="$work/changed.site" bs=1 seek="$place" conv=notrunc status=none
}

# The programs of this name, in C and in Rust, end with the status and print the same, which is then $work/expected.
expect_same() {
    local status=$1 program=target/examples/$2 ended=0
    shift 2
    runs=$((runs + 1))
    "$program-rust" "$@" >"$work/expected" || ended=$?
    [ "$ended" = "$status" ] || fail "$program-rust $*: it ended with $ended and not with $status"
    expect "$status" "$work/expected" '' "$program-c" "$@"
}

# The programs of this name, in C and in Rust, refuse in the same words, one line of which is as the pattern says.
expect_refusal() {
    local pattern=$1
    shift
    expect_same 1 "$@"
    grep -qx "$pattern" "$work/expected" || fail "$*: it printed $(cat "$work/expected")"
}

# The handover program with --change and an input, on a copy of the school's site file: status, output and complaint as
# above, the site file is then that of the name in $work, and nothing stands beside it.
expect_change() {
    local name=$1 input=$2 program=$6 left
    cp examples/school.site "$work/kept.site"
    expect "$3" "$4" "$5" "$program" --change "$work/kept.site" <"$input"
    cmp "$work/kept.site" "$work/$name.site" || fail "$program --change <$input: the file is not that of $name.site"
    left=("$work"/kept.site*)
    [ ${#left[@]} = 1 ] || fail "$program --change <$input: the new file is left"
}

# Both programs refuse the line with this number in the same words, and the school's site file stays.
expect_refused_line() {
    local program
    printf '%s\n' "$2" >"$work/line.in"
    cp examples/school.site "$work/kept.site"
    target/examples/handover-rust --change "$work/kept.site" <"$work/line.in" >"$work/expected" || true
    grep -qx "Refused as $1\. At line 1: [A-Z].*\. Nothing was changed\." "$work/expected" ||
        fail "the line '$2' is not refused as $1: $(cat "$work/expected")"
    for program in target/examples/handover-{c,rust}; do
        expect_change school "$work/line.in" 1 "$work/expected" '' "$program"
    done
}

[ -f "$library" ] || fail "$library is not there: run make lib"

# The archive has the header's functions and no other name, asks for memcpy and memset, and has nothing that can be
# written to.
declared=$(grep -o 'panelrights_[a-z_]*(' include/panelrights.h | tr -d '(' | sort -u)
defined=$(nm -g --defined-only "$library" | awk 'NF == 3 { print $3 }' | sort)
[ "$defined" = "$declared" ] || fail 'the archive has other names than the header'
asked=$(nm -g --undefined-only "$library" | awk 'NF == 2 && $2 !~ /^mem(cpy|set)$/ { print $2 }')
[ -z "$asked" ] || fail "the archive asks for $asked"
[ -z "$(nm "$library" | awk '$2 ~ /^[bBcCdDsS]$/')" ] || fail 'the archive has data that can be written to'

# The lowest mark is found by one look-up: no jump, no call, and one load from an address that the byte decides. A load
# from a fixed address has nothing but %rip, %rsp or %rbp in it, and lea loads nothing.
look_up=$(objdump -d --no-show-raw-insn --disassemble=panelrights_lowest_mark "$library" |
    sed -n '/<panelrights_lowest_mark>:$/,/^$/p')
loads=$(grep -vE '\slea\s|\(%r(ip|sp|bp)\),' <<<"$look_up" | grep -c '),' || true)
[ "$loads" = 1 ] || fail "the lowest mark takes $loads loads from an address that the byte decides"
! grep -qE '\s(j|call|loop)[a-z]*\s' <<<"$look_up" || fail 'the lowest mark takes a jump or a call'

# Each name that the header gives a number is compared with its number.
numbered=$(grep -oE 'PANELRIGHTS_[A-Z_]+ = ' include/panelrights.h | sed 's/ = //' | sort)
compared=$(sed -nE 's/^ *CHECK_NUMBER\((PANELRIGHTS_[A-Z_]+), [0-9]+\);$/\1/p' tests/interface/names.c | sort)
[ "$numbered" = "$compared" ] || fail 'tests/interface/names.c has other names than the header gives a number'

# The refusals of the header and of the Rust package are the numbers that the claims allow: those of a step, which its
# explanation has too, of a recipe, of an access question and its explanation, and of a file that is read or written;
# and 31 of a state's buffer. The lists have numbers in common.
refusals=$(sed -n '/^enum panelrights_refusal {/,/^};/s/.* = \([0-9]*\).*/\1/p' include/panelrights.h | sort -n)
allowed=$({
    printf '0\n31\n'
    numbers_of further_numbers crates/refusals/specs/Refusals.antt
    numbers_of step_numbers crates/refusals/specs/Refusals.antt
    numbers_of recipe_numbers crates/recipe_guarantees/specs/Claims.antt
    numbers_of question_numbers crates/machine/specs/Step.antt
    numbers_of explain_numbers crates/reasons/specs/Explanation.antt
    numbers_of read_numbers crates/site_file/specs/Reading.antt
    numbers_of write_numbers crates/site_encoding/specs/Writer.antt
} | sort -un)
lists='step_numbers, recipe_numbers, question_numbers, explain_numbers, read_numbers and write_numbers'
[ "$refusals" = "$allowed" ] || fail "the header has other refusals than $lists"
packaged=$({ echo 0; sed -nE 's/^    [A-Za-z]+ = ([0-9]+): ".*/\1/p' bindings/rust/src/refusal.rs; } | sort -n)
[ "$packaged" = "$allowed" ] || fail "the Rust package has other refusals than $lists"

# The limit of steps is that of the definition, in the header and in the Rust package.
longest=$(sed -n 's/^longest = //p' crates/access/specs/Answer.antt)
[ -n "$longest" ] || fail 'crates/access/specs/Answer.antt does not say the limit of steps'
grep -qE "^ *PANELRIGHTS_MOST_STEPS = $longest," include/panelrights.h ||
    fail "the header's limit of steps is not $longest"
grep -qxF "pub const MOST_STEPS: u8 = $longest;" bindings/rust/src/state.rs ||
    fail "the Rust package's limit of steps is not $longest"

# So is the length of the longest site file; the Rust package's number has an underscore in it.
most=$(sed -n 's/^most_bytes = //p' crates/site_encoding/specs/Claims.antt)
[ -n "$most" ] || fail 'crates/site_encoding/specs/Claims.antt does not say the length of the longest file'
grep -qE "^ *PANELRIGHTS_FILE_MOST = $most," include/panelrights.h ||
    fail "the header's longest file is not of $most bytes"
packaged=$(sed -n 's/^pub const FILE_MOST: usize = \([0-9_]*\);$/\1/p' bindings/rust/src/sys.rs | tr -d _)
[ "$packaged" = "$most" ] || fail "the Rust package's longest file is not of $most bytes"

# And the length of a buffer for an explanation.
least=$(sed -n 's/^explain_refusals .*ltb (length buffer) \([0-9]*\)).*/\1/p' crates/reasons/specs/Explanation.antt)
[ -n "$least" ] || fail 'crates/reasons/specs/Explanation.antt does not say how long a buffer must be'
grep -qE "^ *PANELRIGHTS_EXPLAIN_BYTES = $least\b" include/panelrights.h ||
    fail "the header's buffer for an explanation is not of $least bytes"
grep -qxF "pub const EXPLAIN_BYTES: usize = $least;" bindings/rust/src/sys.rs ||
    fail "the Rust package's buffer for an explanation is not of $least bytes"

printed=$(run_checks -Iinclude "$library")
quietly g++ -std=c++11 -Wall -Wextra -Werror -pedantic -Iinclude tests/interface/header.cc "$library" -o "$work/header"
quietly "$work/header"
compile_c -pthread -Iinclude tests/interface/{stack,files,lending,check}.c "$library" -o "$work/stack"
stack=$("$work/stack") || fail "the stack of a call: $stack"
echo "interface: $printed in C; the header in C++; $stack"

quietly make -o lib install PREFIX="$work/usr"
quietly make -o lib install PREFIX=/opt/site DESTDIR="$work/staged"
version=$(cat VERSION)
for place in "$work/usr" "$work/staged/opt/site"; do
    cmp include/panelrights.h "$place/include/panelrights.h" || fail 'the header is not installed'
    cmp "$library" "$place/lib/libpanelrights.a" || fail 'the library is not installed'
    grep -qxF "Version: $version" "$place/lib/pkgconfig/panelrights.pc" || fail "panelrights.pc is not of $version"
done
grep -qx 'prefix=/opt/site' "$work/staged/opt/site/lib/pkgconfig/panelrights.pc" ||
    fail 'panelrights.pc names another prefix'
flags=("-I$work/usr/include" "-L$work/usr/lib" -lpanelrights)
if command -v pkg-config >"$work/log"; then
    export PKG_CONFIG_PATH=$work/usr/lib/pkgconfig
    read -ra flags < <(pkg-config --cflags --libs panelrights)
    [ "$(pkg-config --modversion panelrights)" = "$version" ] || fail "pkg-config does not say $version"
else
    echo 'interface: pkg-config is not here, so its file is not tried'
fi
installed=$(run_checks "${flags[@]}")

# README.md's first use in C, built as README.md says, prints what stands behind it; its first use in Rust is called.
take_readme c "$work/first.c" "$work/behind"
# shellcheck disable=SC2016 # the backquotes are README.md's
said=$(sed -n '/prints `/{s/.*prints `\([^`]*\)`.*/\1/p;q}' "$work/behind")
[ -n "$said" ] || fail 'README.md does not say what its program in C prints'
compile_c "$work/first.c" "${flags[@]}" -o "$work/first"
printed=$("$work/first") || fail "README.md's program in C fails"
[ "$printed" = "$said" ] || fail "README.md's program in C prints '$printed', and not '$said'"
# Its recipe is obeyed where there is a building 7, and refused as 4 at place 2 where there is none.
take_readme c "$work/recipe.h" "$work/behind" Recipes
printf '%s\n' '#include <panelrights.h>' 'static uint8_t site[PANELRIGHTS_STATE_BYTES];' \
    'static uint16_t obey(uint8_t user, uint8_t panel) {' '#include "recipe.h"' 'return answer; }' 'int main(void) {' \
    'panelrights_founding(site, sizeof site);' 'if (obey(0, 3) != 2 * 256 + 4) return 1;' \
    'panelrights_step(site, sizeof site, PANELRIGHTS_LIST_AREA, 0, 7, 0);' 'return obey(0, 3) != 0; }' >"$work/recipe.c"
compile_c "$work/recipe.c" "${flags[@]}" -o "$work/recipe"
"$work/recipe" || fail "README.md's recipe is not obeyed"
# Its saving gives the bytes of the file that was read, and 30 once area 3, which has a label, is unlisted.
take_readme c "$work/saving.h" "$work/behind" Saving
printf '%s\n' '#include <panelrights.h>' '#include <stdio.h>' '#include <string.h>' \
    'static uint8_t site[PANELRIGHTS_STATE_BYTES], old[65536];' 'static size_t old_len;' \
    'static uint32_t save(void) {' '#include "saving.h"' 'return memcmp(file, old, old_len) ? 0 : length; }' \
    'int main(void) {' 'old_len = fread(old, 1, sizeof old, stdin);' \
    'panelrights_read_file(old, old_len, site, sizeof site);' 'if (save() != old_len) return 1;' \
    'panelrights_step(site, sizeof site, 6, 3, 3, 2);' 'panelrights_step(site, sizeof site, 2, 3, 3, 0);' \
    'return save() != PANELRIGHTS_WRITE_REFUSED + PANELRIGHTS_LABEL_BLOCK; }' >"$work/saving.c"
compile_c "$work/saving.c" "${flags[@]}" -o "$work/saving"
"$work/saving" <examples/school.site || fail "README.md's saving in C does not write what it says"
# Its question is answered by the chain for panel 2 of the school, and by the counts for loop 2; the hall is in the way.
take_readme c "$work/why.h" "$work/behind" Why
printf '%s\n' '#include <panelrights.h>' '#include <stdio.h>' \
    'static uint8_t site[PANELRIGHTS_STATE_BYTES], file[65536];' 'static void why(uint8_t area) {' \
    '#include "why.h"' '}' 'int main(void) {' \
    'panelrights_read_file(file, fread(file, 1, sizeof file, stdin), site, sizeof site);' \
    'why(5); why(3); return 0; }' >"$work/why.c"
compile_c "$work/why.c" "${flags[@]}" -o "$work/why"
{
    printf 'area %d\n' 2 1 0 4 5
    echo 'area 4 imports table 9'
    printf 'area %d: %d\n' 0 2 1 1 2 0 3 255 4 3 5 4 6 255 7 2 8 4
    for ((area = 9; area < 32; area++)); do echo "area $area: 255"; done
    echo 'area 4 imports table 9'
} >"$work/why.out"
"$work/why" <examples/school.site | cmp - "$work/why.out" || fail "README.md's why in C prints something else"
take_readme rust "$work/lend.rs" "$work/behind"
mkdir -p "$work/readme/src/bin"
printf '%s\n' '#![deny(warnings)]' "$(cat "$work/lend.rs")" \
    'fn main() { assert_eq!(lend(&[]), Err(Refusal::FileTooShort)); }' >"$work/readme/src/main.rs"
printf '%s\n' '[package]' 'name = "readme"' 'edition = "2021"' '[dependencies]' \
    "panelrights = { path = \"$PWD/bindings/rust\" }" '[workspace]' >"$work/readme/Cargo.toml"
quietly cargo run --quiet --offline --manifest-path "$work/readme/Cargo.toml" --bin readme
# Its saving in Rust, once for each line of the school's change, gives the file that is stored as text.
bytes_of examples/changed.txt >"$work/saved.site"
take_readme rust "$work/saving.rs" "$work/behind" Saving
printf '%s\n' '#![deny(warnings)]' "$(cat "$work/saving.rs")" 'fn main() {' \
    'let [school, lines, saved] = [1, 2, 3].map(|n| std::fs::read(std::env::args().nth(n).unwrap()).unwrap());' \
    'let numbers = |line: &str| -> Vec<u8> { line.split(" ").map(|word| word.parse().unwrap()).collect() };' \
    'let instruction = |line: &str| <[u8; 4]>::try_from(numbers(line)).unwrap().into();' \
    'let lines = String::from_utf8(lines).unwrap();' \
    'let file = lines.lines().try_fold(school, |file, line| changed(&file, instruction(line)));' \
    'assert_eq!(file, Ok(saved)); }' >"$work/readme/src/bin/saving.rs"
quietly cargo run --quiet --offline --manifest-path "$work/readme/Cargo.toml" --bin saving \
    examples/school.site examples/change.in "$work/saved.site"
# Its words in Rust are those of the examples; for what is accepted there are none.
take_readme rust "$work/why.rs" "$work/behind" Why
printf '%s\n' '#![deny(warnings)]' "$(cat "$work/why.rs")" 'fn main() {' \
    'let [school, chain, far, cut] = [1, 2, 3, 4].map(|n| std::fs::read(std::env::args().nth(n).unwrap()).unwrap());' \
    'let (site, labels) = (panelrights::read_file(&school).unwrap(), panelrights::labels(&school).unwrap());' \
    'let line = |words: String| (words + "\n").into_bytes();' \
    'assert_eq!(why(&site, &labels, 5, 9).map(line), Ok(chain));' \
    'assert_eq!(why(&site, &labels, 3, 9).map(line), Ok(far));' \
    'assert_eq!(why(&site, &labels, 9, 9), Err(Refusal::NotListed));' \
    'let last = |words: String| line(words.rsplit(". ").next().unwrap().into());' \
    'let named = cut.split_inclusive(|&byte| byte == 10).last().unwrap();' \
    'assert_eq!(why_refused(&site, &labels, [12, 0, 1, 9].into()).map(last).as_deref(), Some(named));' \
    'assert_eq!(why_refused(&site, &labels, [1, 0, 9, 0].into()), None); }' >"$work/readme/src/bin/why.rs"
quietly cargo run --quiet --offline --manifest-path "$work/readme/Cargo.toml" --bin why \
    examples/{school.site,why-chain.out,why-no-access.out,change-refused.out}
echo "interface: README.md's program in C prints '$said', and its recipe is obeyed; its function in Rust is called;" \
    'its saving writes the school again in C, and the changed school in Rust; its why explains the school in both'

mkdir "$work/shared"
quietly gcc -shared -Wl,-z,defs -Wl,--whole-archive "$library" -Wl,--no-whole-archive \
    -o "$work/shared/libpanelrights.so"
shared=$(run_checks -Iinclude -L"$work/shared" -Wl,-rpath,"$work/shared" -lpanelrights)
echo "interface: $installed against the installed copy, $shared against a shared object"

# The Rust package has the same version, also where it is locked.
manifests=(bindings/rust/Cargo.toml
    {bindings/rust,examples/{handover,opening}-rust,bench,tests/differential}/Cargo.lock)
for manifest in "${manifests[@]}"; do
    line=$(sed -n '/^name = "panelrights"$/{n;p}' "$manifest")
    [ "$line" = "version = \"$version\"" ] || fail "$manifest: the package is not of $version"
done
echo "interface: version $version in the installed panelrights.pc and in ${#manifests[@]} manifests"

bytes_of examples/school.txt | cmp - examples/school.site || fail "examples/school.txt has other bytes than school.site"
change_school 63 03
cmp "$work/changed.site" examples/damaged.site || fail "examples/damaged.site is not what README.md there says"
quietly make -o lib examples CFLAGS='-std=c99 -O2 -Wall -Wextra -Werror -pedantic'
usage='usage: handover [--change | --why AREA TABLE] FILE, numbers from 0 to 255'
for program in target/examples/handover-c target/examples/handover-rust; do
    expect 0 examples/school.out '' "$program" examples/school.site
    expect 1 examples/damaged.out '' "$program" examples/damaged.site
    expect 2 /dev/null "$usage" "$program"
    expect 2 /dev/null "$usage" "$program" examples/school.site examples/school.site
    expect 2 /dev/null "handover: the file can't be read" "$program" "$work/nowhere"
    expect 2 /dev/null "handover: the file can't be read" "$program" "$work"
    # shellcheck disable=SC2016 # the inner shell fills in its own arguments
    expect 2 /dev/null "handover: the output can't be written" \
        sh -c '"$1" examples/school.site >/dev/full' sh "$program"
done
head -c 27 examples/school.site >"$work/changed.site"
expect_refusal 'Refused as 21\. [A-Z].*\.' handover "$work/changed.site"
# Version 0; a byte too many; 65 definitions; owners at 29; area 32; a pair twice; a label for an unlisted area; the
# hall in loop 2; panel 2 and not the head office as a borrower, of panel 2's own table.
for change in '22 0 00' '23 344 00' '24 6 41' '25 16 1d' '26 29 20' '27 31 00' '28 312 09' '29 63 03' '29 78 14 05'; do
    read -ra parts <<<"$change"
    change_school "${parts[@]:1}"
    expect_refusal "Refused as ${parts[0]}\. [A-Z].*\." handover "$work/changed.site"
done

cp examples/school.site "$work/school.site"
# A site of area 1 alone, which user 3 owns, and no labels; and what is printed once he has listed area 2.
printf '\1\0\36\0\1\0\0\0\0\0\0\0\0\0\0\0\34\0\36\0\36\0\36\0\36\0\36\0\3\1' >"$work/lone.site"
printf '%s\n' Areas '  area 1' '  area 2' '' 'Who may change what' '  user 3 may change area 1' \
    '  user 3 may change area 2' '' 'Who sees which table' >"$work/two.out"
# An owner added and removed, 4,096 times: 65,536 bytes. And a byte more.
for ((pair = 0; pair < 4096; pair++)); do printf '3 0 0 4\n4 0 0 4\n'; done >"$work/most.in"
{ cat "$work/most.in" && echo; } >"$work/above.in"
# The last line has no end; a refused line in front of an unreadable one; a line with a byte 0.
printf '1 0 9 0\n1 0 10 0' >"$work/open.in"
printf '1 0 9 0\n1 0 9 0\n\n' >"$work/both.in"
printf '1 0 9 0\n1 0 10 0\0\n' >"$work/zero.in"
refused='Refused as 6. At line 2: It is there already, so there is nothing to add. For a new area or table choose a'
echo "$refused number that is free. Nothing was changed." >"$work/both.out"
for program in target/examples/handover-{c,rust}; do
    expect_change saved examples/change.in 0 examples/changed.out '' "$program"
    expect_change school /dev/null 0 examples/school.out '' "$program"
    expect_change school "$work/most.in" 0 examples/school.out '' "$program"
    expect_change school "$work/above.in" 2 /dev/null 'handover: the instructions are too long' "$program"
    expect_change school "$work" 2 /dev/null "handover: the instructions can't be read" "$program"
    expect_change school examples/change-refused.in 1 examples/change-refused.out '' "$program"
    expect_change school "$work/both.in" 1 "$work/both.out" '' "$program"
    for input in examples/change-unreadable.in "$work/open.in" "$work/zero.in"; do
        expect_change school "$input" 1 examples/change-unreadable.out '' "$program"
    done
    cp "$work/lone.site" "$work/two.site"
    expect 0 "$work/two.out" '' "$program" --change "$work/two.site" <<<'1 3 2 0'
    expect 0 "$work/two.out" '' "$program" "$work/two.site"
    # What an earlier run left there is written over.
    cat examples/school.site examples/school.site >"$work/kept.site.new"
    expect_change saved examples/change.in 0 examples/changed.out '' "$program"
    # A disk that is full, one that keeps nothing, and a folder in the way, which is not removed.
    for disk in /dev/full /dev/null; do
        ln -s "$disk" "$work/kept.site.new"
        expect_change school examples/change.in 2 /dev/null "handover: the file can't be written" "$program"
    done
    mkdir "$work/school.site.new"
    expect 2 /dev/null "handover: the file can't be written" "$program" --change "$work/school.site" <examples/change.in
    rmdir "$work/school.site.new"
    cp examples/damaged.site "$work/damaged.site"
    expect 1 examples/damaged.out '' "$program" --change "$work/damaged.site" <examples/change.in
    cmp "$work/damaged.site" examples/damaged.site || fail "$program --change: it writes over a file that is refused"
    expect 2 /dev/null "handover: the file can't be read" "$program" --change "$work/nowhere" <examples/change.in
    expect 2 /dev/null "$usage" "$program" --change <examples/change.in
    expect 2 /dev/null "$usage" "$program" --change "$work/school.site" "$work/school.site" <examples/change.in
    expect 2 /dev/null "$usage" "$program" "$work/school.site" --change <examples/change.in
    # The file is saved before anything is printed.
    cp examples/school.site "$work/kept.site"
    # shellcheck disable=SC2016 # the inner shell fills in its own arguments
    expect 2 /dev/null "handover: the output can't be written" \
        sh -c '"$1" --change "$2" <examples/change.in >/dev/full' sh "$program" "$work/kept.site"
    cmp "$work/kept.site" "$work/saved.site" || fail "$program --change: the file is not saved"
    cmp "$work/school.site" examples/school.site || fail "$program --change: it writes where it should not"
done
# Who would lose what by a line: area 3, no longer loop 2, imports table 9, which the hall lends to the club around it;
# and panel 2 exports table 20, which is stored there.
{ cat examples/change.in && echo '12 0 4 9'; } >"$work/cut.in"
{ sed -n '1s/line 3/line 8/p' examples/change-refused.out
  echo 'Area 3 borrows table 9 and would no longer have access to it.'; } >"$work/cut.out"
echo '8 3 5 20' >"$work/stored.in"
{ sed -n '1s/line 3/line 1/p' examples/change-refused.out
  echo "Area 5 'Panel 2' lends table 20 and would no longer have access to it."; } >"$work/stored.out"
for program in target/examples/handover-{c,rust}; do
    expect_change school "$work/cut.in" 1 "$work/cut.out" '' "$program"
    expect_change school "$work/stored.in" 1 "$work/stored.out" '' "$program"
done
# Each number that a line can be refused with.
while read -r number line; do
    expect_refused_line "$number" "$line"
done <<END
1 0 0 0 0
1 255 255 255 255
2 7 0 0 64
3 1 1 9 0
4 7 0 9 30
5 7 5 1 30
6 1 0 4 0
7 10 0 1 9
8 4 0 1 0
9 2 3 3 0
10 9 3 3 20
11 12 0 1 9
15 9 3 2 9
END
for line in '' 1 '1 0 9' '1 0 9 0 0' ' 1 0 9 0' '1 0 9 0 ' '1  0 9 0' '01 0 9 0' '1 00 9 0' '256 0 9 0' '1 0 9 1000' \
    '-1 0 9 0' '+1 0 9 0' $'1\t0 9 0' $'1 0 9 0\r' '1 0 9 x' '1,0,9,0' $'1 0 9 \xff'; do
    expect_refused_line 13 "$line"
done

# Why an area sees a table, or why not. In the changed site the school and the main house lie in each other, and the
# school imports table 9.
cp examples/school.site "$work/ring.site"
printf '5 0 0 1\n9 0 0 9\n' | target/examples/handover-c --change "$work/ring.site" >"$work/log"
printf '%s\n' "Area 0 'School' sees table 9 over 2 steps." "The table is stored on area 2 'Panel 1'." \
    "Area 2 'Panel 1' lies in area 1 'Main house' and lends it the table." \
    "Area 1 'Main house' lends the table to area 0 'School', which also borrows it: each lies in the other." \
    >"$work/ring.out"
for program in target/examples/handover-{c,rust}; do
    while read -r area table name; do
        expect 0 "examples/why-$name.out" '' "$program" --why "$area" "$table" examples/school.site
    done <<<$'5 9 chain\n2 9 definer\n3 9 no-access\n0 0 nobody-else\n005 0009 chain'
    while read -r area table name; do
        expect 1 "examples/why-$name.out" '' "$program" --why "$area" "$table" examples/school.site
    done <<<$'9 9 not-listed\n4 30 not-listed\n32 9 out-of-range\n4 64 out-of-range\n255 30 out-of-range'
    expect 0 "$work/ring.out" '' "$program" --why 0 9 "$work/ring.site"
    expect 1 examples/damaged.out '' "$program" --why 5 9 examples/damaged.site
    expect 2 /dev/null "$usage" "$program" --why
    expect 2 /dev/null "$usage" "$program" --why 5 9
    expect 2 /dev/null "$usage" "$program" --why 5 examples/school.site
    expect 2 /dev/null "$usage" "$program" --why examples/school.site 5 9
    expect 2 /dev/null "$usage" "$program" --why 5 9 examples/school.site examples/school.site
    expect 2 /dev/null "$usage" "$program" --change --why 5 9 examples/school.site
    for wrong in "${wrong_numbers[@]}"; do
        expect 2 /dev/null "$usage" "$program" --why "$wrong" 9 examples/school.site
        expect 2 /dev/null "$usage" "$program" --why 5 "$wrong" examples/school.site
    done
    expect 2 /dev/null "handover: the file can't be read" "$program" --why 5 9 "$work/nowhere"
    # shellcheck disable=SC2016 # the inner shell fills in its own arguments
    expect 2 /dev/null "handover: the output can't be written" \
        sh -c '"$1" --why 5 9 examples/school.site >/dev/full' sh "$program"
done
for area in {0..8}; do
    for table in 0 9 20; do expect_same 0 handover --why "$area" "$table" examples/school.site; done
done

usage='usage: opening FILE ACTIVATOR SCHOOL HALL KEYHOLDER TABLE, numbers from 0 to 255'
for program in target/examples/opening-c target/examples/opening-rust; do
    expect 0 examples/opening-accepted.out '' "$program" examples/school.site 0 9 10 14 30
    expect 0 examples/opening-accepted.out '' "$program" examples/school.site 00 009 0000010 14 30
    expect 1 examples/opening-refused-at-1.out '' "$program" examples/school.site 0 32 10 14 30
    expect 1 examples/opening-refused-at-4.out '' "$program" examples/school.site 0 9 10 14 20
    expect 1 examples/opening-refused-at-6.out '' "$program" examples/school.site 5 9 10 14 30
    expect 1 examples/damaged.out '' "$program" examples/damaged.site 0 9 10 14 30
    expect 2 /dev/null "$usage" "$program"
    expect 2 /dev/null "$usage" "$program" examples/school.site 0 9 10 14
    expect 2 /dev/null "$usage" "$program" examples/school.site 0 9 10 14 30 30
    for wrong in "${wrong_numbers[@]}"; do
        expect 2 /dev/null "$usage" "$program" examples/school.site "$wrong" 9 10 14 30
        expect 2 /dev/null "$usage" "$program" examples/school.site 0 9 10 14 "$wrong"
    done
    expect 2 /dev/null "opening: the file can't be read" "$program" "$work/nowhere" 0 9 10 14 30
    # shellcheck disable=SC2016 # the inner shell fills in its own arguments
    expect 2 /dev/null "opening: the output can't be written" \
        sh -c '"$1" examples/school.site 0 9 10 14 30 >/dev/full' sh "$program"
done
# Each place and number that an opening can be refused with, and a call that is; the stored ones have the others.
while read -r place number call; do
    read -ra parts <<<"$call"
    expect_refusal "Refused as $number\. At instruction $place of the recipe: [A-Z].*\. Nothing was changed\." \
        opening "${parts[@]}"
done <<END
1 2 examples/school.site 32 9 10 14 30
1 3 examples/school.site 1 9 10 14 30
1 6 examples/school.site 0 4 10 14 30
2 2 examples/school.site 0 9 255 14 30
2 6 examples/school.site 0 9 9 14 30
4 2 examples/school.site 0 9 10 14 64
6 4 $work/lone.site 3 9 10 14 30
8 2 examples/school.site 0 9 10 32 30
8 6 examples/school.site 0 9 10 0 30
END
echo "interface: $runs runs of the examples, which in C and in Rust print what is stored for the school, for its" \
    'change, for what its keyholders ask and for openings, save the same bytes, and have the same words for each' \
    'refusal of a file, of a line, of a question or of an opening'

PANELRIGHTS_LIB_DIR=$work/usr/lib quietly cargo test --quiet --locked --manifest-path bindings/rust/Cargo.toml
passed=$(awk '/^test result: ok/ { passed += $4 } END { print passed + 0 }' "$work/log")
[ "$passed" -gt 0 ] || fail 'no test of the Rust package was run'
echo "interface: $passed tests of the Rust package, with the installed copy"
