#!/usr/bin/env python3
"""Brings the project's own names in definitions and proofs to today's spelling, once, behind port.py.

Words are in snake case: 'withBit' becomes 'with_bit', and 'first-met' becomes 'first_met'. Types, modules, functions of
src/, exported C names and strings keep their names, and so do the names that Rattle makes (goals and steps of proofs).
A name is the project's own if a file of definitions or lemmas declares it. A name that the library has too, or that
would fall together with another, is printed and left.

usage: tools/spell.py            says what would be renamed
       tools/spell.py --write    renames, in crates/, README.md and docs/
"""

import collections
import os
import re
import sys

NAME = r"[^\s(){}\[\].,;:«»\"⌜⌝`|]+"
DECLARED = re.compile(r"^\s*(?:abbrev )?(?:unfoldable )?(?:pub )?(?:abbrev )?((?:" + NAME + r" )*" + NAME + r") :(?: |$)")
MADE = re.compile(r": *(?:tie|goal)\.")
RESERVED = {"first_of", "ground", "assumption", "search", "grind", "open", "data", "record", "in", "let"}
# A lemma that would have its function's name, and a field that would have the name of the test of it.
APART = {
    "at-place": "at_place_lem", "content-of": "content_of_lem", "each-pair": "each_pair_lem",
    "entry-text": "entry_text_lem", "field-bytes": "field_bytes_lem", "has-second": "has_second_lem",
    "of-object": "of_object_lem", "only-area": "only_area_lem", "other-owner": "other_owner_lem",
    "pairs-at": "pairs_at_lem", "reached-row": "reached_row_lem", "read-numbers": "read_numbers_lem",
    "recipe-numbers": "recipe_numbers_lem", "relation-in": "relation_in_lem", "sole-owner": "sole_owner_lem",
    "some-member": "some_member_lem", "valid-for": "valid_for_lem", "write-numbers": "write_numbers_lem",
    "step-numbers": "step_numbers_lem", "first-met": "first_met_lem", "bit-and": "bit_and_lem", "bit-or": "bit_or_lem",
    "counts-fit": "each_count_fits", "first-area": "area_is_first", "first-object": "object_is_first",
    "in-range": "is_in_range", "is-record": "is_a_record", "no-own-import": "has_no_own_import",
}
# The same of lemmas that port.py had turned already: the name, and the crate that declares it.
APART_IN = {
    "has_first": "state", "each_member": "state", "some_pair": "state", "met_at": "state", "pair_size": "site_format",
    "row_named": "inspection", "text_at": "label_tables",
}
# what port.py turned in the crates, and not in pages and edits
TURNED_NAMES = """
add-a add-at after-run all-lie all-placed all-read and-both and-left and-right and-self answerOf as-before
as-long at-field at-front at-least at-most at-offset atPlace beq-same bit-not bit-past bit-up bits-at bitsOf
blockAt body-bytes bodyOf both-below both-so by-chain by-code by-entries by-kind by-lawful by-next by-number
by-row by-state byte-at byte-fits byteOf bytes-of bytesOf callOf cell-at cells-same cellsOf chain-by code-at
count-at count-bits count-less count-most count-none count-spec counted-none decimal-injective each-at each-fits
each-goes each-member each-more each-none each-set each-step entries-fit entry-at enum-told even-is fails-both
fields-fit fieldsOf fill-spec filled-more filled-none first-below first-bit first-by first-ended first-found
first-more first-of first-or-none first-under found-first found-from found-none found-number four-bytes from-is
from-one from-row from-zero front-length goes-on half-lt has-access has-first in-table inRow is-false is-set
is-true isByte isChain isEmpty isLast isNumber isSet joined-is kept-more kindOf known-next label-inside
label-small labelOf labels-at laid-more laid-none laid-then layoutOf left-alone length-from lengthAt lineOf
linesOf list-back list-held list-inside list-length list-written listed-by listed-same lists-at look-spec
low-byte mask-is met-at mul-at namedIn next-row no-access no-gap no-line no-longer no-member no-more no-record
none-below none-between none-left none-within none-yet not-first not-lower not-more not-same not-so number-is
number-more number-of numberAt odd-is one-answer one-bit one-block one-less one-more one-of only-one only-zero
or-cases or-left or-right other-length other-row pair-inside pair-same pair-size part-lies parts-more
parts-whole passed-none place-of placeOf put-back put-other put-same put-spec read-back read-first read-next
read-number read-spec readOf record-of related-same row-count row-named row-read rowAt rowsOf run-more run-none
run-sound runBy same-answer same-area same-at same-by same-byte same-bytes same-kind same-length same-name
same-none same-number same-object same-place same-row same-self same-step same-test same-text same-then
same-word set-append-right set-back set-twice size-fits sizeOf small-at so-far some-at some-left some-more
some-of some-pair some-same stateOf step-back step-same step-spec stepOf store-spec stored-other sub-number
table-fits table-more tableOf taken-back test-of text-at textOf to-number to-set too-short tried-open turned-by
turns-more two-bytes two-digits valid-same valueOf walk-first walk-same walked-all walked-more walked-none
with-read word-fits write-known write-spec written-all written-back written-none written-small writtenOf
zero-number
"""


def snake(name):
    name = re.sub(r"(?<=[a-z0-9])([A-Z])", lambda m: "_" + m.group(1).lower(), name) if name[:1].islower() else name
    return name.replace("-", "_")


TURNED = {"getD": "get_or", "getD-tabulate": "get_d_tabulate"} | {n: snake(n) for n in TURNED_NAMES.split()}
# variables
TURNED |= {"atHand": "at_hand", "reachedNow": "reached_now"}
TURNED_HUMPED = {n: v for n, v in TURNED.items() if "-" not in n and n != "getD"}


def files(root, endings):
    for folder, dirs, names in os.walk(root):
        dirs[:] = sorted(d for d in dirs if d not in ("out", ".git", "target"))
        for name in sorted(names):
            if name.endswith(endings):
                yield os.path.join(folder, name)


def read(path):
    with open(path, encoding="utf-8") as f:
        return f.read()


def declared(root):
    own, made, imported = collections.Counter(), set(), set()
    for path in files(os.path.join(root, "crates"), (".antt",)):
        for line in read(path).splitlines():
            if line.lstrip().startswith("--"):
                continue
            use = re.match(r"\s*use ([^.{\s]+)\S*\.\{(.*)\}", line)
            if use:
                if not os.path.isdir(os.path.join(root, "crates", use.group(0).split(".")[1] if use.group(1) == "Rattle" else "-")):
                    imported |= {w.strip().split(" as ")[0] for w in use.group(2).split(",")}
                continue
            it = DECLARED.match(line)
            if it:
                for name in it.group(1).split():
                    if MADE.search(line):
                        made.add(name)
                    else:
                        own[name] += 1
    return own, made, imported


def plan(root):
    own, made, imported = declared(root)
    to, left = {}, []
    for name in sorted(own):
        new = snake(name)
        if new == name or not name[:1].islower() and "-" not in name:
            continue
        if name in APART:
            to[name] = APART[name]
        elif name in imported or new in imported or new in RESERVED:
            left.append((name, new, "the library's"))
        else:
            to[name] = new
    return to, left, made


def rewrite(text, to):
    return re.sub(NAME, lambda m: to.get(m.group(0), m.group(0)), text)


def code(path, text, to, made):
    """A file of code: goals and steps keep the names that Rattle makes."""
    here = {n: v for n, v in to.items() if not (path.endswith("Proof.antt") and n in made and "-" in n)}
    here = TURNED_HUMPED | here
    return rewrite(text, here)


def lemmas_apart(path, text, root):
    """Lemmas that port.py had turned: where their crate declares them, and where a file imports them from there."""
    crate = os.path.relpath(path, os.path.join(root, "crates")).split(os.sep)[0]
    for name, home in APART_IN.items():
        declares = crate == home and re.search(r"(?m)^\s*pub " + name + " :|^" + name + " :", text)
        imports = re.search(r"(?m)^use Rattle\." + home + r"\.proofs\.\w+\.\{[^}]*(?<![\w-])" + name + r"(?![\w-])", text)
        if declares or imports:
            text = re.sub(r"(?<![\w.\u2019'-])" + name + r"(?![\w'-])", name + "_lem", text)
    return text


def page(text, to):
    """A page: names in back quotes."""
    return re.sub(r"`[^`\n]+`", lambda m: rewrite(m.group(0), to), text)


def main():
    root = os.path.join(os.path.dirname(os.path.abspath(__file__)), "..")
    to, left, made = plan(root)
    for name, new, why in left:
        print(f"left: {name} ({new}): {why}")
    print(f"{len(to)} names")
    if "--write" not in sys.argv:
        return
    for path in files(os.path.join(root, "crates"), (".antt", ".rt", ".edit")):
        text = read(path)
        if path.endswith(".antt"):
            new = lemmas_apart(path, text, root)
            new = code(path, new, to, made)
        else:
            new = code(path, text, to | TURNED if path.endswith(".edit") else to, made)
        if new != text:
            with open(path, "w", encoding="utf-8") as f:
                f.write(new)
    pages = [os.path.join(root, "README.md")] + list(files(os.path.join(root, "docs"), (".md",)))
    for path in pages:
        text = read(path)
        new = page(text, to | TURNED)
        if new != text:
            with open(path, "w", encoding="utf-8") as f:
                f.write(new)


if __name__ == "__main__":
    main()
