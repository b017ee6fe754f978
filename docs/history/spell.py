#!/usr/bin/env python3
"""Turns the names of this repository's own definitions, lemmas, ghost members and proof helpers to snake case, and the
crate hex, whose name a library of the kit has, to hexadecimal.

usage: spell.py [--check]        at the top of the repository, once, right after the kit's port.py

Words of Rust code, strings, file names and must-fail edits stay. A word of a comment turns only where it is written in
camel case. A name that a file takes from the kit's library stays as the library spells it.
"""
import os
import re
import sys

WORD = r"[^\s(){}.;,@\"«»:`]+"
DECLARED = re.compile(r"^\s*(?:(?:abbrev|unfoldable|irreducible|pub)\s+)*(" + WORD + r")\s*:(?!:)\s*(.*)")
TYPE = re.compile(r"^\s*(?:pub\s+)?(?:record|data)\s+(?:pub\s+)?(" + WORD + ")")
GHOST = re.compile(r"ghost\s+(" + WORD + r")\s*:")
ANSWERS = ("Answers.antt", "Choices.antt", "Invariants.antt", "Proof.antt")
PIECE = re.compile(r'"(?:[^"\\\n]|\\.)*"|--[^\n]*|//[^\n]*|' + WORD)
USE = re.compile(r"use ([A-Za-z0-9_.+·]+)\.\{([^}]*)\}", re.S)


# A name in snake case that a function or a field beside it has already gets another.
ANOTHER = {
    "allZero": "is_all_zero",
    "formGood": "is_form_good",
    "orderGood": "is_order_good",
    "usedFits": "is_used_fit",
    "sizeGood": "is_size_good",
    "dataFor": "data_of_kind",
    "firstPass": "first_pass_answer",
    "tooLong": "refusal_of_part",
    "lengthBlock": "block_of_lengths",
    "blocksIn": "blocks_taken",
    "block-ring": "block_ring_laws",
    "nibble-ring": "nibble_ring_laws",
    "word-ring": "word_ring_laws",
    "new-blocks": "new_blocks_follow",
    "lastBlock": "final_block",
    "block-count": "block_count_same",
    "body-on": "body_goes_on",
    "previous-at": "previous_at_place",
    "within-limits": "limits_kept",
    "block-string": "block_string_same",
}
ROWS = (
    "nibble-product nibble-value nibble-modulus word-one word-two block-value first-proposal second-proposal "
    "third-proposal made-product empty-hash empty-tag body-only header-only"
).split()


def files(top):
    for folder, _, names in os.walk(os.path.join(top, "crates")):
        if "/out" in folder or "/must-fail" in folder:
            continue
        for name in sorted(names):
            if name.endswith((".antt", ".rt")):
                yield os.path.join(folder, name)


def turned(word):
    if word[0].isupper() and "-" not in word:
        return word
    word = re.sub(r"([a-z0-9])([A-Z])", lambda m: m.group(1) + "_" + m.group(2).lower(), word)
    return word.replace("-", "_")


def declared(path, text):
    answers = os.path.basename(path) in ANSWERS
    if path.endswith(".rt"):
        return set(GHOST.findall(text))
    found = set()
    for line in text.split("\n"):
        if line.strip().startswith("--"):
            continue
        named = DECLARED.match(line)
        if named and not (answers and named.group(2).startswith("goal.")):
            found.add(named.group(1))
        named = TYPE.match(line)
        if named:
            found.add(named.group(1))
    return found


def main():
    check = "--check" in sys.argv
    texts = {path: open(path).read() for path in files(".")}
    crates = {line.split(":")[0].strip() for line in open("crates.txt") if ":" in line}
    own = {path: declared(path, text) for path, text in texts.items()}
    names = {name for some in own.values() for name in some if turned(name) != name}
    for path, text in texts.items():
        borrowed = set()
        for module, items in USE.findall(text):
            parts = module.split(".")
            if parts[0] != "Rattle" or parts[1] not in crates:
                for item in items.split(","):
                    borrowed.add(item.split(" as ")[0].strip())
        here = {name for name in names if name not in borrowed or name in own[path]}
        words = set(re.findall(WORD, text))
        def other(word):
            if "/readings/" in path and word in ROWS:
                return turned(word) + "_row"
            return ANOTHER.get(word) or turned(word)

        for name in sorted(here & words):
            if other(name) in words or other(name) in borrowed:
                print(f"falls together: {path}: {name} and {other(name)}")

        def turn(found):
            word = found.group(0)
            if word.startswith('"'):
                return word
            if word.startswith(("--", "//")):
                return re.sub(r"[A-Za-z0-9]+", lambda m: other(m.group(0)) if m.group(0) in here else m.group(0), word)
            return other(word) if word in here else word

        new = PIECE.sub(turn, text)
        new = re.sub(r"\bRattle\.hex\.", "Rattle.hexadecimal.", new)
        new = re.sub(r"^(\s*(?:pub )?use )hex::", r"\1hexadecimal::", new, flags=re.M)
        if new != text and not check:
            with open(path, "w") as out:
                out.write(new)
    if not check and os.path.isdir("crates/hex"):
        os.rename("crates/hex", "crates/hexadecimal")
        lines = re.sub(r"\bhex\b", "hexadecimal", open("crates.txt").read())
        with open("crates.txt", "w") as out:
            out.write(lines)


main()
