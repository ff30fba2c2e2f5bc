#!/usr/bin/env python3
"""Brings the repository's own definitions, fields, constructors and lemmas to the spelling of today's Rattle.

usage: python3 tools/respell.py        at the top of a checkout, once, after port.py

A name of specs/ or proofs/ that was in camel case with a small letter in front is written in snake case, in code, definitions, proofs,
must-fail edits and the documents: askedFrom -> asked_from, bandwidthOf-is-for -> bandwidth_of-is-for. A fact or a type keeps its capital.
Functions of src/, exported names, strings, inputs and outputs have no such names. Where a lemma would get its function's name it ends
in _lem. It stops before it writes anything if two names would fall together.
"""

import re
import subprocess
import sys

DECLARED = re.compile(r"^\s*(?:(?:abbrev|pub|unfoldable)\s+)*([A-Za-z0-9_'₀-₉-]+)\s*(?:\{[^}]*\}|\([^)]*\)|\s)*:(?!:)")
NAME = re.compile(r"[A-Za-z0-9_'₀-₉-]+")
CAMEL = re.compile(r"([a-z0-9])([A-Z])")
# Lemmas that port.py gave the name that a function of specs/ gets here.
LEMMAS = {name: name + "_lem" for name in ("all_hold", "counter_at", "holds_by", "no_pairs", "not_live", "one_byte", "out_of_range", "pair_read", "read_number", "too_long", "walk_ends")}
# Fields and definitions of specs/ with a dash, which joins the parts of a lemma's name alone.
DASHED = {name: name.replace("-", "_") for name in ("not-devices", "not-procs", "source-chain", "target-chain")}


def tracked(*patterns):
    return subprocess.run(["git", "ls-files", "--", *patterns], check=True, capture_output=True, text=True).stdout.split()


def read(path):
    with open(path, encoding="utf-8") as it:
        return it.read()


def snake(name):
    return CAMEL.sub(lambda it: it.group(1) + "_" + it.group(2).lower(), name)


def is_camel(name):
    return name[:1].islower() and CAMEL.search(name) is not None


def code_of(text):
    return re.sub(r"--.*|//.*", "", text)


def table(files):
    declared, shared = set(), set()
    for path in files:
        for line in code_of(read(path)).split("\n"):
            it = DECLARED.match(line)
            if it:
                declared.add(it.group(1))
                if not path.endswith("/Proof.antt"):
                    shared.add(it.group(1))
    names = {name: snake(name) for name in declared if is_camel(name)}
    taken = {}
    for old, new in sorted(names.items()):
        if new in taken:
            sys.exit(f"respell: {old} and {taken[new]} both become {new}")
        taken[new] = old
        # Beside a function of src/ of that name a definition may stand; beside another definition or lemma it may not.
        if new in shared and new not in LEMMAS:
            sys.exit(f"respell: {old} becomes {new}, which is there")
    return names | DASHED


def main():
    antt = tracked("crates/*.antt")
    names = table(antt)
    lemmas = {name: new for name, new in LEMMAS.items() if new[: -len("_lem")] in names.values()}
    changed = 0

    def turned(text, cites):
        # A step of a proof has its function's name and stands behind a dot.
        for name in cites:
            text = re.sub(r"(?<![\w'.-])" + name + r"(?![\w'-])", lemmas[name], text)
        return NAME.sub(lambda it: names.get(it.group(0), it.group(0)), text)

    for path in antt + tracked("crates/*.rt", "crates/*.edit"):
        text = read(path)
        # Functions of src/ have the lemmas' names too: a lemma is turned where it stands and where it is imported.
        cites = [name for name in lemmas if path.endswith(".antt") and re.search(r"(?m)^ *(pub )?" + name + r" :|^use Rattle\.\w+\.proofs\.\w+\.\{[^}]*(?<![\w'-])" + name + r"(?![\w'-])", text)]
        new = turned(text, cites)
        if new != text:
            with open(path, "w", encoding="utf-8") as it:
                it.write(new)
            changed += 1
    for path in tracked("*.md"):
        if path.startswith(("docs/landings/", "docs/papers/")):
            continue
        text = read(path)
        new = re.sub(r"`[^`\n]+`", lambda it: turned(it.group(0), []), text)
        if new != text:
            with open(path, "w", encoding="utf-8") as it:
                it.write(new)
            changed += 1
    print(f"respell: {len(names)} names in {changed} files")


if __name__ == "__main__":
    main()
