#!/usr/bin/env python3
"""Spells the repository's own names as today's Rattle has them: a word is in snake case, a type or a module in camel case.

usage: tools/respell.py            at the top of the repository, once, right after the kit's port.py

    bytesOf, numberAt-below, ruleA, getD-beyond  ->  bytes_of, number_at-below, rule_a, get_or-beyond

port.py does so for the names of the kit and for some of ours. This turns the rest, in the files of specs/, proofs/ and src/, in
must-fail edits, and, for names that the crates declare, in the pages. Names of source functions, exported names and strings hold no
word in camel case, so none of them changes. It says which names fall together: a name that it makes and that stood there before.
"""

import collections
import glob
import re
import sys

# A part of a name, between dashes, that begins with a small letter and has a capital further on.
CAMEL = re.compile(r"(?<![A-Za-z0-9_])[a-z][a-z0-9]*[A-Z][A-Za-z0-9]*(?![A-Za-z0-9_])")
DECLARED = re.compile(r"(?m)^\s*(?:(?:abbrev|unfoldable|pub|data|record) )*([^\s(){}:;,]+(?: [^\s(){}:;,=]+)*) :(?: |$)")

# Old names of the kit's that live on in names of ours.
OTHERWISE = {"getD": "get_or"}

# Two names that fall together with another of the same module.
APART = {}


def snake(word):
    if word in OTHERWISE:
        return OTHERWISE[word]
    word = re.sub(r"([a-z0-9])([A-Z])", r"\1_\2", word)
    word = re.sub(r"([A-Z])([A-Z][a-z])", r"\1_\2", word)
    return word.lower()


def respell(text):
    return CAMEL.sub(lambda it: APART.get(it.group(0)) or snake(it.group(0)), text)


def bare(text):
    return re.sub(r"--.*", "", text)


def names(text):
    return {name for it in DECLARED.finditer(bare(text)) for name in it.group(1).split()}


def main():
    files = sorted(glob.glob("crates/*/**/*.antt", recursive=True) + glob.glob("crates/*/src/**/*.rt", recursive=True))
    texts = {f: open(f, encoding="utf-8").read() for f in files if "/out/" not in f}
    if not texts:
        sys.exit("respell: no crates here")
    declared = {f: names(t) for f, t in texts.items()}
    own = set().union(*declared.values())
    camel = {it.group(0) for t in texts.values() for it in CAMEL.finditer(bare(t))}
    # Within one file two spellings of what becomes one name are two names that fall together.
    for f, t in sorted(texts.items()):
        words = set(re.findall(r"[A-Za-z0-9_]+(?:-[A-Za-z0-9_]+)*", bare(t)))
        made = collections.defaultdict(set)
        for w in words:
            made[respell(w)].add(w)
        for w, of in sorted(made.items()):
            if len(of) > 1:
                print(f"{f}: {', '.join(sorted(of))} all become {w}")
    turned = 0
    for f, t in texts.items():
        new = respell(t)
        if new != t:
            open(f, "w", encoding="utf-8").write(new)
            turned += 1
    for f in sorted(glob.glob("crates/*/must-fail/*.edit")):
        t = open(f, encoding="utf-8").read()
        new = "\n".join(respell(line) if line.startswith(("old:", "new:")) else line for line in t.split("\n"))
        if new != t:
            open(f, "w", encoding="utf-8").write(new)
            turned += 1
    parts = {part for name in own for part in respell(name).split("-")}
    known = lambda word: word in camel or snake(word) in parts
    for f in sorted(glob.glob("*.md") + glob.glob("*/*.md") + glob.glob("tools/*")):
        if f == "tools/respell.py" or "__pycache__" in f:
            continue
        t = open(f, encoding="utf-8").read()
        new = CAMEL.sub(lambda it: snake(it.group(0)) if known(it.group(0)) else it.group(0), t)
        if new != t:
            open(f, "w", encoding="utf-8").write(new)
            turned += 1
            print(f"page: {f}")
    print(f"{len(camel)} words turned, in {turned} files")


main()
