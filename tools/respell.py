#!/usr/bin/env python3
"""Brings the repository's own definitions and lemmas to the spelling of today's Rattle; run once, after port.py.

usage: tools/respell.py FOLDER

Words that are written in camel case get snake case, and so do the dashed labels of records, constructors and
definitions: `textFault` becomes `text_fault`, the field `few-letters` becomes `few_letters`. A dash in a lemma's name
joins two names and stays. A definition whose new name a Rattle function, module or crate has already gets `_of`, or
`_value` where it ends in a preposition; a lemma whose name a definition gets has `_lem`. Functions, exported names,
strings, inputs and outputs keep theirs.
"""
import glob
import os
import re
import sys

CAMEL = re.compile(r"^[a-z][a-z0-9]*(?:[A-Z][A-Za-z0-9]*)+'*$")
# A token of antt: letters, digits, marks and dashes between them; a projection's point ends it.
TOKEN = re.compile(r"[A-Za-z_ℕ][\w']*(?:-[\wℕ'≡≢]+)*")
WORD = re.compile(r"[A-Za-z_][\w']*")
LABEL = re.compile(r"^\s*(?:(?:abbrev|unfoldable|pub|data|record)\s+)*([a-z][\w'-]*(?:\s+[a-z][\w'-]*)*)\s*:\s", re.M)
# Lemmas that port.py spelled as a definition is spelled now.
LEMMAS = {n: n + "_lem" for n in ("size_in", "pair_step", "front_of", "too_short")}
PREPOSITIONS = ("of", "in", "at", "for", "from")


def snake(word):
    if word == "getD":
        return "get_or"  # a word of the library, in lemmas' names
    return re.sub(r"([a-z0-9])([A-Z])", lambda m: m.group(1) + "_" + m.group(2), word).lower()


def files(root, *patterns):
    for pattern in patterns:
        for path in sorted(glob.glob(os.path.join(root, pattern), recursive=True)):
            if os.path.isfile(path) and "/out/" not in path:
                yield path


def read(path):
    with open(path, encoding="utf-8") as f:
        return f.read()


def labels(text):
    """The dashed names that a record's fields, a data type's constructors and the definitions of specs/ have."""
    for m in LABEL.finditer(text):
        for name in m.group(1).split():
            if "-" in name:
                yield name


def blocks(text):
    """The bodies of the records and data types of a file."""
    for m in re.finditer(r"^( *)(?:pub )?(?:record|data) .*\bwhere\n((?:\1 +.*\n)*)", text, re.M):
        yield m.group(2)


def main(root):
    antt = list(files(root, "crates/*/specs/**/*.antt", "crates/*/proofs/**/*.antt"))
    code = list(files(root, "crates/*/src/**/*.rt"))
    pages = list(files(root, "crates/*/must-fail/*.edit", "docs/*.md", "README.md"))
    taken = set(os.listdir(os.path.join(root, "crates")))
    for path in code:
        taken |= set(re.findall(r"\b(?:fn|mod)\s+(\w+)", re.sub(r"//.*", "", read(path))))
    camel, dashed = {}, set()
    for path in antt + code:
        text = re.sub(r"--.*|//.*", "", read(path))
        for word in WORD.findall(text):
            if CAMEL.match(word):
                to = snake(word)
                if to in taken:
                    to += "_value" if to.split("_")[-1] in PREPOSITIONS else "_of"
                camel[word] = to
        if path in antt:
            dashed |= set(n for b in blocks(read(path)) for n in labels(b))
            if "/specs/" in path:
                dashed |= set(labels(text))
    # A label whose new name another thing has keeps its dash.
    others = {t for path in antt for t in TOKEN.findall(read(path))} | set(camel.values())
    tables = {n: n.replace("-", "_") for n in dashed if not CAMEL.match(n.split("-")[0])}
    tables = {n: to for n, to in tables.items() if to not in others}
    if len(set(camel.values())) != len(camel):
        sys.exit("two names fall together")

    def turn(token):
        if token in tables:
            return tables[token]
        if token in LEMMAS:
            return LEMMAS[token]
        return "-".join(camel.get(part, part) for part in token.split("-"))

    for path in antt + code + pages:
        text = read(path)
        if path in antt:
            turned = TOKEN.sub(lambda m: turn(m.group(0)), text)
        else:
            turned = WORD.sub(lambda m: camel.get(m.group(0), m.group(0)), text)
        if turned != text:
            with open(path, "w", encoding="utf-8") as f:
                f.write(turned)
    print(f"{len(camel)} words, {len(tables)} labels")
    for old, to in sorted(camel.items()) + sorted(tables.items()):
        print(f"{old} {to}")


main(sys.argv[1])
