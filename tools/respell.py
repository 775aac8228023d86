#!/usr/bin/env python3
"""Gives this repository's definitions, lemmas and fields their names in today's spelling: tools/respell.py [FOLDER], once, behind the kit's port.py.

respell.tsv has a line a name: as it was, as port.py left it, as it is now. A function is in snake case, and a lemma too; a dash stays where it
joins a list's word to a definition's name. A lemma that would have its definition's name ends in _lem. Names of src/ stay, and so do the names
that Rattle makes. In comments and documents a name counts only in backquotes.
"""
import glob
import os
import re
import sys

here = os.path.dirname(os.path.abspath(__file__))
root = sys.argv[1] if len(sys.argv) > 1 else os.path.dirname(here)
rows = [line.rstrip("\n").split("\t") for line in open(os.path.join(here, "respell.tsv"), encoding="utf-8")]
turned = {ported: now for _, ported, now in rows if ported != now}
written = {was: now for was, _, now in rows if was != now}

WORD = r"[^\s(){}.;,@\"«»\[\]\\`]+"
TOKEN = re.compile(r"(?:--|//)[^\n]*|\"(?:[^\"\\]|\\.)*\"|«[^»]*»|" + WORD)
SPOKEN = re.compile(r"`(%s)`" % WORD)


def texts(*patterns):
    for pattern in patterns:
        for path in sorted(glob.glob(os.path.join(root, pattern), recursive=True)):
            if os.path.isfile(path) and "/out/" not in path:
                yield path


def fields():
    found = set()
    for path in texts("crates/*/specs/**/*.antt", "crates/*/proofs/**/*.antt"):
        text = open(path, encoding="utf-8").read()
        for block in re.findall(r"(?ms)^ *(?:pub )?record .*?(?=\n\n|\Z)", text):
            found.update(re.findall(r"(?m)^ +(?:pub )?(%s) : " % WORD, block))
    return found


def spoken(text):
    return SPOKEN.sub(lambda m: "`%s`" % written.get(m[1], turned.get(m[1], m[1])), text)


def respelled(text, own_fields):
    def one(m):
        word = m[0]
        if word.startswith(("--", "//")):
            return spoken(word)
        if word not in turned or word.startswith(('"', "«")):
            return word
        if text[max(0, m.start() - 1) : m.start()] == ".":
            below = re.search(r"(%s)\.\Z" % WORD, text[max(0, m.start() - 80) : m.start()])
            of_module = below and re.match(r"[A-Z]", below[1]) and "." in text[max(0, m.start() - 80) : m.start() - 1]
            return turned[word] if word in own_fields or of_module else word
        return turned[word]

    return TOKEN.sub(one, text)


own_fields = fields()
for path in texts("crates/*/specs/**/*.antt", "crates/*/proofs/**/*.antt", "crates/*/src/**/*.rt", "crates/*/must-fail/*.edit"):
    text = open(path, encoding="utf-8").read()
    now = respelled(text, own_fields)
    if now != text:
        open(path, "w", encoding="utf-8").write(now)
for path in texts("*.md", "docs/**/*.md", "oracle/*.md", "wrapper/**/*.md", "wrapper/src/*.rs", "include/*.h", "examples/**/*", "bench/*.md", "tests/*"):
    try:
        text = open(path, encoding="utf-8").read()
    except UnicodeDecodeError:
        continue
    now = spoken(text)
    if now != text:
        open(path, "w", encoding="utf-8").write(now)
