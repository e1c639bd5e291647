#!/usr/bin/env python3
"""Lists the lemmas of crates/*/proofs/*.antt that no other line of the repository names.

uncited.py [ROOT]

A field of a record that a tactic reads without its name is listed too, and so is a theorem kept for its own sake: a
line is a place to look at, not a verdict.
"""
import glob
import os
import re
import sys

ROOT = sys.argv[1] if len(sys.argv) > 1 else os.path.dirname(os.path.dirname(os.path.abspath(__file__)))
HEAD = r"^\s*(?:pub |abbrev pub |abbrev |unfoldable pub |unfoldable )?"
WORD = re.compile(r"[A-Za-z_][A-Za-z0-9_'<>≤-]*")
PROOFS = re.compile(re.escape(ROOT) + r"/crates/[^/]+/proofs/[A-Z][A-Za-z]*\.antt")


def sources():
    for pattern in ("proofs/**/*.antt", "specs/**/*.antt", "src/*.rt"):
        for path in glob.glob(f"{ROOT}/crates/*/{pattern}", recursive=True):
            if "/out/" not in path:
                with open(path, encoding="utf-8") as text:
                    yield path, text.read()


def main():
    texts = dict(sources())
    named = {}
    for text in texts.values():
        for line in text.split("\n"):
            if not line.strip().startswith("--"):
                for word in WORD.findall(line):
                    named[word] = named.get(word, 0) + 1
    for path in sorted(filter(PROOFS.match, texts)):
        text = texts[path]
        for name in re.findall(HEAD + r"([a-z_][A-Za-z0-9_'<≤-]*) :", text, re.M):
            own = len(re.findall(HEAD + re.escape(name) + r"\b(?: [^=\n]*)? ?[:=]", text, re.M))
            if named.get(name, 0) <= own:
                print(path[len(ROOT) + 1:], name)


main()
