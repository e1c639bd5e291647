#!/usr/bin/env python3
"""Respells this repository's own definitions, lemmas and record fields to snake case, and names the crate of
the check `checker`, since the kit has a library `check`. Run once, at the top, right after the kit's port.py."""

import os
import re
import sys

WORD = r"A-Za-z0-9_'\-′"
TOKEN = re.compile(rf"(?<![{WORD}])[A-Za-z][{WORD}]*")
DECLARED = re.compile(
    r"^\s*(?:(?:abbrev|unfoldable|pub)\s+)*(?:(?:record|data|ruleset)\s+)?"
    rf"([A-Za-z][{WORD}]*)(?:\s+[({{][^:]*:.*?[)}}])*\s*:\s(.*)$"
)
IMPORT = re.compile(r"^\s*(?:pub )?use (Rattle\.(std|anyhow)[^{;]*)\.\{([^}]*)\}", re.M)
STEP = re.compile(r"(?:^|[^A-Za-z0-9_'\-.])(?:c|w|l|goal|l\.initial|l\.fn)\.$")


# variables that are bound, and so not declared
BOUND = """
old-leaves old-replies new-leaves old-rows new-rows old-arrows new-arrows new-replies reply-room arrow-room n-is no-t
at-s arrows-are yes-t rows-room arrows-room count-is yes-other leaf-old leaf-new replies-old replies-new none-rows'
none-arrows none-arrows' yes-here yes-one mod-one worn-same none-leaves none-leaves' none-replies none-replies' room-is
arrows-fit all-rounds none-lost any-is not-less work-is
""".split()


def files(*kinds):
    for top in ("crates", "planted"):
        for folder, dirs, names in os.walk(top):
            dirs[:] = sorted(d for d in dirs if d not in ("out", "target"))
            for name in sorted(names):
                if name.endswith(kinds):
                    yield os.path.join(folder, name)


def read(path):
    with open(path, encoding="utf-8") as f:
        return f.read()


def declared():
    found = {}
    for path in files(".antt"):
        for line in read(path).splitlines():
            m = DECLARED.match(line)
            if m and not m.group(2).lstrip().startswith("goal."):
                found.setdefault(m.group(1), path)
    return found


def respelled(name):
    return name.replace("-", "_")


def turn(text, names, in_proofs):
    out, at = [], 0
    for m in TOKEN.finditer(text):
        word = m.group(0)
        if word not in names:
            continue
        before = text[max(0, m.start() - 24) : m.start()]
        if in_proofs and STEP.search(before):
            continue
        out.append(text[at : m.start()])
        out.append(names[word])
        at = m.end()
    out.append(text[at:])
    return "".join(out)


def main():
    own = declared()
    names = {n: respelled(n) for n in [*own, *BOUND] if "-" in n}
    taken = {}
    for path in files(".antt", ".rt"):
        text = read(path)
        for m in IMPORT.finditer(text):
            for n in m.group(3).split(","):
                taken.setdefault(n.strip().split(" as ")[0], path)
    bad = False
    for old, new in sorted(names.items()):
        if new in own or new in taken or old in taken:
            print(f"falls together: {old} -> {new}: {own.get(new) or taken.get(new) or taken.get(old)} ({own.get(old)})")
            bad = True
    if "--list" in sys.argv:
        for old, new in sorted(names.items()):
            print(old, new, own.get(old))
        return
    if bad:
        raise SystemExit(1)
    for path in files(".antt", ".rt"):
        text = read(path)
        new = turn(text, names, "/proofs/" in path)
        new = re.sub(r"\bRattle\.check\.", "Rattle.checker.", new)
        if path.endswith(".rt"):
            new = re.sub(r"\bcheck::", "checker::", new)
        if new != text:
            with open(path, "w", encoding="utf-8") as f:
                f.write(new)
    lines = read("crates.txt").splitlines()
    with open("crates.txt", "w", encoding="utf-8") as f:
        f.write("".join(re.sub(r"(?<!\S)check(?=[:\s]|$)", "checker", line) + "\n" for line in lines))
    for folder in ("crates", "planted"):
        if os.path.isdir(f"{folder}/check"):
            os.rename(f"{folder}/check", f"{folder}/checker")


if __name__ == "__main__":
    main()
