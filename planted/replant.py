#!/usr/bin/env python3
"""Plants the bugs of planted/ and of crates/*/must-fail, one at a time, and asks the prover about each.

replant.py [CRATE[/LABEL]...] [--tests] [--record]

The edits are tried by `rt must-fail` in a copy of the repository, over what `rt check` kept there of the crates as they
stand. A line is printed for each: crate, label, function, refused or survived, the first error with its place.

An edit that no contract can refuse says so by a line `# survives: WHY`, and by a line `# caught: WHAT` which tests
catch it: `stored output` (a program's run on its sample input), `comparison` (peer/compare.py), both, or `nothing`.
With --tests the programs are built with each edit that survived, and what catches it is found out again; that needs
target/peer/solver.

Whole crates are held to docs/PLANTED.md, which has a table for each function; --record writes the tables anew.

The status is 1 if an edit survived that has no line `# survives:`, if one that has it was refused, if an edit did not
reach the prover, if something else caught it than its line says, if a public function has fewer than three edits, or if
a table of docs/PLANTED.md is not what was found.
"""
import argparse
import os
import re
import shutil
import subprocess
import sys
import tempfile

ROOT = os.path.dirname(os.path.dirname(os.path.abspath(__file__)))
TARGET = os.path.join(ROOT, "target")
RECORD = os.path.join(ROOT, "docs", "PLANTED.md")
FLOORS = "300"
FEWEST = 3
PROGRAMS = ("plan", "bookkeeper", "verify", "drill")
# What `rt must-fail` says of an edit.
SAID = re.compile(r"rt: must-fail (\w+)/([\w.-]+)\.edit: (.*)")


class BadEdit(Exception):
    pass


class Plant:
    """An edit: the function it is in, what is wrong with it, and the pairs of old and new text."""

    def __init__(self, crate, path):
        self.crate, self.path = crate, path
        self.label = os.path.basename(path)[: -len(".edit")]
        self.function = self.wrong = self.survives = self.caught = ""
        self.unfit = False
        self.pairs = []
        file = old = None
        with open(path, encoding="utf-8") as lines:
            for line in lines.read().split("\n"):
                if line.startswith("# survives: "):
                    self.survives = line[len("# survives: "):]
                elif line.startswith("# caught: "):
                    self.caught = line[len("# caught: "):]
                elif line.startswith("# ") and not self.function:
                    self.function, _, self.wrong = line[2:].partition(": ")
                elif line.startswith("file: "):
                    file = line[len("file: "):]
                elif line.startswith("old: "):
                    old = line[len("old: "):]
                elif line.startswith("new:"):
                    self.pairs.append((file, old, line[len("new:"):].removeprefix(" ")))
        self.verdict = self.place = self.said = self.within = self.goal = self.wrongly = ""

    def apply(self, where):
        if not self.function or not self.wrong:
            raise BadEdit("it has no line '# FUNCTION: what is wrong'")
        if not self.pairs:
            raise BadEdit("it has no 'old:' and 'new:' pair")
        for file, old, new in self.pairs:
            path = os.path.join(where, file or "")
            if not file or not os.path.isfile(path):
                raise BadEdit(f"there is no {file}")
            with open(path, encoding="utf-8") as text:
                whole = text.read()
            if not old or whole.count(old) != 1:
                raise BadEdit(f"its old text stands {whole.count(old or ' ')} times in {file}")
            with open(path, "w", encoding="utf-8") as text:
                text.write(whole.replace(old, new))

    def judge(self, said, where):
        """Takes what `rt must-fail` said of it, in the copy of its crate `where`."""
        if said.startswith("refused, as it must be"):
            self.verdict, self.unfit = "refused", "names what the edit took away" in said
            self.place, self.within, self.goal, self.said = first_error(said, where)
        elif said.startswith("NOT REFUSED"):
            self.verdict = "survived"
        else:
            self.verdict, self.wrongly = "bad edit", said
        if self.verdict != "bad edit" and (self.verdict == "survived") != bool(self.survives):
            self.wrongly = "not as its edit says"

    def outcome(self):
        """What the record says of it."""
        if self.verdict == "refused":
            return f"refused in `{self.within}`" + (f" at `{self.goal}`" if self.goal else "") + (", whose proof no longer fits" if self.unfit else "")
        if self.verdict == "survived":
            return f"survives: {self.survives}; caught by: {self.caught}"
        return self.verdict


def dependencies():
    """The crates of crates.txt in their order, each with those that it names."""
    crates = {}
    with open(os.path.join(ROOT, "crates.txt"), encoding="utf-8") as lines:
        for line in lines:
            name, colon, deps = line.split("#")[0].partition(":")
            if colon:
                crates[name.strip()] = deps.split()
    return crates


def plants_of(crate):
    found = []
    for folder in (os.path.join(ROOT, "planted", crate), os.path.join(ROOT, "crates", crate, "must-fail")):
        if os.path.isdir(folder):
            found += [Plant(crate, os.path.join(folder, name)) for name in sorted(os.listdir(folder)) if name.endswith(".edit")]
    return found


def sources(folder):
    for name in sorted(os.listdir(folder)):
        with open(os.path.join(folder, name), encoding="utf-8") as lines:
            yield name, lines.read().split("\n")


def public_functions(crate):
    """Each `pub fn`, as Type::name where it stands in an impl, and each function of a trait's impl, as TypeTrait::name."""
    for _, lines in sources(os.path.join(ROOT, "crates", crate, "src")):
        owner = impl = ""
        for line in lines:
            # an impl that is empty ends on its own line
            if re.match(r"impl\b.*\{\}$", line):
                continue
            of_trait = re.match(r"impl(?:<[^>]*>)? (?:\w+::)*(\w+)(?:<(?:\w+::)?(\w+)>)? for (\w+)", line)
            own = re.match(r"impl(?:<[^>]*>)? (\w+)", line)
            if of_trait:
                trait, given, kind = of_trait.groups()
                impl = kind + trait + (("Io" + given if "<io::" in line else given) if given else "")
            elif own:
                owner = own.group(1)
            elif line.startswith("}"):
                owner = impl = ""
            found = re.match(r"\s*pub fn (\w+)", line) or (impl and re.match(r"    fn (\w+)", line))
            if found:
                yield "::".join(part for part in (owner or impl, found.group(1)) if part)


def first_error(said, where):
    """The place of the error, the function it is in, the goal it is about, and its words."""
    found = re.search(r"(?:note: )?(?:\./)?(\S+?\.\w+:\d+:\d+):? (?:error(?:\[[^]]*\])?: )?(.*)", said)
    if not found:
        return "", "", "", said
    place, words = found.group(1), found.group(2)
    file, line = place.split(":")[0], int(place.split(":")[1])
    if file.startswith("proofs/") and file.count("/") > 1:
        within = os.path.basename(os.path.dirname(file)).lstrip("+")
        goal = re.match(r"`([^`]+)`", words)
    else:
        within = file
        with open(os.path.join(where, file), encoding="utf-8") as text:
            above = text.read().split("\n")[:line]
        for one in above:
            name = re.match(r"\s*(?:pub(?:\(crate\))? )?fn (\w+)", one)
            if name:
                within = name.group(1)
        goal = re.search(r"\(`([^`]+)`", words)
    return place, within, goal.group(1) if goal else "", words


def copy_of_all(room):
    """A copy of the repository without what checks left in it."""
    for name in ("crates.txt", "HANDLES"):
        if os.path.isfile(os.path.join(ROOT, name)):
            shutil.copy(os.path.join(ROOT, name), room)
    shutil.copytree(os.path.join(ROOT, "crates"), os.path.join(room, "crates"), ignore=shutil.ignore_patterns("out"))


def stored_output_differs(program, path):
    folder = os.path.join(ROOT, "crates", program)

    def read(name):
        file = os.path.join(folder, name)
        if not os.path.isfile(file):
            return b""
        with open(file, "rb") as data:
            return data.read()

    at = os.path.join(folder, "data")
    done = subprocess.run([path] + read("args").decode().split("\n")[: read("args").count(b"\n")], input=read("stdin"), capture_output=True, cwd=at if os.path.isdir(at) else None)
    return done.returncode != 0 or done.stdout != read("stdout")


def uses(crates, program, crate):
    """Whether a program is the crate, or stands on it."""
    return program == crate or any(uses(crates, below, crate) for below in crates.get(program, ()))


def find_catch(one, crates):
    """Builds the programs with the edit, and says which tests tell them from the right ones."""
    with tempfile.TemporaryDirectory() as room:
        copy_of_all(room)
        one.apply(os.path.join(room, "crates", one.crate))
        bins = os.path.join(room, "bin")
        os.mkdir(bins)
        for name in PROGRAMS:
            folder = os.path.join(room, "crates", name)
            subprocess.run(["rt", "run"], cwd=folder, stdin=subprocess.DEVNULL, capture_output=True)
            if not os.path.isfile(os.path.join(folder, "out", name)):
                raise BadEdit(f"{name} was not built")
            shutil.copy(os.path.join(folder, "out", name), bins)
        caught = []
        if any(stored_output_differs(name, os.path.join(bins, name)) for name in PROGRAMS if uses(crates, name, one.crate)):
            caught.append("stored output")
        solver = os.path.join(TARGET, "peer", "solver")
        if subprocess.run([sys.executable, os.path.join(ROOT, "peer", "compare.py"), bins, solver, FLOORS], cwd=room, capture_output=True).returncode != 0:
            caught.append("comparison")
        return " and ".join(caught) or "nothing"


def plant(chosen):
    """Tries the edits in a copy of the repository; yields each with its verdict."""
    by_name = {(one.crate, one.label): one for one in chosen}
    with tempfile.TemporaryDirectory() as room:
        copy_of_all(room)
        for crate in os.listdir(os.path.join(room, "crates")):
            shutil.rmtree(os.path.join(room, "crates", crate, "must-fail"), ignore_errors=True)
        for one in chosen:
            folder = os.path.join(room, "crates", one.crate, "must-fail")
            os.makedirs(folder, exist_ok=True)
            shutil.copy(one.path, folder)
        with subprocess.Popen(["rt", "must-fail", *sorted({one.crate for one in chosen})], cwd=room, stdout=subprocess.PIPE, text=True) as tries:
            for line in tries.stdout:
                said = SAID.match(line)
                if said:
                    one = by_name.pop((said.group(1), said.group(2)))
                    one.judge(said.group(3), os.path.join(room, "crates", one.crate))
                    yield one
    for one in by_name.values():
        one.verdict, one.wrongly = "bad edit", "nothing was said of it"
        yield one


def table(plants):
    out = []
    for function in sorted({one.function for one in plants}, key=str.lower):
        out += [f"### `{function}`", "", "| plant | what is wrong with it | outcome |", "|---|---|---|"]
        out += [f"| `{one.label}` | {one.wrong} | {one.outcome()} |" for one in sorted(plants, key=lambda p: p.label) if one.function == function]
        out.append("")
    return "\n".join(out)


def hold_to_record(crate, plants, write):
    """Whether the record's part on the crate is what was found; `write` makes it so."""
    start, end = f"<!-- plants of {crate} -->\n", f"<!-- end of {crate} -->\n"
    with open(RECORD, encoding="utf-8") as text:
        whole = text.read()
    if start not in whole or end not in whole:
        print(f"docs/PLANTED.md has no part between '{start.strip()}' and '{end.strip()}'")
        return False
    before, rest = whole.split(start)
    found, after = rest.split(end)
    new = f"## `{crate}`\n\n" + table(plants)
    if write:
        with open(RECORD, "w", encoding="utf-8") as text:
            text.write(before + start + new + end + after)
    elif found != new:
        print(f"docs/PLANTED.md is not what was found of {crate}")
        return False
    return True


def main():
    parser = argparse.ArgumentParser(description=__doc__, formatter_class=argparse.RawDescriptionHelpFormatter)
    parser.add_argument("which", nargs="*", help="CRATE or CRATE/LABEL; all crates without")
    parser.add_argument("--tests", action="store_true", help="find out what catches an edit that survives")
    parser.add_argument("--record", action="store_true", help="write the tables of docs/PLANTED.md")
    given = parser.parse_args()
    crates = dependencies()
    plants = [one for crate in crates for one in plants_of(crate)]
    chosen = [one for one in plants if not given.which or one.crate in given.which or f"{one.crate}/{one.label}" in given.which]
    whole = [crate for crate in crates if (not given.which or crate in given.which) and any(one.crate == crate for one in plants)]
    bad = 0
    for one in plant(chosen):
        if not one.function or not one.wrong:
            one.wrongly = "it has no line '# FUNCTION: what is wrong'"
        elif given.tests and one.verdict == "survived" and not one.wrongly:
            caught = find_catch(one, crates)
            one.wrongly = "" if caught == one.caught else f"caught by: {caught}"
        bad += bool(one.wrongly)
        first = f"{one.place} {one.said[:200]}" if one.verdict == "refused" else ""
        print(f"{one.crate}/{one.label}\t{one.function}\t{one.verdict}{' WRONGLY: ' + one.wrongly if one.wrongly else ''}\t{first}", flush=True)
    for crate in whole:
        for function in public_functions(crate):
            many = sum(one.function == function for one in chosen if one.crate == crate)
            if many < FEWEST:
                print(f"{crate}: {function} has {many} plants")
                bad += 1
        bad += not hold_to_record(crate, [one for one in chosen if one.crate == crate], given.record)
    print(f"{len(chosen)} planted, {sum(one.verdict == 'refused' for one in chosen)} refused ({sum(one.unfit for one in chosen)} of them since a proof no longer fits), {sum(one.verdict == 'survived' for one in chosen)} survived, {bad} wrong")
    sys.exit(1 if bad else 0)


if __name__ == "__main__":
    main()
