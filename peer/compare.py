#!/usr/bin/env python3
"""Compares the proved programs with the solver of another make, on the longest inputs and on generated floors.

compare.py BIN SOLVER [COUNT [SEED]]: BIN is the folder of the proved programs. It ends with status 1 at a difference,
and leaves the input that shows it in difference.bin.
"""
import os
import random
import struct
import subprocess
import sys
import tempfile
import time

GRADES = ([0, 1, 2], [0, 0, 1, 2], [1, 1, 1, 2], [0, 1], [1, 2], [0, 2], [2, 2, 2, 2, 1, 0])


def table(states):
    out = bytes([1]) + struct.pack(">H", len(states))
    for grade, commands, events, aims in states:
        out += bytes([2, grade, commands, events])
        out += b"".join(bytes([3]) + struct.pack(">H", aim) for aim in aims)
    return out


def aim(rng, shape, s, n):
    if shape == "near" or (shape == "mixed" and rng.random() < 0.6):
        return max(0, min(n - 1, s + rng.choice([-3, -2, -1, -1, 0, 1])))
    if shape == "down":
        return max(0, s - rng.choice([1, 1, 1, 2]))
    if shape == "up":
        return min(n - 1, s + rng.choice([1, 1, 1, 2]))
    return rng.randrange(n)


def floor(rng):
    n = rng.choice([1, 2, 3, 4, 5, 6, 8, 12, 20, 40, 80, 160])
    if rng.random() < 0.02:
        n = rng.choice([400, 700, 1024])
    shape = rng.choice(["random", "near", "mixed", "down", "up"])
    grades = rng.choice(GRADES)
    most = rng.choice([1, 2, 2, 3, 4]) if n > 6 else rng.choice([1, 2, 3, 5, 16])
    states = []
    arrows = 0
    for s in range(n):
        commands, events = rng.randint(1, most), rng.randint(1, most)
        if arrows + commands * events > 16384 - (n - s):
            commands = events = 1
        arrows += commands * events
        states.append((rng.choice(grades), commands, events, [aim(rng, shape, s, n) for _ in range(commands * events)]))
    return table(states)


def damaged(rng, data):
    data = bytearray(data)
    for _ in range(rng.randint(1, 3)):
        kind = rng.randrange(4)
        if kind == 0 and data:
            data[rng.randrange(len(data))] = rng.choice([0, 1, 2, 3, 4, 17, 18, 19, 20, 255, rng.randrange(256)])
        elif kind == 1:
            del data[rng.randrange(len(data) + 1):]
        elif kind == 2:
            data += bytes(rng.randrange(4) for _ in range(rng.randint(1, 4)))
        elif data:
            del data[rng.randrange(len(data))]
    return bytes(data)


def longest():
    """The longest table, which has the longest book: every state is open and has 16 commands."""
    return table([(1, 16, 1, [s] * 16) for s in range(1024)])


def script(rng, n):
    lines = []
    for _ in range(rng.randint(1, 40)):
        word = rng.choice(["place", "book", "book", "book", "objection", "objection", "objection"])
        number = rng.randrange(n + 1) if word == "place" else rng.choice([0, 0, 1, 1, 2, 16])
        lines.append(f"{word} {number}")
    if rng.random() < 0.05:
        lines.insert(rng.randrange(len(lines) + 1), rng.choice(["", "plan 3", "book", "book x", "place -1", "place 1 2"]))
    return "".join(line + "\n" for line in lines).encode()


def ran(command, data, parts=1):
    """The status and the output of a program whose input comes in so many parts."""
    if parts == 1:
        done = subprocess.run(command, input=data, capture_output=True)
        return done.returncode, done.stdout
    # (unbuffered, so that nothing is left to write to a program that has ended)
    with subprocess.Popen(command, bufsize=0, stdin=subprocess.PIPE, stdout=subprocess.PIPE, stderr=subprocess.DEVNULL) as program:
        try:
            for k in range(parts - 1):
                program.stdin.write(data[k * len(data) // parts : (k + 1) * len(data) // parts])
                program.stdin.flush()
                time.sleep(0.02)
        except BrokenPipeError:
            pass  # the program has ended, and what it wrote tells
        out, _ = program.communicate(data[(parts - 1) * len(data) // parts :])
        return program.returncode, out


def differ(folder, solver, program, mode, given, named=(), parts=1):
    """Whether a program and the solver write something else; the input is left in difference.bin."""
    ours, theirs = ran([f"{folder}/{program}", *named], given, parts), ran([solver, mode, *named], given)
    if ours != theirs:
        with open("difference.bin", "wb") as file:
            file.write(given)
        print(f"{program} and the solver differ: {ours[0]} {ours[1][:200]} {theirs[0]} {theirs[1][:200]}")
    return ours != theirs


def compare_longest(folder, solver):
    """The longest inputs, whole and with surplus bytes."""
    data = longest()
    book = ran([solver, "book"], data)[1]
    for surplus in (b"", b"\0", b"\0\0"):
        if differ(folder, solver, "plan", "list", data + surplus) or differ(folder, solver, "bookkeeper", "book", data + surplus):
            return False
        if differ(folder, solver, "verify", "verify", data + book + surplus):
            return False
    return True


def wants_input(folder):
    """Input that cannot be read, and a floor that is not there: status 1, and nothing is written."""
    with open(os.devnull, "rb") as script:
        runs = [([f"{folder}/drill"], script), ([f"{folder}/drill", "no-such-floor"], script)]
        for program in ("plan", "bookkeeper", "verify"):
            runs.append(([f"{folder}/{program}"], os.open(folder, os.O_RDONLY)))
        for command, given in runs:
            done = subprocess.run(command, stdin=given, capture_output=True)
            if (done.returncode, done.stdout) != (1, b""):
                print(f"{command} wants input, and wrote {done.stdout[:200]} with status {done.returncode}")
                return False
    return True


def main():
    folder, solver = sys.argv[1], sys.argv[2]
    count = int(sys.argv[3]) if len(sys.argv) > 3 else 2000
    place = os.path.join(tempfile.mkdtemp(), "floor.bin")
    rng = random.Random(int(sys.argv[4]) if len(sys.argv) > 4 else 1)
    if not wants_input(folder) or not compare_longest(folder, solver):
        sys.exit(1)
    for i in range(count):
        data = floor(rng)
        if rng.random() < 0.2:
            data = damaged(rng, data)
        pairs = [("plan", "list", data)]
        if i % 2 == 0:
            pairs.append(("bookkeeper", "book", data))
            status, book = ran([solver, "book"], data)
            if status == 0:
                pairs.append(("verify", "verify", data + (damaged(rng, book) if rng.random() < 0.7 else book)))
            with open(place, "wb") as file:
                file.write(data)
            pairs.append(("drill", "drill", script(rng, data[1] * 256 + data[2]) if status == 0 else b"place 0\n"))
        for program, mode, given in pairs:
            named = [place] if program == "drill" else []
            if differ(folder, solver, program, mode, given, named, 3 if i % 20 == 0 else 1):
                print(f"at floor {i}")
                sys.exit(1)
    print(f"{count} floors compared")


main()
