#!/usr/bin/env python3
"""What the program `calls` is run on, and what it must write.

vectors.py                    writes ../crates/calls/stdin and ../crates/calls/stdout
vectors.py PROGRAM FROM TO    runs the random scripts of these seeds through PROGRAM and the oracle, and compares

The scripts are random ones by fixed seeds and some near the limits; their expected answers are the oracle's (yrs's own
text.rs, keys ascending), in the form of docs/CALLS.md. Behind them comes ours.txt, where a line that starts with `> `
is the answer, worked out from docs/RULES.md by hand (HERE is the line's number): refusals, and where yrs and the rules part.
Calls on which the two part (docs/DIFFERENCES.md) are left out of the random scripts: `Sheet` of selftest.py tells them.
"""
import copy
import os
import random
import subprocess
import sys

from selftest import HERE, ORACLE, Maker, Refused, Sheet, line

CALLS = os.path.join(HERE, "..", "crates", "calls")
# Number of keys, number of values, scripts, calls tried in each.
KINDS = [(1, 1, 60, 14), (1, 3, 60, 24), (3, 2, 60, 24), (16, 255, 40, 24)]


def parts(call):
    """Whether the rules leave alone what yrs does not: removals of length 0."""
    if call[0] == "r":
        return call[2] == 0
    return call[0] == "d" and any(op[0] == "d" and op[1] == 0 for op in call[1])


def random_script(seed, keys, values, steps):
    rnd = random.Random("%d %d %d" % (seed, keys, values))
    maker, sheet, out = Maker(rnd, keys, values), Sheet(), []
    for _ in range(steps):
        call = maker.call(sheet.length(), False)
        after = copy.deepcopy(sheet)
        try:
            inside = after.do(call)
        except Refused:
            continue
        if inside and not parts(call):
            sheet = after
            out.append(line(call))
            if rnd.random() < 0.1:
                out.append("q")
    return out + ["q"] if rnd.random() < 0.7 else out


def full_of_items():
    """2,048 items: an edit that needs more is refused with 4 (`!`), one that needs none is carried out."""
    out = ["x 0 %d %d=%d" % (n, n % 16, 1 + n % 255) for n in range(682)]
    out += ["!x 0 9 0=1", "!w 0 0061 0=1", "!d x 5 0=1", "e 0 8", "i 1 0061", "q"]
    out += ["!e 0 9", "!i 3 0062", "!x 3 9", "!d r 2 ; i 0062", "!d d 1 ; x 4", "!f 2 9 15=255"]
    return out + ["b", "f 0 9", "r 1 1", "d r 3 ; d 2", "q"]


def full_of_units():
    """16,384 units, brought by each of the calls that bring text."""
    def text(n, first):
        return " ".join("%04X" % (first + k % 26) for k in range(n))

    out = ["i 0 " + text(6000, 0x61), "w 3000 " + text(5000, 0x41) + " 0=1", "d r 2 ; i " + text(5382, 0x3B1) + " 1=2"]
    out += ["!i 0 0061 0062 0063", "!w 5 0061 0062 0063 0=1", "!d i 0061 0=1 ; i 0062 0063", "i 16382 D83D DE00"]
    out += ["!i 0 0061", "!w 16384 0061", "!d r 4 ; i 0061", "f 0 9000 0=2", "r 100 16000", "d r 50 ; d 100", "e 7 4294967295"]
    return out + ["!i 0 0061", "b", "f 3 4294967295 3=1", "q"]


def long_delta():
    """A delta of 256 operations."""
    ops = ["r 1 0=%d" % (1 + n % 3) if n % 4 else "i 0078 D83D DE00 1=%d" % (n % 2) for n in range(254)]
    return ["i 0 " + " ".join(["0061"] * 200), "b", "d " + " ; ".join(ops + ["x 7", "d 2"]), "q"]


def ended(block):
    """How the program ends a sheet: its length and joined runs, from the oracle's answer."""
    return [l[7:] if l.startswith("joined ") else l for l in block if l.startswith(("len ", "joined "))]


def oracle(script):
    """The oracle's answers to the `q` of a script."""
    p = subprocess.run([ORACLE, "--sorted", "--check"], input="\n".join(script) + "\n", capture_output=True, text=True)
    if p.returncode or "panic" in p.stdout:
        sys.exit("the oracle failed: %s %s" % (p.stderr, p.stdout[-200:]))
    blocks, now = [], []
    for l in p.stdout.splitlines():
        now.append(l)
        if l == ".":
            blocks.append(now)
            now = []
    return blocks


def crowded(block):
    """Whether yrs has more than the limits after the call: 2,048 items or 16,384 units."""
    items = [l.split() for l in block if l.startswith("item ")]
    return len(items) > 2048 or sum(len(w) == 4 for i in items if i[1] == "text" for w in i[2:]) > 16384


def answers(script):
    """What must be written for a script."""
    blocks = oracle([l for l in script if not l.startswith("!")] + ["q"])
    out, done, at = [], [], 0
    for l in script:
        if l.startswith("!"):
            assert crowded(oracle(done + [l[1:], "q"])[-1]), l
            out.append("refused 4")
            continue
        done.append(l)
        if l == "q":
            assert not crowded(blocks[at]), done
            out += blocks[at]
            at += 1
    return out + ended(blocks[-1])


def write():
    scripts = [["i 0 0061 0062 0063", "f 1 1 0=1"]]
    scripts += [random_script(seed, keys, values, steps) for keys, values, count, steps in KINDS for seed in range(count)]
    scripts = [s for s in scripts if s] + [full_of_items(), full_of_units(), long_delta()]
    asked, told = [], []
    for s in scripts:
        asked += [l.lstrip("!") for l in s] + ["n"]
        told += answers(s) + ["new"]
    for l in open(os.path.join(HERE, "ours.txt"), encoding="utf-8").read().splitlines():
        if l.startswith("> "):
            told.append(l[2:].replace("HERE", str(len(asked))))
        else:
            asked.append(l)
    for name, lines in ("stdin", asked), ("stdout", told):
        with open(os.path.join(CALLS, name), "w", encoding="utf-8") as f:
            f.write("\n".join(lines) + "\n")
    print(len(scripts), "scripts,", sum(map(len, scripts)), "lines, and ours.txt")


def compare(program, first, last):
    scripts = calls = 0
    for keys, values, _, steps in KINDS:
        for seed in range(first, last):
            s = random_script(seed, keys, values, steps)
            if not s:
                continue
            p = subprocess.run([program], input="\n".join(s) + "\n", capture_output=True, text=True)
            want = answers(s)
            if p.stdout.splitlines() != want:
                print("DIFFERS: keys %d, values %d, seed %d" % (keys, values, seed))
                print("\n".join(s + ["-- yrs"] + want + ["-- calls"] + p.stdout.splitlines()))
                sys.exit(1)
            scripts += 1
            calls += len(s)
    print(scripts, "scripts,", calls, "lines: no difference")


if __name__ == "__main__":
    if len(sys.argv) == 1:
        write()
    else:
        compare(sys.argv[1], int(sys.argv[2]), int(sys.argv[3]))
