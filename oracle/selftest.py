#!/usr/bin/env python3
"""Random scripts through the built program (target/release/oracle), four checks:

rules   an independent model of docs/RULES.md gives the same items (flags too), length, runs and
        joined runs, where the crate and the rules do not part (docs/DIFFERENCES.md); zero-length
        removals included, with the crate's tidying
event   the event, read over the units at begin, gives the units now; every call, domain or not
squash  squashing at commit shows in items only
order   ascending against descending keys: joined runs differ only after a delta in which a Deleted
        is not the last operation

usage: selftest.py [SCRIPTS [SEED]]
"""
import copy
import os
import random
import subprocess
import sys

HERE = os.path.dirname(os.path.abspath(__file__))
ORACLE = os.environ.get("ORACLE", os.path.join(HERE, "target", "release", "oracle"))


class Refused(Exception):
    pass


class Item:
    def __init__(self, kind, value, added=True):
        self.kind, self.value = kind, value  # t: list of units, e: number, m: (key, value)
        self.deleted = self.deleted_now = False
        self.added = added

    def size(self):
        return len(self.value) if self.kind == "t" else 1 if self.kind == "e" else 0

    def live_mark(self):
        return self.kind == "m" and not self.deleted


def read_marks(items):
    force = {}
    for i in items:
        if i.live_mark():
            force[i.value[0]] = i.value[1]
            if i.value[1] == 0:
                del force[i.value[0]]
    return force


class Sheet:
    """The rules, with places as numbers into a list."""

    def __init__(self):
        self.items = []
        self.settled = True

    def length(self):
        return sum(i.size() for i in self.items if not i.deleted)

    def in_force(self, place):
        return read_marks(self.items[:place])

    def put(self, place, item):
        self.items.insert(place, item)
        return place + 1

    def split(self, n, at):
        left = self.items[n]
        if 0xDC00 <= left.value[at] < 0xE000:
            raise Refused(2)
        right = Item("t", left.value[at:], left.added)
        right.deleted, right.deleted_now = left.deleted, left.deleted_now
        left.value = left.value[:at]
        self.items.insert(n + 1, right)

    def delete(self, item):
        item.deleted = item.deleted_now = True

    def place(self, index):
        p = 0
        while p < len(self.items) and index > 0:
            i = self.items[p]
            if not i.deleted:
                if i.kind == "t" and index < i.size():
                    self.split(p, index)
                    index = i.size()
                index -= i.size()
            p += 1
        return p

    def settle(self, p, attrs):
        while p < len(self.items):
            i = self.items[p]
            if not i.deleted and not (i.kind == "m" and attrs.get(i.value[0]) == i.value[1]):
                break
            p += 1
        return p

    def open(self, p, attrs):
        former = {}
        for key in sorted(attrs):
            now = self.in_force(p).get(key, 0)
            if attrs[key] != now:
                former[key] = now
                p = self.put(p, Item("m", (key, attrs[key])))
        return p, former

    def close(self, p, former):
        former = dict(former)
        while p < len(self.items):
            i = self.items[p]
            if not i.deleted:
                if i.kind != "m" or former.get(i.value[0]) != i.value[1]:
                    break
                del former[i.value[0]]
            p += 1
        for key in sorted(former):
            p = self.put(p, Item("m", (key, former[key])))
        return p

    def insert_with(self, p, item, attrs):
        attrs = {**{key: 0 for key in self.in_force(p)}, **attrs}
        p, former = self.open(self.settle(p, attrs), attrs)
        if item.value != []:
            p = self.put(p, item)
        return self.close(p, former)

    def format(self, p, length, attrs):
        p, former = self.open(self.settle(p, attrs), attrs)
        while p < len(self.items):
            i = self.items[p]
            if not (length > 0 or (former and (i.deleted or i.kind == "m"))):
                break
            if i.live_mark():
                key, value = i.value
                if key in attrs:
                    if attrs[key] == value:
                        former.pop(key, None)
                    else:
                        former[key] = value
                    self.delete(i)
            elif not i.deleted:
                if length < i.size():
                    self.split(p, length)
                    p += 1
                    break
                length -= i.size()
            p += 1
        return self.close(p, former)

    def remove(self, p, length, always):
        before = self.in_force(p)
        q = p
        while q < len(self.items) and length > 0:
            i = self.items[q]
            if not i.deleted and i.kind != "m":
                if length < i.size():
                    self.split(q, length)
                length -= i.size()
                self.delete(i)
            q += 1
        if length > 0:
            raise Refused(1)
        self.settled = True
        if always or before:
            end = q
            while end < len(self.items) and self.items[end].kind == "m":
                end += 1
            after = self.in_force(end)
            for i in self.items[p:end]:
                if i.live_mark():
                    key, value = i.value
                    if value != after.get(key, 0) or value == before.get(key, 0):
                        self.delete(i)
            self.settled = self.in_force(q) == self.in_force(end)
        return q

    def do(self, call):
        """Carries the call out; false if the crate and the rules part there."""
        kind = call[0]
        if kind == "b":
            for i in self.items:
                i.added = i.deleted_now = False
        elif kind == "i" and call[2]:
            p = self.place(call[1])
            while p < len(self.items) and self.items[p].deleted:
                p += 1
            self.put(p, Item("t", call[2]))
        elif kind == "w" and call[2]:
            self.insert_with(self.place(call[1]), Item("t", call[2]), call[3])
        elif kind == "e":
            self.put(self.place(call[1]), Item("e", call[2]))
        elif kind == "x":
            self.insert_with(self.place(call[1]), Item("e", call[2]), call[3])
        elif kind == "f":
            self.format(self.place(call[1]), call[2], call[3])
        elif kind == "r":
            self.remove(self.place(call[1]), call[2], False)
        elif kind == "d":
            p, inside = 0, True
            for n, op in enumerate(call[1]):
                if op[0] == "i":
                    p = self.insert_with(p, Item("t", op[1]), op[2])
                elif op[0] == "x":
                    p = self.insert_with(p, Item("e", op[1]), op[2])
                elif op[0] == "r":
                    p = self.format(p, op[1], op[2])
                else:
                    p = self.remove(p, op[1], True)
                    inside = inside and (self.settled or n == len(call[1]) - 1)
            return inside
        return True

    def answer(self):
        lines, runs, force, fresh = [], [], {}, True
        for i in self.items:
            flags = " D" * i.deleted + " a" * i.added + " d" * i.deleted_now
            shown = {"t": "text", "e": "embed", "m": "mark"}[i.kind]
            value = "%d=%d" % i.value if i.kind == "m" else words(i)[2:]
            lines.append("item %s %s%s" % (shown, value, flags))
            if i.deleted:
                continue
            if i.kind == "m":
                force = read_marks(self.items[: self.items.index(i) + 1])
                fresh = True
            elif i.kind == "t" and not fresh and runs[-1][0] == "t":
                runs[-1][1] += " " + words(i)[2:]
            else:
                runs.append([i.kind, words(i), dict(force)])
                fresh = False
        lines.append("len %d" % self.length())
        lines += ["run " + r[1] + attributes(r[2]) for r in runs]
        joined = []
        for r in runs:
            if joined and r[0] == joined[-1][0] == "t" and r[2] == joined[-1][2]:
                joined[-1][1] += r[1][1:]
            else:
                joined.append(list(r))
        return lines + ["joined " + r[1] + attributes(r[2]) for r in joined]


def units(u):
    return " ".join("%04X" % x for x in u)


def words(i):
    return "t " + units(i.value) if i.kind == "t" else "e %d" % i.value


def attributes(a):
    return "".join(" %d=%d" % kv for kv in sorted(a.items()))


def line(call):
    kind = call[0]
    if kind == "d" and isinstance(call[1], list):
        return "d " + " ; ".join(line(op) for op in call[1])
    out = kind
    for part in call[1:]:
        if isinstance(part, dict):
            out += attributes(part)
        elif isinstance(part, list):
            out += " " + units(part)
        else:
            out += " %d" % part
    return out


class Maker:
    def __init__(self, rnd, keys, values):
        self.rnd, self.keys, self.values = rnd, keys, values

    def attrs(self):
        chance = 0.6 if self.keys == 1 else 0.4
        return {
            k: self.rnd.randrange(self.values + 1)
            for k in range(self.keys)
            if self.rnd.random() < chance
        }

    def text(self):
        out = []
        for _ in range(self.rnd.choice([1, 1, 1, 2, 2, 3, 4])):
            if self.rnd.random() < 0.1:
                out += [0xD83D, 0xDE00 + self.rnd.randrange(3)]
            else:
                out.append(self.rnd.choice([0x61, 0x62, 0x63, 0x64, 0xE9, 0x2605]))
        return out

    def call(self, length, empty):
        r = self.rnd
        kind = r.choices("iwexfrdb", [3, 3, 1, 1, 5, 4, 4, 2])[0]
        index = r.randrange(length + 2) if r.random() < 0.95 else r.randrange(length + 6)
        if kind == "i":
            return ("i", index, self.text())
        if kind == "w":
            return ("w", index, self.text(), self.attrs())
        if kind == "e":
            return ("e", index, r.randrange(100))
        if kind == "x":
            return ("x", index, r.randrange(100), self.attrs())
        if kind == "f":
            return ("f", index, r.choice([0, 1, 1, 1, 2, 2, 3, 4, 5, 9]), self.attrs())
        if kind == "r":
            return ("r", r.randrange(length + 1), r.choice([0, 1, 1, 1, 2, 2, 3, 4, 5]))
        if kind == "b":
            return ("b",)
        ops = []
        for _ in range(r.randrange(1, 6)):
            op = r.choices("ixrd", [3, 1, 4, 3])[0]
            if op == "i":
                ops.append(("i", [] if empty and r.random() < 0.2 else self.text(), self.attrs()))
            elif op == "x":
                ops.append(("x", r.randrange(100), self.attrs()))
            elif op == "r":
                ops.append(("r", r.choice([0, 1, 1, 1, 2, 2, 3, 4, 5]), self.attrs()))
            else:
                ops.append(("d", r.choice([0, 1, 1, 1, 2, 2, 3])))
        return ("d", ops)


def script(seed, keys, values, steps, domain):
    """Calls that the crate doesn't panic on and that cut no pair, with the model after each."""
    sheet, out = Sheet(), []
    maker = Maker(random.Random(seed), keys, values)
    for _ in range(steps):
        call = maker.call(sheet.length(), not domain)
        after = copy.deepcopy(sheet)
        try:
            inside = after.do(call)
        except Refused:
            continue
        if inside or not domain:
            sheet = after
            out.append((call, sheet.answer() if domain else None))
    return out


def run(scripts, *options):
    """The answers after every call."""
    text = "".join("n\n" + "".join(line(c) + "\nq\n" for c, _ in s) for s in scripts)
    p = subprocess.run([ORACLE, "--check", *options], input=text, capture_output=True, text=True)
    if p.returncode or "panic" in p.stdout:
        sys.exit("the oracle failed: %d %s %s" % (p.returncode, p.stderr, p.stdout[-200:]))
    answers, now = [], []
    for l in p.stdout.split("\n"):
        if l == ".":
            answers.append(now)
            now = []
        elif l not in ("", "new"):
            now.append(l)
    return answers


def only(answer, *kinds):
    return [l for l in answer if l.split(" ")[0] in kinds]


def pieces(text):
    words = text.split(" ")
    return [w for w in words if "=" not in w], dict(map(int, w.split("=")) for w in words if "=" in w)


def visible(answer):
    out = []
    for l in only(answer, "joined"):
        w, a = pieces(l)
        out += [(u, a) for u in w[2:]] if w[1] == "t" else [("embed " + w[2], a)]
    return out


def read(event, at_begin):
    out, p = [], 0
    for l in event:
        w, a = pieces(l)
        if w[1] == "i":
            out += [(u, a) for u in w[2:]]
        elif w[1] == "x":
            out.append(("embed " + w[2], a))
        else:
            n = int(w[2])
            assert p + n <= len(at_begin)
            if w[1] == "r":
                for u, f in at_begin[p : p + n]:
                    out.append((u, {k: v for k, v in {**f, **a}.items() if v}))
            p += n
    return out + at_begin[p:]


def complain(name, calls, *lists):
    print("FAILED", name)
    print("\n".join(line(c) for c, _ in calls))
    for l in lists:
        print("--")
        print("\n".join(map(str, l)))
    sys.exit(1)


def main():
    number = int(sys.argv[1]) if len(sys.argv) > 1 else 1000
    seed = int(sys.argv[2]) if len(sys.argv) > 2 else 0
    count = {"rules": 0, "event": 0, "squash": 0, "order": 0, "order shows in joined runs": 0}
    for start in range(0, number, 100):
        for keys, values in [(1, 1), (1, 2), (3, 2), (16, 255)]:
            seeds = range(seed + start, seed + min(start + 100, number))
            inside = [s for s in (script(n, keys, values, 20, True) for n in seeds) if s]
            every = [s for s in (script(n, keys, values, 20, False) for n in seeds) if s]

            answers = run(inside)
            turned = run(inside, "--descending")
            at = 0
            for s in inside:
                clean = True
                for n, (call, model) in enumerate(s):
                    got, other = answers[at], turned[at]
                    at += 1
                    if only(got, "item", "len", "run", "joined") != model:
                        complain("rules", s[: n + 1], model, got)
                    count["rules"] += 1
                    if call[0] == "d" and any(op[0] == "d" for op in call[1][:-1]):
                        clean = False
                    if only(got, "joined") != only(other, "joined"):
                        if clean:
                            complain("order", s[: n + 1], got, other)
                        count["order shows in joined runs"] += 1
                    count["order"] += 1

            answers = run(every)
            squashed = run(every, "--squash")
            at = 0
            for s in every:
                begin = []
                for n, (call, _) in enumerate(s):
                    got, other = answers[at], squashed[at]
                    at += 1
                    if call[0] == "b":
                        begin = visible(got)
                    if read(only(got, "ev"), begin) != visible(got):
                        complain("event", s[: n + 1], begin, got)
                    count["event"] += 1
                    kinds = ("len", "run", "joined", "ev")
                    if only(got, *kinds) != only(other, *kinds):
                        complain("squash", s[: n + 1], got, other)
                    count["squash"] += 1
    print("answers compared:", ", ".join("%s %d" % kv for kv in count.items()))


if __name__ == "__main__":
    main()
