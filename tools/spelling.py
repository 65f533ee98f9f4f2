#!/usr/bin/env python3
"""Brings the repository's own ghost names to the spelling of today's Rattle, in every .antt, .rt and .edit file and in the papers.

Words are in snake case; a dash joins two names (`length-visible`), and a plain word is added with `_` (`keys_next`).
Functions of src/, exported names, strings and what programs print keep their names: none of them is in camel case.
Where a lemma would have the name of a definition, it gets `_lem`. It is run once, on the tree that port.py made.
"""
import collections, glob, os, re

os.chdir(os.path.join(os.path.dirname(os.path.abspath(__file__)), ".."))
SEP = r"[\s(){}\[\],;.:`\"]+"
DEF = re.compile(r"^\s*((?:(?:unfoldable|abbrev|pub|opaque|data|record|ruleset)\s+)*)([^\s:(){}]+)((?:\s*[({][^)}]*[)}])*)\s*:")
# words of the kit that our lemmas speak of
KIT = set("append take drop length map reverse set get_or min max cond suc cons nil less le lt".split()) - {"less"}


def files(*globs):
    return sorted({f for g in globs for f in glob.glob(g, recursive=True) if "/out/" not in f})


ANTT = files("crates/*/specs/**/*.antt", "crates/*/proofs/**/*.antt")
RT = files("crates/*/src/**/*.rt")
EDIT = files("crates/*/must-fail/*.edit")
PAPERS = files("README.md", "docs/*.md", "oracle/README.md")


def snake(part):
    return re.sub(r"(?<=[a-z0-9])([A-Z])", lambda m: "_" + m.group(1).lower(), part)


def is_camel(word):
    return re.match(r"^[a-z][a-z0-9_]*[A-Z]", word) is not None


def main():
    words, spec_names, lemmas = collections.Counter(), set(), set()
    for f in ANTT + RT:
        for line in open(f, encoding="utf-8"):
            for w in re.split(SEP, line):
                words[w] += 1
            m = f.endswith(".antt") and DEF.match(line)
            if not m or line.lstrip().startswith(("use ", "mod ", "--")):
                continue
            name = m.group(2)
            if "/specs/" in f:
                spec_names.add(name)
            elif "/Proof.antt" not in f and not line[0].isspace():
                lemmas.add(name)
    fns = set(re.findall(r"\bfn ([a-z_0-9]+)", "".join(open(f, encoding="utf-8").read() for f in RT)))
    change = {}
    # 1. camel case
    for w in words:
        if w[:1].islower() and any(is_camel(p) for p in w.split("-")):
            change[w] = "-".join(snake(p) if is_camel(p) else p for p in w.split("-"))
    change = {w: n.replace("get_d", "get_or") for w, n in change.items()}
    # 2. a dash before a word that is no name
    names = {change.get(n, n) for n in spec_names} | fns | KIT
    for w in lemmas:
        n = change.get(w, w)
        if "-" not in n or not n[0].isalpha():
            continue
        parts = n.split("-")
        out = parts[0]
        for p in parts[1:]:
            out += ("-" if p in names else "_") + p
        if out != n:
            change[w] = out
    # 3. names that would fall together: the lemma gets _lem, or keeps its dash
    new = collections.defaultdict(list)
    for w, n in change.items():
        new[n].append(w)
    lem = set()
    for n, ws in new.items():
        if n in lemmas and n not in change:
            camel = [w for w in ws if w in spec_names or is_camel(w)]
            if camel:
                lem.add(n)
            else:
                for w in ws:
                    del change[w]
        elif len(ws) > 1 or n in spec_names or (n in words and any("-" in w for w in ws)):
            for w in ws:
                if w in lemmas and "-" in w and not is_camel(w):
                    del change[w]
    for n in lem:
        change[n] = n + "_lem"
    report = [f"{w} {n}" for w, n in sorted(change.items())]
    for f in ANTT + RT + EDIT + PAPERS:
        antt = f.endswith(".antt") or (f.endswith(".edit") and re.search(r"^file: (specs|proofs)/", open(f, encoding="utf-8").read(), re.M))
        text = open(f, encoding="utf-8").read()

        def one(m):
            w = m.group(0)
            if w not in change:
                return w
            if antt or f.endswith(".md") or is_camel(w.split("-")[0]):
                if w in lem:
                    before = text[max(0, m.start() - 7) : m.start()]
                    if before.endswith("proofs.") or f.endswith(".md") or not antt:
                        return w
                return change[w]
            return w

        made = re.sub(r"[^\s(){}\[\],;.:`\"]+", one, text)
        if made != text:
            open(f, "w", encoding="utf-8").write(made)
    print("\n".join(report))


main()
