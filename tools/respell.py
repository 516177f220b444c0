#!/usr/bin/env python3
"""Spells this repository's own definitions and lemmas as today's Rattle does. It was run once, after the kit's port.py.

usage: tools/respell.py [--show]     at the top of the repository; --show prints the names and writes nothing

A fact or a type is in upper camel case: `Is-known` becomes `IsKnown`. Anything else is in snake case: `with-bits` becomes `with_bits`.
In a lemma a dash stays where it joins two names, and `_` adds a plain word: `number-append`, `number_lt`.
What functions, types and variables of src/ are called stays, and so do names that Rattle or its library makes.
"""

import collections
import glob
import os
import re
import sys

NAME = r'[^\s(){}.;,@"«»]+'
DECLARED = re.compile(r"^(\s*)((?:abbrev |unfoldable |pub |data |record )*)(" + NAME + r")((?: \{[^{}]*\}| \([^()]*(?:\([^()]*\)[^()]*)*\))*) :( |$)")
HYPHEN = re.compile(r"[^\W_]-[^\W_]|[\w'ℕ≢≡]-[\w*]")
USE = re.compile(r"\buse (\S+?)\.\{([^}]*)\}")
ANSWERS = re.compile(r"/(Answers|Invariants|Proof)\.antt$")
# names of parameters and of imports, and names of unfinished work that nothing declares now
ALSO = """new-obj old-obj new-close old-close new-test old-test new-body old-body new-bits old-bits new-list old-list same-it same-os no-deep
bound-node greatest-in inner-window from-of bits-of-source position-after enclosed-less enclosed-end Called-on Next-called Fill-called
Position-asked Hands-out Enclosed-walk Enclosed-once""".split()


def files():
    specs = glob.glob("crates/*/specs/**/*.antt", recursive=True)
    proofs = glob.glob("crates/*/proofs/**/*.antt", recursive=True)
    sources = glob.glob("crates/*/src/**/*.rt", recursive=True)
    return sorted(specs), sorted(proofs), sorted(sources)


def text(path):
    with open(path, encoding="utf-8") as f:
        return f.read()


def declared(paths):
    """Each name that the texts declare, with its kinds: 'lemma', 'word', 'field'."""
    kinds = collections.defaultdict(set)
    for path in paths:
        for line in text(path).split("\n"):
            m = DECLARED.match(line)
            if not m or m[5] == " " and line[m.end() :].startswith("goal."):
                continue
            indent, words, name = m[1], m[2].split(), m[3]
            if name in ("let", "elim") or name.startswith("λ"):
                continue
            if indent:
                kinds[name].add("field" if not {"abbrev", "unfoldable"} & set(words) else "word")
            elif {"abbrev", "unfoldable", "data", "record"} & set(words):
                kinds[name].add("word")
            else:
                kinds[name].add("lemma")
    return kinds


def library():
    """The plain words of the library that lemmas of ours speak of."""
    return set("length append take drop map set sum nil cons replicate flat_map get_or filter reverse zip max min suc all any number part range".split())


def camel(name):
    return "".join(w[:1].upper() + w[1:] for w in re.split(r"[-_]", name))


def joined(name, words):
    """A lemma's name: a dash between two names, and _ before a plain word."""
    parts = name.split("-")

    def ends(i):
        return any("_".join(parts[j : i + 1]) in words for j in range(i + 1))

    def begins(i):
        return any("_".join(parts[i : j + 1]) in words for j in range(i, len(parts)))

    out = parts[0]
    for i in range(1, len(parts)):
        out += ("-" if ends(i - 1) and begins(i) else "_") + parts[i]
    return out


def table(kinds):
    words = {n.replace("-", "_") for n, k in kinds.items() if "word" in k and not n[0].isupper()} | library()
    new = {}
    for name, k in kinds.items():
        if "-" not in name.strip("-") or not HYPHEN.search(name):
            continue
        elif name[0].isupper():
            new[name] = camel(name)
        elif k == {"lemma"}:
            new[name] = joined(name, words)
        else:
            new[name] = name.replace("-", "_")
    for name in ALSO:
        new.setdefault(name, camel(name) if name[0].isupper() else name.replace("-", "_"))
    return {a: b for a, b in new.items() if a != b}


def from_library(content):
    """Names that a file imports from elsewhere: they keep their spelling there."""
    names = set()
    for m in USE.finditer(content):
        if not re.match(r"Rattle\.(?!std|core)", m[1]):
            names |= {x.strip().split(" as ")[0] for x in m[2].split(",")}
    return names


TOKEN = re.compile(r"(?<![^\s(){}.;,@\"«»])(" + NAME + ")")


def turned(path, content, new, kinds):
    theirs = from_library(content)
    answers = bool(ANSWERS.search(path))

    def one(m):
        name = m[1]
        if name not in new or name in theirs:
            return name
        before = content[max(0, m.start() - 80) : m.start()]
        if before.endswith("."):
            head = re.search(r"([\w'-]+(?:\.[\w'-]+)*|\))\.$", before)
            head = head[1] if head else ""
            if head.split(".")[0] in ("goal", "Goals", "Given"):
                return name
            if answers and head.split(".")[0] in ("c", "l", "g") and "field" not in kinds[name]:
                return name
        if answers and re.match(r"[^\n]*: goal\.", content[m.end() :]):
            return name
        return new[name]

    return TOKEN.sub(one, content)


def spans(content, new):
    """Names between backticks on a page or in a comment."""
    return re.sub(r"`([^`\n]+)`", lambda m: "`" + TOKEN.sub(lambda t: new.get(t[1], t[1]), m[1]) + "`", content)


def main(argv):
    specs, proofs, sources = files()
    kinds = declared(specs + proofs)
    new = table(kinds)
    taken = collections.defaultdict(set)
    for a, b in new.items():
        taken[b].add(a)
    for n in kinds:
        if n not in new:
            taken[n].add(n)
    clashes = {b: a for b, a in taken.items() if len(a) > 1}
    if "--show" in argv:
        for a, b in sorted(new.items()):
            print(a, "->", b, ",".join(sorted(kinds[a])))
        rust = collections.defaultdict(set)
        for path in sources:
            for m in re.finditer(r"\b(?:fn|const|struct|enum|trait|type|static|mod) (\w+)|\b(\w+):(?!:)|\blet (?:mut )?(\w+)", re.sub(r"//[^\n]*", "", text(path))):
                rust[m[1] or m[2] or m[3]].add(path)
        for a, b in sorted(new.items()):
            if b in rust:
                print("rust:", a, "->", b, sorted(rust[b])[:3])
        for b, a in sorted(clashes.items()):
            print("clash:", b, sorted(a))
        return 0
    if clashes:
        print("names that fall together:", {b: sorted(a) for b, a in clashes.items()})
        return 1
    for path in specs + proofs + sources:
        old = text(path)
        now = turned(path, old, new, kinds)
        if path.endswith(".rt"):
            now = re.sub(r"//[^\n]*", lambda m: spans(m[0], new), now)
        if now != old:
            with open(path, "w", encoding="utf-8") as f:
                f.write(now)
    for path in sorted(glob.glob("crates/*/must-fail/*.edit") + glob.glob("docs/*.md") + ["README.md", "CHANGELOG.md"]):
        old = text(path)
        now = spans(old, new) if path.endswith(".md") else turned(path, old, new, kinds)
        if now != old:
            with open(path, "w", encoding="utf-8") as f:
                f.write(now)
    return 0


if __name__ == "__main__":
    raise SystemExit(main(sys.argv[1:]))
