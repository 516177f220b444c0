#!/usr/bin/env python3
"""Tries planted bugs one by one, keeps the whole log of each, and says what refused it.

usage: tools/strength.py COPY LOGS CRATE..            the edits of crates/CRATE/must-fail
       tools/strength.py COPY LOGS CRATE/EDIT..       some of them
       tools/strength.py COPY LOGS CRATE=FOLDER..     the edits of another folder
       tools/strength.py --read LOGS                  reads the logs again

COPY is a clone of the repository, with no work of its own in it, in whose crates `rt check` has passed: each edit is made there, checked over
what that check kept, and taken back. The log of an edit is LOGS/CRATE/EDIT.log. For each edit one line is printed, its parts separated by ' | ':

    CRATE/EDIT | KIND | WHERE | WHAT | GOAL

KIND is `fact` (a goal that the check answers by itself, or that no proof file answers, is no longer proved), `term` (a term that a proof file gives for
a goal does not fit what it says now), `names` (only names that a proof file cites are gone), `proved` (the edit is not refused) or `unread` (it does not
compile). A line of the kind `fact` that ends with `names too` has a proof file that cites names which are gone: see the log.
"""

import os
import re
import shutil
import signal
import subprocess
import sys
import tempfile
import time

GONE = re.compile(r"has no field|is not in scope|has no `|was not admitted|is declared nowhere|names nothing")
UNPROVED = re.compile(r"^note: (src/\S+?:\d+:\d+): (it is not proved that .*?)(?: \(`([^`]+)`\))?(?:;.*)?$")
PROVES = re.compile(r"^note: `([^`]+)` of (\S+) must prove: (.*)$")
ALONE = re.compile(r"^fn (\S+): no proof: expected answers in \S+; `search` did not prove `([^`]+)`")
WRONG = re.compile(r"^(?:\./)?(\S+?:\d+:\d+): error: (.*)$")


def pairs_of(edit):
    """The file, old and new texts of an edit, in order."""
    found, path, old = [], None, None
    for line in open(edit, encoding="utf-8").read().split("\n"):
        if line.startswith("file: "):
            path = line[len("file: ") :].strip()
        elif line.startswith("old: "):
            old = line[len("old: ") :]
        elif line.startswith("new:"):
            found.append((path, old, line[len("new:") :].removeprefix(" ")))
    return found


def linked(one, other):
    """A second name for what is only ever replaced, a copy of the rest."""

    def copy(a, b):
        return os.link(a, b) if a.endswith(".oantt") else shutil.copy2(a, b)

    shutil.copytree(one, other, symlinks=True, copy_function=copy)


def tried(crate, edit, log):
    """Makes the edit in the crate's folder, checks it, keeps the log, and takes the edit back."""
    texts = {}
    for path, old, new in pairs_of(edit):
        text = texts.get(path) or open(f"{crate}/{path}", encoding="utf-8").read()
        if text.count(old) != 1:
            raise SystemExit(f"{edit}: the old text stands {text.count(old)} times in {path}")
        texts[path] = text.replace(old, new)
    kept = {path: open(f"{crate}/{path}", encoding="utf-8").read() for path in texts}
    seed = tempfile.mkdtemp(prefix="seed-", dir=f"{crate}/out")
    linked(f"{crate}/out/incremental", f"{seed}/incremental")
    begun = time.time()
    try:
        for path, text in texts.items():
            with open(f"{crate}/{path}", "w", encoding="utf-8") as file:
                file.write(text)
        ran = subprocess.run(["rt", "check"], cwd=crate, stdin=subprocess.DEVNULL, stdout=subprocess.PIPE, stderr=subprocess.STDOUT, errors="replace")
    finally:
        for path, text in kept.items():
            with open(f"{crate}/{path}", "w", encoding="utf-8") as file:
                file.write(text)
        shutil.rmtree(f"{crate}/out/incremental", ignore_errors=True)
        os.rename(f"{seed}/incremental", f"{crate}/out/incremental")
        shutil.rmtree(seed)
    os.makedirs(os.path.dirname(log), exist_ok=True)
    with open(log, "w", encoding="utf-8") as file:
        file.write(f"{ran.stdout}status {ran.returncode}, {time.time() - begun:.0f} s\n")


def read(log):
    """Kind, place, what is not so, and the goal's words."""
    lines = open(log, encoding="utf-8").read().split("\n")
    if any(line.startswith("logic=proved") for line in lines):
        return "proved", "", "", ""
    if any(re.search(r"error\[[\w-]+\]", line) for line in lines):
        return "unread", "", next(line for line in lines if "error[" in line), ""
    goals = {m[1]: m[3] for line in lines if (m := PROVES.match(line))}
    facts = [m for line in lines if (m := UNPROVED.match(line))]
    errors = [m for line in lines if (m := WRONG.match(line))]
    gone = [m for m in errors if m[1].startswith("proofs/") and GONE.search(m[2])]
    terms = [m for m in errors if m not in gone and m[1].startswith("proofs/")]
    if facts:
        fact = facts[0]
        return "fact", fact[1], fact[2] + (" | names too" if gone else ""), goals.get(fact[3], fact[3] or "")
    if terms:
        return "term", terms[0][1], terms[0][2][:300], ""
    if gone:
        return "names", gone[0][1], gone[0][2][:200], ""
    unproved = [m for line in lines if (m := ALONE.match(line))]
    if unproved:
        return "fact", unproved[0][1], "it is not proved that what it owes holds", unproved[0][2]
    return "other", "", next((line for line in lines if "not proved" in line or "no proof" in line), ""), ""


def told(name, log):
    print(" | ".join([name, *read(log)]), flush=True)


def main(words):
    if len(words) == 2 and words[0] == "--read":
        for at, folders, files in os.walk(words[1]):
            folders.sort()
            for file in sorted(files):
                told(f"{os.path.basename(at)}/{file[:-4]}", f"{at}/{file}")
        return 0
    if len(words) < 3:
        print(__doc__)
        return 2
    copy, logs = words[:2]
    # (an edit is taken back also where the run is stopped)
    signal.signal(signal.SIGTERM, lambda *_: sys.exit(1))
    for word in words[2:]:
        name, _, folder = word.partition("=")
        crate, _, only = name.partition("/")
        folder = folder or f"{copy}/crates/{crate}/must-fail"
        for file in sorted(os.listdir(folder)):
            edit = file.removesuffix(".edit")
            if edit != file and only in ("", edit):
                log = f"{logs}/{crate}/{edit}.log"
                tried(f"{copy}/crates/{crate}", f"{folder}/{file}", log)
                told(f"{crate}/{edit}", log)
    return 0


if __name__ == "__main__":
    raise SystemExit(main(sys.argv[1:]))
