#!/usr/bin/env python3
"""respell.py: brings the repository's own definitions and lemmas to snake case, as today's Rattle spells words.

Run once at the top, right after the kit's own port script. In every .antt, .rt and .edit file of crates/, and in the pages, a word
that begins with a small letter and has a capital inside, as `xorSum` or `planS`, is written `xor_sum`, `plan_s`. Types and modules
keep their capitals; no word of Rust code, of C, of a string or of an input has this shape. Where two names would fall together, the
lemma of the two is renamed first.
"""
import glob
import re
import subprocess
import sys

# a name of today that a respelled one would meet, and what it is called from now on; only in these folders
TAKEN = [
    ("crates/mend/", "in_window", "in_window-holds"),
    ("crates/mend/", "laid_cell", "laid_cell-bit"),
]
SHAPE = re.compile(r"(?<![A-Za-z0-9_])[a-z][a-z0-9_]*[A-Z][A-Za-z0-9_]*")


def snake(word):
    return re.sub(r"(?<=[a-z0-9])([A-Z])", lambda m: "_" + m.group(1).lower(), word)


def main():
    dry = "--dry" in sys.argv
    files = [f for kind in ("antt", "rt", "edit") for f in glob.glob("crates/**/*." + kind, recursive=True) if "/out/" not in f]
    pages = [f for f in subprocess.run(["git", "ls-files", "*.md"], capture_output=True, text=True).stdout.split() if f]
    words, known = {}, set()
    for f in files:
        text = open(f, encoding="utf-8").read()
        for w in SHAPE.findall(text):
            words.setdefault(w, set()).add(f)
        known |= set(re.findall(r"(?<![A-Za-z0-9_])[a-z][a-z0-9_]*", text))
    if dry:
        for w in sorted(words):
            print(w, snake(w), "MEETS" if snake(w) in known else "", len(words[w]))
        return
    for f in files + pages:
        text = open(f, encoding="utf-8").read()
        new = text
        for folder, old, name in TAKEN:
            if f.startswith(folder):
                new = re.sub(r"(?<![A-Za-z0-9_'-])" + re.escape(old) + r"(?![A-Za-z0-9_'-])", name, new)
        new = SHAPE.sub(lambda m: snake(m.group(0)) if m.group(0) in words else m.group(0), new)
        if new != text:
            open(f, "w", encoding="utf-8").write(new)


main()
