#!/usr/bin/env python3
"""respell_fields.py: brings the fields of the repository's own records to snake case, as `n1-most` to `n1_most`.

Run once at the top, after respell.py. A field whose name no lemma has is written anew wherever it stands; one that shares its name
with a lemma only where it is a field: in its record, after a dot that no module's name precedes, and before ` = ` in a record's value. Lemmas keep their dashes, which
part what they are of. Three fields would meet a definition's name, and are called otherwise.
"""
import glob
import re

OTHERWISE = {"columns-at": "columns_from", "numbers-size": "numbers_len", "sheet-size": "sheet_len"}
WORD = r"(?<![A-Za-z0-9_'◌-])%s(?![A-Za-z0-9_'-])"
RECORD = re.compile(r"^(?:(?:pub|abbrev)\s+)*record\s")
FIELD = re.compile(r"^\s+(?:pub )?([A-Za-z][^\s:(){}]*)\s*:(?!=)")
DECLARED = re.compile(r"^\s*(?:(?:pub|abbrev|unfoldable)\s+)*([A-Za-z][^\s:(){}]*)\s*:(?!=)")


def lines_of(text):
    """each line, and whether it stands in a record's declaration"""
    inside = False
    for line in text.split("\n"):
        if RECORD.match(line):
            inside = True
        elif line[:1] not in ("", " ", "-"):
            inside = False
        yield line, inside


def main():
    files = [f for kind in ("antt", "rt", "edit") for f in glob.glob("crates/**/*." + kind, recursive=True) if "/out/" not in f]
    fields, lemmas = set(), set()
    for f in files:
        if f.endswith(".antt"):
            for line, inside in lines_of(open(f, encoding="utf-8").read()):
                m = (FIELD if inside else DECLARED).match(line)
                if m and "-" in m.group(1) and not line.startswith("--"):
                    (fields if inside and not RECORD.match(line) else lemmas).add(m.group(1))
    for f in files:
        text = open(f, encoding="utf-8").read()
        here = {m.group(1) for line, inside in lines_of(text) for m in [DECLARED.match(line)] if m and not inside}
        modules = set(re.findall(r"(?m)^use \S+ as (\S+)$", text))
        new = []
        for line, inside in lines_of(text):
            for name in fields:
                if name not in line:
                    continue
                to = OTHERWISE.get(name, name.replace("-", "_"))
                if name not in lemmas or inside:
                    line = re.sub(WORD % re.escape(name), to, line)
                else:
                    dotted = r"([A-Za-z0-9_'-]*[A-Za-z0-9_')])\." + re.escape(name) + r"(?![A-Za-z0-9_'-])"
                    line = re.sub(dotted, lambda m: m.group(0) if m.group(1) in modules else m.group(1) + "." + to, line)
                    line = re.sub(r"(?<=[{;] )" + re.escape(name) + r"(?= =( |$))", to, line)
                    if name not in here:
                        line = re.sub(r"^(\s+)" + re.escape(name) + r"(?= =( |$))", lambda m: m.group(1) + to, line)
            new.append(line)
        new = "\n".join(new)
        if new != text:
            open(f, "w", encoding="utf-8").write(new)


main()
