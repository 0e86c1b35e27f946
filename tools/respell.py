#!/usr/bin/env python3
"""Respells this repository's own definitions and lemmas as the library of the toolchain spells its own:
words in snake case, types and records in camel case.

usage: python3 tools/respell.py          at the top of the repository, once, after the toolchain's own scripts

A name is taken where a file of specs/ or a lemma file of proofs/ defines it with a hyphen (a type also with an underscore): definitions, lemmas,
records, their fields, and lemmas local to another one. Answer files of functions define no such name, since their
names are the toolchain's. Names of functions of src/ stay.
"""
import os
import re
import sys

GENERATED = ("Answers.antt", "Invariants.antt", "Choices.antt", "Proof.antt")
WORD = r"[^\s(){}\[\];,.:λ@\"]+"
HEAD = r"(\s*)((?:pub |abbrev |unfoldable |opaque |instance |private )*)(?:(record|data) )?(" + WORD + r")\s*((?:[({].*)?)"
DEFINED = re.compile(HEAD + r":\s")
# a name whose type begins on the next line
ALONE = re.compile(HEAD + r"$")
GOES_ON = re.compile(r"\s+[:({]")


def texts():
    for folder, dirs, files in os.walk("crates"):
        dirs[:] = sorted(d for d in dirs if d != "out")
        for f in sorted(files):
            if f.endswith((".antt", ".rt")):
                yield os.path.join(folder, f)


def own_names():
    """The hyphenated names that specs/ and lemma files define, and those of them that are fields of records, or lemmas."""
    names, fields, lemmas, library = set(), set(), set(), set()
    for path in texts():
        for m in re.finditer(r"use Rattle\.std\.[\w.]*\.\{([^}]*)\}", open(path, encoding="utf-8").read()):
            library |= {w.strip() for w in m.group(1).split(",")}
    for path in texts():
        if not path.endswith(".antt") or os.path.basename(path) in GENERATED:
            continue
        # how far the record is set in whose fields these lines are, or -1
        record = -1
        lines = open(path, encoding="utf-8").read().splitlines()
        for line, after in zip(lines, lines[1:] + [""]):
            if line.strip().startswith("--"):
                continue
            inset = len(line) - len(line.lstrip())
            if line.strip() and inset <= record:
                record = -1
            if re.match(r"\s*(?:pub )?record \w", line):
                record = inset
            m = DEFINED.match(line) or (GOES_ON.match(after) and ALONE.match(line))
            # the toolchain's scripts leave a type with an underscore, as Some_type
            if m and re.search(r"(?<=.)-|^[A-Z][a-z]+_", m.group(4)):
                names.add(m.group(4))
                # a lemma is a value, also where its name begins with that of a type
                if "/proofs/" in path and not m.group(3) and not (line + after).rstrip().endswith("Type 0"):
                    lemmas.add(m.group(4))
                if 0 <= record < inset:
                    fields.add(m.group(4))
    return names - library, fields, lemmas


def respelled(name, is_lemma):
    parts = re.split("[-_]" if name[0].isupper() else "-", name.replace("getD", "get_or"))
    if parts[0][0].isupper() and is_lemma:
        parts[0] = parts[0][0].lower() + parts[0][1:]
    elif parts[0][0].isupper():
        return "".join(p[0].upper() + p[1:] for p in parts)
    return "_".join(parts)


def main():
    names, fields, lemmas = own_names()
    new = {n: respelled(n, n in lemmas) for n in names}
    for n in sorted(names):
        if list(new.values()).count(new[n]) > 1:
            print(f"look: {n} becomes {new[n]}, and so does another name")
    pattern = re.compile(r"(?<![\w'-])(" + "|".join(re.escape(n) for n in sorted(names, key=len, reverse=True)) + r")(?![\w'-])")

    def turned(m):
        after_dot = m.start() > 0 and m.string[m.start() - 1] == "."
        return m.group(1) if after_dot and m.group(1) not in fields else new[m.group(1)]

    for path in texts():
        old = open(path, encoding="utf-8").read()
        if path.endswith(".antt"):
            text = pattern.sub(turned, old)
        else:
            # in code only the lines that hold clauses, ghost members or imports of them
            text = "".join(l if l.lstrip().startswith("//") else pattern.sub(turned, l) for l in old.splitlines(keepends=True))
        for n in names:
            if new[n] != n and re.search(r"(?<![\w'.-])" + re.escape(new[n]) + r"(?![\w'-])", old):
                print(f"look: {path} has {new[n]} already, and {n} becomes that")
        if text != old:
            open(path, "w", encoding="utf-8").write(text)
    print(f"respelled {len(names)} names")
    return 0


if __name__ == "__main__":
    sys.exit(main())
