#!/usr/bin/env python3
"""Brings the repository's own definitions and lemmas to one spelling: snake case, and a capital where a definition is a type.

usage: tools/spelling.py [--dry]     at the top of the repository

A name that an .antt file declares in lower camel case, or with a dash between plain words, becomes snake case in every .antt, .rt and
.edit file. Names that Rust source declares, that Rattle makes, or that the kit's library has stay as they are. It was run once.
"""
import os
import re
import sys

WORD = re.compile(r"(?<![\w'-])[A-Za-z_][\w']*(?:-[\w']+)*")
DECLARED = re.compile(r"^\s*(?:(?:abbrev|unfoldable|pub)\s+)*([A-Za-z_][A-Za-z0-9_'-]*)\s*(?:\{[^}]*\}\s*)?:\s(.*)$")
TYPED = re.compile(r"^\s*(?:(?:abbrev|unfoldable|pub)\s+)*(?:data|record)\s+(?:pub\s+)?([A-Za-z_][A-Za-z0-9_'-]*)")
# A name whose type begins on the next line.
BELOW = re.compile(r"(?m)^[ ]*(?:(?:abbrev|unfoldable|pub) )*([A-Za-z_][\w'-]*)\n[ ]+: ")
# Lemmas that already had the spelling that a definition of the same words takes now.
LEMMAS = {"as_many", "go_on", "goes_on", "one_more", "place_end", "root_said", "row_word", "rows_end", "sum_rows", "value_in"}
# The one type that had a small letter, and where it is declared.
TYPE = ("within", "Within", "text_read_number.specs.Reads")


def texts(ends):
    for folder, dirs, files in os.walk("crates"):
        dirs[:] = sorted(d for d in dirs if d != "out")
        for f in sorted(files):
            if f.endswith(ends):
                yield os.path.join(folder, f)


def read(p):
    with open(p, encoding="utf-8") as f:
        return f.read()


def snake(name):
    parts = []
    for part in name.split("-"):
        if part[0].isupper():
            parts.append(part)
            continue
        parts.append(re.sub(r"(?<=[a-z0-9])([A-Z])", lambda m: "_" + m.group(1).lower(), part))
    # A dash stays behind a fact, a clause of upstream's or a bare letter, which keep their capital.
    out = parts[0]
    for before, part in zip(parts, parts[1:]):
        out += ("-" if before[0].isupper() or part[0].isupper() else "_") + part
    return out


def declared():
    names = set()
    for p in texts((".antt",)):
        text = read(p)
        for line in text.split("\n"):
            m = DECLARED.match(line)
            if m and not m.group(2).startswith(("tie.Need-", "tie.invariant-", "tie.decreases-", "goal.")):
                names.add(m.group(1))
        names.update(BELOW.findall(text))
    return names


def imported():
    """The names that come from the kit's library, which keep their spelling."""
    own = set(os.listdir("crates"))
    words = set()
    for p in texts((".antt", ".rt")):
        for m in re.finditer(r"\buse ([\w.+-]+)\.\{([^}]*)\}", read(p)):
            at = m.group(1).split(".")
            if at[0] != "Rattle" or at[1] not in own:
                words.update(WORD.findall(m.group(2)))
    return words


def functions():
    """The names of the functions of src, which a lemma does not take."""
    return {n for p in texts((".rt",)) for n in re.findall(r"\bfn ([a-z_0-9]+)", read(p))}


def turned(names):
    """Each name that changes, with its new spelling. A lemma that would get a definition's or a function's name ends in _lem."""
    kept = imported()
    turn, taken = {}, {n for n in names if snake(n) == n} | kept
    for n in sorted(names - kept):
        if "-" not in n and snake(n) != n:
            if snake(n) in taken - LEMMAS:
                print(f"look: {n}: {snake(n)} is taken")
            turn[n] = snake(n)
    taken |= set(turn.values())
    lemmas = taken | functions()
    for n in sorted(names - kept):
        if "-" in n and snake(n) != n:
            turn[n] = snake(n) + ("_lem" if snake(n) in lemmas else "")
            if turn[n] in taken:
                print(f"look: {n}: {turn[n]} is taken")
            taken.add(turn[n])
    return turn


def lemmas(text):
    return WORD.sub(lambda m: m.group(0) + "_lem" if m.group(0) in LEMMAS and text[m.start() - 1] != "." else m.group(0), text)


def main(argv):
    names = declared()
    turn = turned(names)
    print("look: names of the library, not turned:", sorted(n for n in names if snake(n) != n and n not in turn))
    print("look: lemmas that keep a name of their own:", sorted(n for n in turn.values() if n.endswith("_lem")))
    print(len(turn), "names")
    if "--dry" in argv:
        return
    for p in texts((".antt", ".rt", ".edit")):
        t = read(p)
        u = WORD.sub(lambda m: turn.get(m.group(0), m.group(0)), t if p.endswith(".rt") else lemmas(t))
        if re.search(re.escape(TYPE[2]) + r"\.\{[^}]*\b" + TYPE[0], t) or p.endswith("text_read_number/specs/Reads.antt"):
            u = re.sub(r"(?<![\w'-])" + TYPE[0] + r"(?![\w'-])", TYPE[1], u)
        if u != t:
            with open(p, "w", encoding="utf-8") as f:
                f.write(u)


if __name__ == "__main__":
    main(sys.argv[1:])
