#!/usr/bin/env python3
"""Spells this repository's own definitions, lemmas and fields of records in snake case: types, facts and modules keep their capitals.

usage: python3 tools/respell.py        at the top, once, after port.py of the kit

Names of src/ (functions, fields, constants, variants) keep their spelling. A lemma that would have a definition's name gets `_lem`.
It prints each name that it turned, old and new.
"""

import glob
import re

SPECS = sorted(glob.glob("crates/*/specs/**/*.antt", recursive=True))
LEMMAS = sorted(glob.glob("crates/*/proofs/*.antt"))
PROOFS = sorted(glob.glob("crates/*/proofs/**/Proof.antt", recursive=True))
SOURCES = sorted(glob.glob("crates/*/src/*.rt"))
EDITS = sorted(glob.glob("crates/*/must-fail/*.edit"))

WORD = r"[^\W\d][\w'-]*"
DECLARED = re.compile(r"^( *)(?:pub |abbrev |unfoldable )*(" + WORD + r"|◌[^\s:]+◌)(?: \{[^}]*\})? *:(?!=)")
RESERVED = {"record", "data", "module", "use", "open", "infix", "infixl", "infixr", "mod", "unfolding", "let", "elim", "in"}
TOKEN = re.compile(r"(?<![\w'◌-])(" + WORD + r")(?![\w'◌-]|-\w)")
MIXFIX = re.compile(r"◌(\w+)◌")


def text(path):
    with open(path, encoding="utf-8") as f:
        return f.read()


def declared(paths):
    names = set()
    for path in paths:
        for line in text(path).split("\n"):
            m = DECLARED.match(line)
            if m and m[2] not in RESERVED:
                names.add(m[2])
    return names


def snake(name):
    name = name.replace("-", "_")
    name = re.sub(r"(?<=[a-z0-9])(?=[A-Z])|(?<=[A-Z])(?=[A-Z][a-z])", "_", name)
    return name.lower()


def names_of_sources():
    """Names in src/ outside comments, clauses and ghost use."""
    found = set()
    for path in SOURCES:
        code = re.sub(r"//.*", "", text(path))
        code = re.sub(r"ghost use [^;]*;", "", code)
        code = re.sub(r"(requires|ensures)( \w+)? \{[^\n]*\}", "", code)
        found |= set(re.findall(r"[A-Za-z_]\w*", code))
    return found


def turned():
    old = {n for n in declared(SPECS + LEMMAS + PROOFS) if n[0].islower() or n[0] == "◌"}
    goals = {m[1] for p in PROOFS for m in re.finditer(r"(?m)^(?:pub |abbrev )*(" + WORD + r") : (?:tie|\{M)", text(p))}
    old -= goals - declared(SPECS + LEMMAS)
    stated = declared(SPECS)
    new = {n: snake(n) for n in old}
    by_new = {}
    for n in sorted(old):
        by_new.setdefault(new[n], []).append(n)
    for together in by_new.values():
        if len(together) > 1:
            keeps = sorted(together, key=lambda n: (n not in stated, "-" in n))[0]
            for n in together:
                if n != keeps:
                    new[n] += "_lem"
    seen = {}
    for n, to in new.items():
        if to in seen:
            raise SystemExit(f"{n} and {seen[to]} fall together")
        seen[to] = n
    return {n: to for n, to in new.items() if n != to}


def respell(line, new, fields):
    def one(m):
        name = m[1]
        if name not in new:
            return m[0]
        before, behind = line[: m.start()], line[m.end() :]
        if name in fields:
            # a field of a struct of src/: read by a dot (but not behind a module that is called name), or set in a record
            if before.endswith(".") and not before.endswith("name."):
                return m[0]
            if re.match(r"\s+$", before) and re.match(r" = ", behind):
                return m[0]
        return new[name]

    line = TOKEN.sub(one, line)
    return MIXFIX.sub(lambda m: "◌" + new.get("◌" + m[1] + "◌", "◌" + m[1] + "◌")[1:-1] + "◌", line)


def main():
    new = turned()
    for n in [n for n in new if n[0] == "◌"]:
        new.setdefault(n[1:-1], new[n][1:-1])
    fields = names_of_sources()
    for path in SPECS + LEMMAS + PROOFS:
        lines = text(path).split("\n")
        with open(path, "w", encoding="utf-8") as f:
            f.write("\n".join(respell(l, new, fields) for l in lines))
    clause = re.compile(r"ghost use [^;]*;|(?:requires|ensures)(?: \w+)? \{[^\n]*\}|//[^\n]*")
    for path in SOURCES:
        t = clause.sub(lambda m: respell(m[0], new, fields), text(path))
        with open(path, "w", encoding="utf-8") as f:
            f.write(t)
    for path in EDITS:
        lines = text(path).split("\n")
        with open(path, "w", encoding="utf-8") as f:
            f.write("\n".join(respell(l, new, fields) if l.startswith(("old:", "new:")) else l for l in lines))
    for n in sorted(new):
        print(n, new[n])


if __name__ == "__main__":
    main()
