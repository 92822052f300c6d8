#!/usr/bin/env python3
"""Brings the repository's own definitions and lemmas to today's spelling: words in snake case, a dash only where it joins a name.

usage: python3 tools/respell.py        at the top of the repository, once, behind port.py

Types and modules keep their capitals, functions of src/ their names. A dash stays where the part behind it is the name of a
definition of specs/ or of std's most used functions, as in `length-laid`; elsewhere it becomes `_`. A lemma that would fall
together with another name gets the ending `_lem`. Files are rewritten in place: specs/, proofs/, the clauses of src/, the edits and docs/.
"""

import glob
import re

TOKEN = re.compile(r"(?<![\w'′₀-₉-])[A-Za-z](?:[\w'′₀-₉]|-(?=[\w₀-₉≤<]))*")
STD = {"length", "take", "drop", "append", "map", "reverse", "replicate", "get_or", "sum", "min", "max", "set"}
DEFINED = re.compile(r"^\s*(?:(?:pub|abbrev|unfoldable|data|record|ruleset)\s+)*([^\s:{}()\[\];,.«»λ→≡◌]+)(?:\s+\{[^}]*\})*\s*:(?!:)")


def files(kind):
    return sorted(p for p in glob.glob(f"crates/*/{kind}/*.antt"))


def defined(paths):
    names = set()
    for p in paths:
        with open(p, encoding="utf-8") as f:
            for line in f:
                m = DEFINED.match(line)
                if m:
                    names.add(m.group(1))
    return names


def snake(name):
    if name[0].isupper():
        # A type or a fact keeps its capitals.
        head = re.match(r"[^-_]+", name).group(0)
        return head + snake_words(name[len(head):])
    return snake_words(name)


def snake_words(name):
    return re.sub(r"(?<=[a-z0-9])([A-Z])(?=[a-z])", lambda m: "_" + m.group(1).lower(), name)


def main():
    specs = defined(files("specs"))
    own = specs | defined(files("proofs"))
    words = {snake(n) for n in specs if "-" not in n} | STD
    std = set()
    for p in glob.glob("crates/**/*.antt", recursive=True):
        with open(p, encoding="utf-8") as f:
            for m in re.finditer(r"^use (?!Rattle\.(?!std\b))[^;{]*\.\{([^}]*)\}", f.read(), re.M):
                std |= {w.strip() for w in m.group(1).split(",")}
    turned = {}
    for name in sorted(own):
        if name in std or not re.match(r"^[A-Za-z]", name):
            continue
        parts = snake(name).split("-")
        new = parts[0]
        for part in parts[1:]:
            new += ("-" if part in words or not part[:1].isalpha() else "_") + part
        if new != name:
            turned[name] = new
    # Where names fall together, the definition of specs/ has the name, and a lemma gets another ending.
    taken = {}
    for name in sorted(own, key=lambda n: (n not in specs, n in turned, n)):
        new = turned.get(name, name)
        if new in taken or (new in std and name in turned):
            other = new + "_lem"
            print(f"falls together: {name} -> {new} ({taken.get(new, 'a name of the library')}); {other} instead")
            turned[name] = new = other
        taken[new] = name
    count = 0
    for p in sorted(glob.glob("crates/**/*.antt", recursive=True) + glob.glob("crates/*/src/*.rt") + glob.glob("crates/*/must-fail/*.edit") + glob.glob("docs/*.md") + ["README.md"]):
        if "/out/" in p:
            continue
        with open(p, encoding="utf-8") as f:
            text = f.read()
        new = TOKEN.sub(lambda m: turned.get(m.group(0), m.group(0)), text)
        if p.endswith(".md"):
            # Prose has dashes of its own: only names in code are turned there.
            new = re.sub(r"`[^`\n]*`", lambda m: TOKEN.sub(lambda w: turned.get(w.group(0), w.group(0)), m.group(0)), text)
        if new != text:
            count += 1
            with open(p, "w", encoding="utf-8") as f:
                f.write(new)
    print(f"respell: {len(turned)} names in {count} files")


if __name__ == "__main__":
    main()
