#!/usr/bin/env python3
"""Respells this repository's own definitions and lemmas: words in snake case, facts in camel case.

usage: python3 tools/respell.py        once, at the top, after the kit's port.py

Every name that a file of specs/ or proofs/ defines, a record's fields among them, goes from `blockWords` or
`block-words` to `block_words`, and a fact from `Has-past` to `HasPast`. A lemma whose new name a definition has already
gets `_lem`. Comments keep their words but for names in camel case; strings, code and the names that Rattle makes (goals,
steps) stay.
"""

import os
import re
import sys

DEFINED = re.compile(
    r"^(\s*)((?:(?:abbrev|pub|unfoldable|record|data|ruleset)\s+)*)([^\W\d][\w'-]*)((?:\s+[^\W\d][\w'-]*)*)\s*(?:[({][^=]*)?:\s"
)
GIVEN = re.compile(r":\s*(goal|Given)\.")
TOKEN = re.compile(r"(\.?)([^\W\d][\w'-]*)")
CAMEL = re.compile(r"\b[a-z][a-z0-9]*(?:[A-Z][a-z0-9]*)+\b")
# lemmas whose dash the kit's script had turned already, and whose name a definition takes now
TAKEN = {"take_by": "take_by_lem"}


def files(root):
    for folder, dirs, names in os.walk(os.path.join(root, "crates")):
        dirs[:] = sorted(d for d in dirs if d not in ("out", "must-fail"))
        for name in sorted(names):
            if name.endswith((".antt", ".rt")):
                yield os.path.join(folder, name)


def respelled(name):
    if name[0].isupper():
        return "".join(w[0].upper() + w[1:] for w in name.split("-")) if "-" in name else name
    snake = re.sub(r"([a-z0-9])([A-Z])", lambda m: m.group(1) + "_" + m.group(2).lower(), name).replace("-", "_")
    return snake[0].lower() + snake[1:]


def defined(root):
    """The names that files of specs/ and proofs/ define: all, and those that may stand behind a dot."""
    every, dotted = set(), set()
    for path in files(root):
        if not path.endswith(".antt"):
            continue
        with open(path, encoding="utf-8") as f:
            for line in f:
                if line.startswith("use ") or line.lstrip().startswith("--") or GIVEN.search(line):
                    continue
                m = DEFINED.match(line)
                if m:
                    names = [m.group(3)] + m.group(4).split()
                    every.update(names)
                    if m.group(1):
                        dotted.update(names)
    return every, dotted


def mapping(every):
    turned = {n: respelled(n) for n in every}
    plain = {t for n, t in turned.items() if "-" not in n}
    for n in list(turned):
        if "-" in n and turned[n] in plain and not n[0].isupper():
            turned[n] += "_lem"
    turned.update({n: t for n, t in TAKEN.items() if n in every})
    seen = {}
    for n in sorted(turned):
        seen.setdefault(turned[n], []).append(n)
    for t, ns in sorted(seen.items()):
        if len(ns) > 1:
            print(f"falls together: {t}: {' '.join(ns)}")
    return {n: t for n, t in turned.items() if n != t}


def split_comment(line, mark):
    """The line before its comment, and the comment; a mark within a string is no comment."""
    inside = False
    i = 0
    while i < len(line):
        if line[i] == '"' and (i == 0 or line[i - 1] not in "\\'"):
            inside = not inside
        if not inside and line.startswith(mark, i):
            return line[:i], line[i:]
        i += 1
    return line, ""


def turn(text, mark, names, dotted):
    def word(m):
        dot, name = m.groups()
        if name not in names or (dot and name not in dotted):
            return m.group(0)
        return dot + names[name]

    out = []
    for line in text.split("\n"):
        code, comment = split_comment(line, mark)
        parts = re.split(r'("(?:[^"\\]|\\.)*")', code)
        parts = [p if p.startswith('"') else TOKEN.sub(word, p) for p in parts]
        comment = CAMEL.sub(lambda m: names.get(m.group(0), m.group(0)), comment)
        out.append("".join(parts) + comment)
    return "\n".join(out)


def main():
    root = sys.argv[1] if len(sys.argv) > 1 else "."
    every, dotted = defined(root)
    names = mapping(every)
    n = 0
    for path in files(root):
        with open(path, encoding="utf-8") as f:
            old = f.read()
        new = turn(old, "--" if path.endswith(".antt") else "//", names, dotted)
        if new != old:
            n += 1
            with open(path, "w", encoding="utf-8") as f:
                f.write(new)
    print(f"{len(names)} names respelled in {n} files")


if __name__ == "__main__":
    main()
