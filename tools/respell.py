#!/usr/bin/env python3
"""Respells this repository's own definitions and lemmas: usage: respell.py [FOLDER] [--list]

After port.py, once. Declared names of specs/ and of the lemma files in proofs/ go to snake case, propositions and types to
upper camel case, and a prime is an apostrophe. Names from Rattle source, strings and comments of .rt files stay.
A lemma whose new name is a definition's gets `_lem`.
"""
import os
import re
import sys

PLACE = re.compile(r"[^\s(){}\[\].,;:«»\"`]+")
DECLARED = re.compile(r"^\s*((?:(?:abbrev|record|data|pub|unfoldable|opaque)\s+)*)([^\s(){}\[\],;.]+)((?:\s*(?:\{[^}]*\}|\([^)]*\)))*)\s+:(?:\s|$)")
# names that Rattle makes for a function's goals
MADE = re.compile(r"^(returns|loop|overflow|decreases|invariant|measure)-|-requires(-|$)")
# the scope's own letters, and a name that std has
KEPT = {"X", "E", "append-nil"}


def files(top, endings):
    for folder, dirs, names in os.walk(os.path.join(top, "crates")):
        dirs[:] = sorted(d for d in dirs if d not in ("out", ".git"))
        for n in sorted(names):
            if n.endswith(endings):
                yield os.path.join(folder, n)


def snake(name):
    name = re.sub(r"(?<=[a-z0-9])([A-Z])", lambda m: "_" + m[1].lower(), name)
    return re.sub(r"(?<=[A-Za-z0-9_'])-(?=[A-Za-z0-9])", "_", name)


def respelled(name):
    name = name.replace("′", "'")
    if name[0].isupper():
        if re.match(r"[XE]-", name):
            return name
        return re.sub(r"-([a-z])", lambda m: m[1].upper(), name)
    return snake(name)


def declared(top):
    """The declared names: name -> whether a definition has it (of a lemma otherwise)."""
    found = {}
    for path in files(top, ".antt"):
        part = path.split(os.sep)
        own = part[-2] in ("specs", "proofs")
        for line in open(path, encoding="utf-8"):
            m = DECLARED.match(line)
            if not m or line.strip().startswith("--") or m[2] in KEPT or MADE.search(m[2]):
                continue
            indent = len(line) - len(line.lstrip())
            if own or (indent == 0 and "-" not in m[2]):
                found[m[2]] = found.get(m[2], False) or "specs" in part or "abbrev" in m[1] or "unfoldable" in m[1]
    return found


def table(top):
    names = declared(top)
    turned = {n: respelled(n) for n in names if respelled(n) != n}
    held = {n for n in names if n not in turned} | {turned[n] for n in turned if names[n]}
    for n in turned:
        if not names[n] and turned[n] in held:
            turned[n] += "_lem"
    together = {}
    for n in turned:
        together.setdefault(turned[n], []).append(n)
    for new, olds in together.items():
        if len(olds) > 1 or new in names:
            print(f"falls together: {new}: {olds}", file=sys.stderr)
    return turned


def turn(text, names):
    return PLACE.sub(lambda m: names.get(m[0], m[0]), text)


def turn_rust(text, names):
    """Clauses and ghost items of a .rt file: every line but comments, outside of strings."""
    lines = []
    for line in text.split("\n"):
        if line.lstrip().startswith("//"):
            lines.append(line)
            continue
        parts = re.split(r'("(?:[^"\\]|\\.)*")', line)
        lines.append("".join(p if i % 2 else turn(p, names) for i, p in enumerate(parts)))
    return "\n".join(lines)


def main():
    words = [w for w in sys.argv[1:] if w != "--list"]
    top = words[0] if words else "."
    names = table(top)
    if "--list" in sys.argv:
        for n in sorted(names):
            print(n, names[n])
        return
    for path in files(top, (".antt", ".rt")):
        text = open(path, encoding="utf-8").read()
        new = turn(text, names) if path.endswith(".antt") else turn_rust(text, names)
        new = new.replace("′", "'")
        if new != text:
            open(path, "w", encoding="utf-8").write(new)


main()
