#!/usr/bin/env python3
"""Brings the names of this repository's own definitions and lemmas to snake case, once, after the kit's port.py.

usage: python3 tools/respell.py        at the top of the repository

A name that specs/ or proofs/ declares in lower camel case, or with dashes between plain words, gets underscores: `isGiven` is `is_given`,
`both-held` is `both_held`. A lemma that would have its definition's name gets `_lem`. Types, modules, functions of src/ and the names that Rattle
makes keep theirs. It stops before it writes where two names would fall together in one of the proof files.
"""

import os
import re
import sys

WORD = r"[^\s(){}\[\];,.@\"«»&`:|]+"
BEFORE = r"(?<![^\s(){}\[\];,.@\"«»&`:|])"
BEHIND = r"(?![^\s(){}\[\];,.@\"«»&`:|])"
CAMEL = re.compile(r"[a-z][a-z0-9]*(?:[A-Z][A-Za-z0-9]*)+'*\Z")
DASHED = re.compile(r"[A-Za-z][A-Za-z0-9_']*(?:-[A-Za-z0-9_']+)+\Z")
SIGNED = re.compile(r"^\s*(?:(?:abbrev|unfoldable|pub)\s+)*((?:" + WORD + r"\s*,?\s+)+):\s")
RULESET = re.compile(r"^\s*(?:pub\s+)?ruleset\s+(" + WORD + r")\s*=")

# Lemmas that port.py had brought to their definitions' names, each with the crate whose proofs/*.antt cite it.
TURNED = {"ran_on": "replay", "top_start": "rules", "flagged_back": "face_replay"}


def files(root, ends):
    for folder, dirs, names in os.walk(os.path.join(root, "crates")):
        dirs[:] = sorted(d for d in dirs if d not in ("out", "data"))
        for name in sorted(names):
            if name.endswith(ends):
                yield os.path.join(folder, name)


def read(path):
    with open(path, encoding="utf-8") as f:
        return f.read()


def write(path, text):
    with open(path, "w", encoding="utf-8") as f:
        f.write(text)


def bare(text):
    return re.sub(r"--[^\n]*", "", text)


def declared(root):
    """The names that the files of specs/ and proofs/ declare: signatures, constructors, fields, rulesets."""
    found = set()
    for path in files(root, ".antt"):
        for line in bare(read(path)).split("\n"):
            m = RULESET.match(line)
            if m:
                found.add(m.group(1))
            m = SIGNED.match(line)
            if m:
                found |= set(re.findall(WORD, m.group(1)))
    return found


def snake(name):
    parts = []
    for part in name.split("-"):
        if CAMEL.match(part):
            part = re.sub(r"(?<=[a-z0-9])([A-Z])", lambda m: "_" + m.group(1).lower(), part).lower()
        parts.append(part)
    out = parts[0]
    for a, b in zip(parts, parts[1:]):
        # a dash stays beside a type
        out += ("-" if a[0].isupper() or b[0].isupper() else "_") + b
    return out


def new_names(found):
    names = {n: snake(n) for n in found if CAMEL.match(n)}
    words = set(names.values()) | {n for n in found if "-" not in n and not CAMEL.match(n)}
    for n in found:
        if DASHED.match(n):
            new = snake(n)
            names[n] = new + "_lem" if new in words and "-" in n else new
    return {a: b for a, b in names.items() if a != b}


def one_of(names):
    return re.compile(BEFORE + "(?:" + "|".join(sorted(map(re.escape, names), key=len, reverse=True)) + ")" + BEHIND)


def turn_lemmas(root):
    for name, crate in TURNED.items():
        folder = os.path.join(root, "crates", crate, "proofs")
        for f in sorted(os.listdir(folder)):
            if f.endswith(".antt"):
                path = os.path.join(folder, f)
                text = read(path)
                write(path, re.sub(r"(?<![\w.-])" + name + r"(?![\w.-])", name + "_lem", text))


def together(root, names):
    """Says where two names of a proof file would be one; in src/ a definition may have its function's name."""
    bad = 0
    for path in files(root, ".antt"):
        seen = {}
        text = re.sub(r"(?<=\.)" + WORD + r"(?=\.)", "", bare(read(path)))
        for w in set(re.findall(WORD, text)):
            seen.setdefault(names.get(w, w), set()).add(w)
        for new, olds in sorted(seen.items()):
            if len(olds) > 1:
                bad += 1
                print(f"{path}: {' and '.join(sorted(olds))} would be {new}")
    return bad


def page_name(word, kind, names, spelt):
    return names.get(word) or spelt.get(snake(word), word) if kind.match(word) else word


def main(root):
    found = declared(root)
    names = new_names(found)
    turn_lemmas(root)
    if together(root, names) and "--force" not in sys.argv:
        return 1
    word = one_of(names)
    for path in files(root, (".antt", ".rt", ".edit")):
        text = read(path)
        write(path, word.sub(lambda m: names[m.group(0)], text))
    # in a page a lemma that port.py had turned has its old dashes still, and prose has dashes of its own
    spelt = {snake(n): names.get(n, n) for n in found}
    pages = [os.path.join(root, "README.md")] + [os.path.join(root, "docs", f) for f in sorted(os.listdir(os.path.join(root, "docs"))) if f.endswith(".md")]
    for path in pages:
        text = re.sub(WORD, lambda m: page_name(m.group(0), CAMEL, names, spelt), read(path))
        write(path, re.sub(r"(?<=`)" + WORD + r"(?=`)", lambda m: page_name(m.group(0), DASHED, names, spelt), text))
    print(f"{len(names)} names")
    return 0


if __name__ == "__main__":
    raise SystemExit(main("."))
