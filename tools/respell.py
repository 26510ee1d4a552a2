#!/usr/bin/env python3
"""Brings the repository's own definitions and lemmas to today's spelling: words in snake case, facts and types in
camel case; a dash stays only between the names of two definitions. Run once, at the top, after port.py.

    python3 tools/respell.py         # rewrites crates/*/{src,specs,proofs} in place
    python3 tools/respell.py --list  # only prints old and new names
"""
import collections
import glob
import re
import sys

NAME = r"[^\s(){}\[\];,.«»λ:⌜⌝]+"
ANSWERS = ("Answers.antt", "Invariants.antt", "Proof.antt", "Choices.antt")
# Words of the library that lemmas of this repository name.
WORDS = {"length", "take", "drop", "append", "map", "reverse", "cond", "not", "min", "nat_lt", "nat_le"}
# Aliases that port.py garbled, and names that would fall together with another.
BY_HAND = {"Limits-of": "limits_of"}


def files():
    for kind in ("specs", "proofs", "src"):
        for end in ("antt", "rt"):
            yield from sorted(glob.glob(f"crates/*/{kind}/**/*.{end}", recursive=True))


def is_answer(path):
    return path.rsplit("/", 1)[1] in ANSWERS


def goals(text):
    """The names that the check made and the file cites."""
    found = set(re.findall(r"\bgoal\.(%s)" % NAME, text))
    for names in re.findall(r"\.(?:Goals|Given)(?:\.\w+)*\.\{([^}]*)\}", text):
        found |= {n.strip().split(" as ")[0] for n in names.split(",")}
    return found


def library(text):
    """The names that the file takes from the library."""
    found = set()
    for module, names in re.findall(r"use ([\w.+-]+)\.\{([^}]*)\}", text):
        if module.startswith("Rattle.") and not re.match(r"Rattle\.(std|core|logic)\b", module):
            continue
        for name in names.split(","):
            found.add(name.strip().split(" as ")[-1])
            found.add(name.strip().split(" as ")[0])
    return found


def collect(texts):
    own = collections.defaultdict(set)
    for path, text in texts.items():
        if path.endswith(".antt"):
            made = goals(text) if is_answer(path) else set()
            for line in text.splitlines():
                m = re.match(r"^(\s*)(?:abbrev |unfoldable |pub |record |data )*(%s)(?:\s*:|\s+\(|\s+\{|\s*$)" % NAME, line)
                if m and ("-" in m.group(2) or "′" in m.group(2)) and m.group(2) not in made:
                    inner = "field" if m.group(1) else "top"
                    kind = "spec" if "/specs/" in path else "proof"
                    own[m.group(2)].add((kind, inner))
        for line in text.splitlines():
            if re.match(r"\s*(ghost )?use ", line):
                for alias in re.findall(r" as (%s)" % NAME, line):
                    if "-" in alias:
                        own[alias].add(("spec", "top"))
    return own


def known_words(texts):
    words = set(WORDS)
    for path, text in texts.items():
        if "/specs/" in path and path.endswith(".antt"):
            for m in re.finditer(r"^(?:abbrev |unfoldable |pub )*([a-z][^\s(){}\[\];,.:]*)\s*:", text, re.M):
                words.add(m.group(1).replace("-", "_"))
    return words


def respelled(name, kinds, words):
    if name in BY_HAND:
        return BY_HAND[name]
    name = name.replace("′", "'")
    if name[0].isupper():
        if any(kind == "spec" for kind, _ in kinds):
            return "".join(part[0].upper() + part[1:] for part in name.split("-"))
        return name
    if all(kind == "proof" and inner == "top" for kind, inner in kinds):
        parts, segments, i = name.split("-"), [], 0
        while i < len(parts):
            for j in range(len(parts), i, -1):
                word = "_".join(parts[i:j])
                if word in words or j == i + 1:
                    segments.append((word, word in words))
                    i = j
                    break
        out = segments[0][0]
        for (_, before), (word, here) in zip(segments, segments[1:]):
            out += ("-" if before and here else "_") + word
        return out
    return name.replace("-", "_")


TOKEN = re.compile(r"(?<![^\s(){}\[\];,.«»λ:⌜⌝])(\.?)(%s)" % NAME)


def rewrite(path, text, names, fields):
    kept = (goals(text) if path.endswith(".antt") else set()) | library(text)
    answer = is_answer(path)

    def one(m):
        name = m.group(2)
        new = names.get(name)
        if new is None or name in kept:
            return m.group(0)
        before = text[: m.start()]
        if m.group(1) == "." or before.endswith("."):
            if answer and re.search(r"\bc\.?$", before) and name not in fields:
                return m.group(0)
        return m.group(1) + new

    lines = []
    for line in text.splitlines(keepends=True):
        code, mark, comment = line.partition("//" if path.endswith(".rt") else "-- ")
        lines.append((code, mark, comment))
    # comments keep their words; code goes by token
    out, start = [], 0
    for m in TOKEN.finditer(text):
        out.append(text[start : m.start()])
        line_start = text.rfind("\n", 0, m.start()) + 1
        lead = text[line_start : m.start()]
        in_comment = re.match(r"\s*(//|--)", lead) is not None
        in_code = path.endswith(".rt") and not re.match(r"\s*(ghost|requires|ensures|law)\b", text[line_start : text.find("\n", m.start())])
        out.append(m.group(0) if in_comment or in_code else one(m))
        start = m.end()
    out.append(text[start:])
    return "".join(out)


def main():
    texts = {path: open(path, encoding="utf-8").read() for path in files()}
    own = collect(texts)
    words = known_words(texts)
    names = {n: respelled(n, kinds, words) for n, kinds in own.items()}
    names = {n: new for n, new in names.items() if n != new}
    fields = {n for n, kinds in own.items() if any(inner == "field" for _, inner in kinds)}
    images = collections.defaultdict(set)
    for old, new in names.items():
        images[new].add(old)
    tokens = {path: {m.group(2) for m in TOKEN.finditer(text)} for path, text in texts.items()}
    for new, olds in sorted(images.items()):
        if len(olds) > 1:
            print(f"fall together: {sorted(olds)} as {new}", file=sys.stderr)
        for path, seen in tokens.items():
            if new in seen and olds & seen:
                print(f"stands already: {new} ({sorted(olds)}) in {path}", file=sys.stderr)
    if "--list" in sys.argv:
        for old, new in sorted(names.items()):
            print(old, new)
        return
    for path, text in texts.items():
        new = rewrite(path, text, names, fields)
        if new != text:
            open(path, "w", encoding="utf-8").write(new)
    print(f"{len(names)} names", file=sys.stderr)


main()
