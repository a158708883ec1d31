#!/usr/bin/env python3
"""Respells the repository's own definitions, lemmas and record fields: snake case, without camel case and dashes.

usage: python3 tools/respell.py [--dry]      at the top of the repository, after the toolchain's port.py

Types, records and their constructors keep upper camel case. Names of the code, names that the checker makes (goals, invariants,
measures), strings, inputs and outputs keep theirs. A dash stays where it joins the name of a list function to what a lemma says
of it, as in length-fill. In comments only names in camel case are respelled, since a dash there is a hyphen.
"""

import collections
import os
import re
import sys

# Names that fall together with another word in snake case, or that say an older name.
BY_HAND = {
    "are-four": "are_four_lem",
    "fill-at": "fill_at_lem",
    "load-refusal": "load_refusal_lem",
    "same-column": "same_column_lem",
    "same_text": "same_text_lem",
    "seventh-is": "seventh_is_lem",
    "unlockCode": "unlock_code",
}
JOINED = ("length-", "get_or-", "getD-")
WORD = re.compile(r"[A-Za-z_][A-Za-z0-9_'\u2115]*(?:-[A-Za-z0-9_'\u2115]+)*")
DECLARED = re.compile(r"((?:(?:abbrev|unfoldable|pub|record|data|ruleset)\s+)*)(\S+)( : | .* : Type|$)")
MADE = re.compile(r" : goal\.")


def files(ends):
    for folder, dirs, names in os.walk("crates"):
        dirs[:] = sorted(d for d in dirs if d not in ("out", "must-fail"))
        for name in sorted(names):
            if name.endswith(ends):
                yield os.path.join(folder, name)


def read(path):
    with open(path, encoding="utf-8") as f:
        return f.read()


def declared():
    """The names that files of specs/ and proofs/ declare, but for answers, invariants and measures."""
    found = set()
    for path in files(".antt"):
        for line in read(path).splitlines():
            if MADE.search(line) or line.startswith(("use ", "pub mod", "mod ", "--")):
                continue
            if line[:1] not in ("", " "):
                m = DECLARED.match(line)
                if m and (m.group(1) or m.group(3) == " : "):
                    found.add(m.group(2))
            else:
                m = re.match(r"\s+pub (\S+) : ", line) or re.match(r"\s{2}([a-z]\S*) : ", line)
                if m:
                    found.add(m.group(1))
    return {n for n in found if WORD.fullmatch(n)}


def snake(name):
    if name in BY_HAND:
        return BY_HAND[name]
    if name[0].isupper():
        return name
    to = re.sub(r"([a-z0-9])([A-Z])", lambda m: m.group(1) + "_" + m.group(2).lower(), name)
    to = to.replace("get_d-", "get_or-")
    for j in JOINED:
        if to.startswith(j):
            return j + to[len(j):].replace("-", "_")
    return to.replace("-", "_")


def split_comment(line, mark):
    at = line.find(mark)
    return (line, "") if at < 0 else (line[:at], line[at:])


def turned(text, names, mark):
    out = []
    for line in text.split("\n"):
        code, comment = split_comment(line, mark)
        code = "".join(
            part if part.startswith('"') else WORD.sub(lambda m: names.get(m.group(), m.group()), part)
            for part in re.split(r'("(?:[^"\\]|\\.)*")', code)
        )
        comment = WORD.sub(lambda m: m.group() if "-" in m.group() else names.get(m.group(), m.group()), comment)
        out.append(code + comment)
    return "\n".join(out)


def main():
    own = declared()
    names = {n: snake(n) for n in sorted(own | set(BY_HAND)) if snake(n) != n}
    words = collections.defaultdict(set)
    for path in files((".antt", ".rt")):
        for w in set(WORD.findall(read(path))):
            words[w].add(path)
    by_new = collections.defaultdict(list)
    for old, new in sorted(names.items()):
        by_new[new].append(old)
    for new, olds in sorted(by_new.items()):
        if len(olds) > 1 or new in words:
            print("look:", ", ".join(olds), "->", new, "stands in", *sorted(words.get(new, ()))[:4])
    if "--dry" in sys.argv:
        for old, new in sorted(names.items()):
            print(old, "->", new)
        return
    for path in list(files((".antt", ".rt"))):
        text = read(path)
        new = turned(text, names, "--" if path.endswith(".antt") else "//")
        if new != text:
            with open(path, "w", encoding="utf-8") as f:
                f.write(new)
    print(len(names), "names respelled")


if __name__ == "__main__":
    main()
