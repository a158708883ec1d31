#!/usr/bin/env python3
"""Places in src/ where an older form may stand, by the points of docs/DESIGN-PASS.md.

    python3 tools/places.py [FOLDER]      a checkout; this one, if none is given

It finds places by their text, and judges none: that page does.
"""
import collections
import pathlib
import re
import sys

ROOT = pathlib.Path(sys.argv[1] if len(sys.argv) > 1 else pathlib.Path(__file__).parent.parent)
WORDS = {"let", "mut", "if", "else", "for", "in", "match", "return", "self", "Ok", "Err", "Some", "None", "loop", "while", "break", "true", "false", "as"}


def sources():
    for path in sorted(ROOT.glob("crates/*/src/**/*.rt")):
        yield path.relative_to(ROOT), path.read_text()


def functions():
    """Path, line, name, head and body of every function that has one."""
    for path, text in sources():
        for found in re.finditer(r"(?m)^([ ]*)(?:pub(?:\([a-z]+\))? )?fn ([a-z_0-9]+)", text):
            indent = found.group(1)
            opening = re.search(r"(?m)(^" + indent + r"\{| \{)$", text[found.start():])
            closing = opening and text.find("\n" + indent + "}", found.start() + opening.start())
            if not opening or closing < 0 or ";\n" in re.sub(r"\[[^\]]*\]", "", text[found.start():found.start() + opening.start()]):
                continue
            middle = found.start() + opening.end()
            yield path, text.count("\n", 0, found.start()) + 1, found.group(2), text[found.start():middle], text[middle:closing]


def blanked(body):
    """A body with its names and literals blanked."""
    body = re.sub(r"//.*", "", body)
    body = re.sub(r'b?"[^"]*"|b?\'[^\']*\'|\b0x[0-9A-Fa-f_]+\b|\b[0-9][0-9_]*\b', "0", body)
    body = re.sub(r"\b[A-Za-z_]\w*\b", lambda m: m.group(0) if m.group(0) in WORDS else "x", body)
    return re.sub(r"\s+", " ", body).strip()


def show(title, places):
    print(f"\n{title}: {len(places)}")
    for place in places:
        print("   ", place)


def lines_like(pattern):
    return [f"{path}:{number} {line.strip()}" for path, text in sources() for number, line in enumerate(text.split("\n"), 1) if re.search(pattern, line)]


def structs():
    for path, text in sources():
        for found in re.finditer(r"struct (\w+)[^{};(]*\{([^}]*)\}", text):
            yield path, found.group(1), re.findall(r"(?m)^\s*(?:pub(?:\([a-z]+\))? )?(\w+): ([^,\n]+),", found.group(2))


every = list(functions())

show("1. enums", lines_like(r"^\s*(pub(\([a-z]+\))? )?enum \w"))
show("1. numbers and words of an enum", [f"{p}:{n} {f}" for p, n, f, h, b in every if re.search(r"-> (u8|u32|&'static str)\b", h) and "match self" in b])
show("1. a flag among the fields", [f"{p} {name}.{field}" for p, name, fields in structs() for field, kind in fields if kind == "bool"])

alike = collections.defaultdict(list)
for p, n, f, h, b in every:
    if len(blanked(b)) > 12:
        alike[blanked(b)].append(f"{p}:{n} {f}")
show("2. functions with like bodies", ["; ".join(group) for group in alike.values() if len(group) > 1])
shapes = collections.defaultdict(list)
for p, name, fields in structs():
    if len(fields) > 1:
        shapes[tuple(field for field, kind in fields)].append(f"{p} {name}")
show("2. structs with like fields", ["; ".join(group) for group in shapes.values() if len(group) > 1])

show("3. loops", lines_like(r"^\s*('\w+: )?(for \S.* in |while |loop\b)"))
show("3. counted by hand", lines_like(r"\+= 1;"))

show("4. one match from value to value", [f"{p}:{n} {f}" for p, n, f, h, b in every if re.fullmatch(r"match [^{]*\{(.|\n)*\}", b.strip())])
show("4. printing", lines_like(r"impl.*\b(Display|Debug)\b.* for "))

clauses = collections.Counter()
for p, n, f, h, b in every:
    for clause in set(re.findall(r"(?:requires|ensures)\*?(?: \w+)? \{ (.*) \}", h)):
        clauses[clause] += 1
show("5. clauses of three or more functions", [f"{count} {clause}" for clause, count in sorted(clauses.items(), key=lambda t: -t[1]) if count > 2])
together = collections.Counter()
for p, n, f, h, b in every:
    inside = re.search(r"\((?:[^()]|\([^()]*\))*\)", h)
    parameters = re.findall(r"(\w+): ([^,()\n]+)", inside.group()) if inside else []
    for i, first in enumerate(parameters):
        for second in parameters[i + 1:]:
            together[first, second] += 1
show("5. parameters together in three or more functions", [f"{count} {a[0]}: {a[1]}, {b[0]}: {b[1]}" for (a, b), count in sorted(together.items(), key=lambda t: -t[1]) if count > 2])

show("6. a buffer with a number beside it", [f"{p} {name}: {', '.join(field for field, kind in fields)}" for p, name, fields in structs()
     if any("[" in kind or "Vec" in kind for field, kind in fields) and any(kind in ("usize", "u32") for field, kind in fields)])
show("6. two buffers", [f"{p} {name}: {', '.join(field for field, kind in fields)}" for p, name, fields in structs() if sum("[" in kind or "Vec" in kind for field, kind in fields) > 1])

show("7. a match whose arms are calls", [f"{p}:{n} {f}" for p, n, f, h, b in every
     if (arms := re.findall(r"=> (.*?),?\n", b)) and len(arms) > 1 and all(re.match(r"[\w:.*&]+(::<.*>)?\(|\{|Ok\(\w+\(", arm) for arm in arms)])

proofs = [path for path in ROOT.glob("crates/*/proofs/**/*.antt")]
print(f"\n8. files under proofs/: {len(proofs)}, lines: {sum(len(path.read_text().splitlines()) for path in proofs)}")
