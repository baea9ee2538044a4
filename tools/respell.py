#!/usr/bin/env python3
"""Spells the repository's own definitions, fields and lemmas as today's Rattle does: words in snake case, a dash only between two names.

usage: python3 tools/respell.py [--check]        at the top of the repository, once, after the kit's port.py

A name is own if a file of specs/ or of proofs/ (but for a function's Proof.antt) declares it. camelCase becomes snake_case; of a dashed
name a dash stays where it joins two names of definitions, and is an underscore elsewhere. What is Rust's (functions of src/, exported
names, strings) and what Rattle makes stays. Where the new spelling is another name already in a file that has the old one, the
name is listed in MEETING with a spelling of its own; the script stops at one that is not.
"""

import os
import re
import sys

WORD = re.compile(r"[^\s(){}.;,@\"«»:]+")
DECLARED = re.compile(
    r"^( *)(?:(?:pub|abbrev|unfoldable|opaque|record|data) )*([^\s(){}.;,@\"«»:]+)(?: [({][^\n]*)? : "
)
STRING = re.compile(r"\"(?:[^\"\\\n]|\\.)*\"")
# Names of the logic's definitions that lemmas are named after.
LOGIC = set(
    "length take drop set get_or append replicate map sum reverse add sub mul div mod pow suc zero cons concat min max eqb leb ltb cond nat int".split()
)
# Names of the libraries that a file of ours declares as well.
KEPT = set("length-set length-append length-drop length-take take-append drop-append".split())
# Names that are declared beside others on one line, or bound by a let.
BESIDE = "sourceEmpty otherCard overLimit noRun noFit cellFull notNext newCounts newTableau roomBy uSeats uPiles uOnly".split()
# A new spelling that would be another name's.
MEETING = {"known-hands": "known_hands_lem"}


def files(top):
    for folder, dirs, names in os.walk(os.path.join(top, "crates")):
        dirs[:] = sorted(d for d in dirs if d != "out")
        for name in sorted(names):
            if name.endswith((".antt", ".rt", ".edit")):
                yield os.path.join(folder, name)


def read(path):
    with open(path, encoding="utf-8", newline="") as f:
        return f.read()


def is_walk(path):
    return os.path.basename(path) in ("Proof.antt", "Answers.antt", "Invariants.antt") and "/proofs/" in path and path.split("/proofs/")[1].count("/") > 0


def snake(word):
    word = word.replace("getD", "get_or")
    return re.sub(r"(?<=[a-z0-9])[A-Z]", lambda m: "_" + m[0].lower(), word)


def is_camel(word):
    return bool(re.match(r"[a-z][A-Za-z0-9'₀-₉-]*$", word) and re.search(r"[a-z0-9][A-Z]", word))


def declared(paths):
    own, heads, stated = set(), set(), set()
    for path in paths:
        if not path.endswith(".antt") or is_walk(path):
            continue
        for line in read(path).splitlines():
            m = DECLARED.match(line)
            if m and not line.lstrip().startswith("--"):
                own.add(m[2])
                if "/specs/" in path:
                    stated.add(m[2])
                if "/specs/" in path and not m[1]:
                    heads.add(snake(m[2]))
    return own, heads, stated


def spelling(name, heads):
    parts = name.split("-")
    if parts[0][:1].isdigit():
        return name
    new = [snake(p) if p[:1].islower() else p for p in parts]
    out = new[0]
    for left, right in zip(new, new[1:]):
        joins = left in heads and right in heads
        out += ("-" if joins else "_") + right
    return out


def rust_names(paths):
    """Parameters, fields and labels, which clauses and proofs name as they stand."""
    names = set()
    for path in paths:
        if path.endswith(".rt"):
            names |= set(re.findall(r"\b(\w+)\s*:(?!:)", read(path)))
            names |= set(re.findall(r"\b(?:requires|ensures|ghost)\*? +(\w+) *\{", read(path)))
    return names


def table(paths):
    own, heads, stated = declared(paths)
    heads |= LOGIC
    own |= set(BESIDE)
    rust = rust_names(paths)
    rows = {}
    for name in sorted(own):
        if name in KEPT or not ("-" in name or is_camel(name)):
            continue
        new = MEETING.get(name) or spelling(name, heads)
        if new != name:
            rows[name] = new
    # A definition keeps the plain spelling; a lemma that would have its name is called so with _lem.
    taken = {rows.get(n, n) for n in own if is_camel(n)} | {n for n in own if n in stated and n not in rows}
    for name in sorted(own):
        if not is_camel(name) and name not in MEETING and name in rows and rows[name] in taken:
            rows[name] += "_lem"
        elif name not in rows and name not in stated and name in taken and name not in rust:
            rows[name] = name + "_lem"
    return rows


def code(text):
    """The parts of a text: (is it code, the text), a comment and a string being none."""
    at = 0
    for m in re.finditer(r"\"(?:[^\"\\\n]|\\.)*\"|(?<![^\s(){},;])--[^\n]*|//[^\n]*", text):
        yield True, text[at : m.start()]
        yield False, m[0]
        at = m.end()
    yield True, text[at:]


def turn(text, rows):
    def one(m):
        return rows.get(m[0], m[0])

    def camel(m):
        return rows.get(m[0], m[0]) if is_camel(m[0]) else m[0]

    out = ""
    for is_code, part in code(text):
        if is_code:
            out += WORD.sub(one, part)
        elif part.startswith('"'):
            out += part
        else:
            out += re.sub(r"[a-z][A-Za-z0-9-]*", camel, part)
    return out


def meeting(paths, rows):
    bad = {}
    news = {}
    for old, new in rows.items():
        news.setdefault(new, []).append(old)
    for path in paths:
        if path.endswith(".edit") or is_walk(path):
            continue
        text = read(path)
        words = {w for is_code, part in code(text) if is_code for w in WORD.findall(part)}
        others = words if path.endswith(".antt") else set(re.findall(r"\b(\w+)\s*:(?!:)", text))
        for old in words & rows.keys():
            new = rows[old]
            twins = [o for o in news[new] if o != old and o in words]
            if (new in others and new not in rows) or twins:
                bad.setdefault((old, new), []).append(path)
    return bad


def main(argv):
    top = "."
    paths = list(files(top))
    rows = table(paths)
    bad = meeting(paths, rows)
    if "--list" in argv:
        for old, new in rows.items():
            print(old, new)
    for (old, new), where in sorted(bad.items()):
        print(f"meets: {old} {new} in {len(where)}: {where[:3]}")
    if bad or "--check" in argv:
        return 1 if bad else 0
    for path in paths:
        text = read(path)
        new = turn(text, rows)
        if new != text:
            with open(path, "w", encoding="utf-8", newline="") as f:
                f.write(new)
    print(f"{len(rows)} names")
    return 0


if __name__ == "__main__":
    sys.exit(main(sys.argv[1:]))
