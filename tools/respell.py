#!/usr/bin/env python3
"""Brings the repository's own definitions and lemmas to today's spelling, once, after the kit's port.py.

usage: python3 tools/respell.py [FOLDER]     at the top of the repository, or of a copy of it (FOLDER)

Words are in snake case (`textAddress` is `text_address`). In the name of a lemma a dash joins two names: it stays where a
definition or function of the repository or of the library follows it, and is `_` before a plain word. Types, functions of
src/, exported names, strings and generated names keep theirs. Where two names would fall together, the lemma ends in
`_lem`, or the table OTHERS says what is written. It fails, and writes nothing, where two still do.
"""
import collections
import os
import re
import sys

# Names that would fall together with another in one file, and what is written in their place.
OTHERS = {"sent_word": "sent_word_lem", "group_lines": "group_lines_lem", "second_word": "second_word_lem", "kind-with": "kind_with_lem",
          "freshReceiver": "fresh_receiver", "freshStation": "fresh_station", "freshRecord": "fresh_record"}
# Functions of src/ whose definition has their name now, as the kit allows.
APART = {"list_code", "group_at", "header_of"}
# Words of the library after which a lemma is named.
LIBRARY = set("append length take drop get_or getD set cond eqb leb ltb le lt mem zero suc add sub mul div mod pow xor "
              "bit_xor bit_and bit_or map sum if not and or list bool one".split())
DECLARED = re.compile(
    r"^([ \t]*)((?:abbrev |unfoldable |pattern |pub |data |record )*)([^\s:(){}«»,]+)((?:[ ]*[({][^)}]*[)}])*) ?:", re.M)
WORD = re.compile(r"(?<![\w'\-])[A-Za-z_][\w'\-]*")


def files(root):
    for folder, dirs, names in os.walk(os.path.join(root, "crates")):
        dirs[:] = sorted(d for d in dirs if d != "out")
        for name in sorted(names):
            if name.endswith((".rt", ".antt", ".edit")):
                yield os.path.join(folder, name)


def pages(root):
    for name in ["README.md"] + sorted(os.path.join("docs", n) for n in os.listdir(os.path.join(root, "docs"))):
        if name.endswith(".md"):
            yield os.path.join(root, name)


def read(path):
    with open(path, encoding="utf-8") as f:
        return f.read()


def of_function(path):
    """A file of the proof of one function: what it declares is named by the kit."""
    inside = path.split("/proofs/")
    return len(inside) == 2 and "/" in inside[1]


def camel(name):
    return name[0].islower() and re.search(r"[a-z0-9][A-Z]", name)


def snake(part):
    if not camel(part):
        return part
    return re.sub(r"(?<=[a-z0-9])([A-Z])", lambda m: "_" + m.group(1).lower(), part)


def spelled(name, known):
    parts = [snake(p) if not re.fullmatch(r"\d+[A-Z]?", p) else p for p in name.split("-")]
    out = parts[0]
    for part in parts[1:]:
        out += ("-" if part in known else "_") + part
    return out


def main():
    root = sys.argv[1] if len(sys.argv) > 1 else "."
    text = {p: read(p) for p in files(root)}
    declared = collections.defaultdict(list)
    known, functions = set(LIBRARY), set()
    for p, t in text.items():
        if p.endswith(".rt"):
            functions |= set(re.findall(r"\bfn (\w+)", t))
        if not p.endswith(".antt"):
            continue
        for m in DECLARED.finditer(t):
            if of_function(p) and len(m.group(1)) == 0 and not m.group(3).endswith("-spec"):
                continue
            declared[m.group(3)].append((p, m.group(2), len(m.group(1))))
            if "abbrev" in m.group(2) or "unfoldable" in m.group(2):
                known.add(snake(m.group(3)))
    known |= functions
    taken = {snake(n) for n, at in declared.items() if any("abbrev" in m or "unfoldable" in m for _, m, _ in at)}
    names = dict(OTHERS)
    for name, at in declared.items():
        if name in functions or name.startswith("_"):
            continue
        new = spelled(name, known if any(depth == 0 for _, _, depth in at) else set()) if any(
            depth == 0 or "pub" in m for _, m, depth in at) else snake(name)
        if new != name and new in taken and not camel(name):
            new += "_lem"
        new = OTHERS.get(name, new)
        if new != name:
            names[name] = new
    report(text, names, declared, functions)
    for p, t in text.items():
        new = turned(p, t, names)
        if new != t:
            with open(p, "w", encoding="utf-8") as f:
                f.write(new)
    for p in pages(root):
        t = read(p)
        new = re.sub(r"`[^`\n]*`", lambda m: WORD.sub(lambda w: names.get(w.group(0), w.group(0)), m.group(0)), t)
        if new != t:
            with open(p, "w", encoding="utf-8") as f:
                f.write(new)
    print(f"respell: {len(names)} names")


def turned(path, t, names):
    generated = of_function(path)

    def word(m):
        w = m.group(0)
        if w not in names:
            return w
        before = t[max(0, m.start() - 1):m.start()]
        if before == ".":
            # what stands behind a dot is a path or a field; a kit's own names keep theirs
            head = re.search(r"([\w'\-]+)\.$", t[:m.start()])
            if head and head.group(1) in ("tie", "goal", "reads", "lts", "c", "l"):
                return w
        if generated and re.match(r"\s*:\s*(tie|goal)\.", t[m.end():]):
            return w
        return names[w]

    if path.endswith((".rt", ".edit")):
        return re.sub(r'"(?:[^"\\\n]|\\.)*"|' + WORD.pattern, lambda m: m.group(0) if m.group(0).startswith('"') else word(m), t)
    return WORD.sub(word, t)


def report(text, names, declared, functions):
    """Stops where two names of one file would be one."""
    bad = []
    for p, t in text.items():
        if p.endswith(".edit"):
            continue
        words = set(WORD.findall(re.sub(r"--[^\n]*|//[^\n]*", "", t)))
        new = collections.defaultdict(set)
        for w in words:
            new[names.get(w, w)].add(w)
        for n, olds in new.items():
            olds = {w for w in olds if w not in APART and (w not in functions or w in declared)}
            if len(olds) > 1:
                bad.append((p, n, sorted(olds)))
    for p, n, olds in bad:
        print(f"falls together: {p}: {n}: {', '.join(olds)}")
    if bad:
        raise SystemExit(1)


if __name__ == "__main__":
    main()
