#!/usr/bin/env python3
"""Counts the places of older forms in src/, for docs/DESIGN-PASS.md.

usage: python3 tools/forms.py [-v] [COMMIT]     at the top of the repository; the files as they stand, or as they were in COMMIT

A line for each kind of place, with its number; -v lists the places. It finds by shape alone: which of them stay, and why, says the page.
"""
import collections
import re
import subprocess
import sys

FUNCTION = re.compile(r"^( *)((?:pub(?:\(crate\))? )?(?:extern \"C\" )?(?:const )?)fn (\w+)", re.M)
WIDENING = {("u8", "u16"), ("u8", "u32"), ("u8", "u64"), ("u8", "usize"), ("u16", "u32"), ("u16", "u64"), ("u16", "usize"), ("u32", "u64"),
            ("bool", "u64")}


def files(commit):
    """Each .rt file of src/ with its text."""
    if commit:
        names = subprocess.run(["git", "ls-tree", "-r", "--name-only", commit, "crates"], capture_output=True, text=True, check=True).stdout
    else:
        names = subprocess.run(["git", "ls-files", "crates"], capture_output=True, text=True, check=True).stdout
    for name in sorted(names.split("\n")):
        if "/src/" in name and name.endswith(".rt"):
            if commit:
                text = subprocess.run(["git", "show", f"{commit}:{name}"], capture_output=True, text=True, check=True).stdout
            else:
                text = open(name, encoding="utf-8").read()
            yield name, text


def functions(name, text):
    """Each function: its line, its name, its parameters, its clauses, its body."""
    for found in FUNCTION.finditer(text):
        start = text.index("(", found.end())
        depth, at = 0, start
        while True:
            depth += {"(": 1, ")": -1}.get(text[at], 0)
            at += 1
            if depth == 0:
                break
        opened = re.compile(r"^" + found.group(1) + r"\{$|\{$", re.M).search(text, at)
        closed = re.compile(r"^" + found.group(1) + r"\}", re.M).search(text, opened.end())
        yield {"file": name, "line": text.count("\n", 0, found.start()) + 1, "name": found.group(3), "public": "pub" in found.group(2),
               "parameters": text[start + 1:at - 1], "head": text[at:opened.start()], "body": text[opened.end():closed.start()]}


def shape(code):
    """Code with its names, numbers and texts replaced, in the order in which they come."""
    code = re.sub(r"//[^\n]*", "", code)
    seen = {}

    def word(found):
        w = found.group(0)
        if w in {"if", "else", "match", "while", "for", "in", "let", "mut", "return", "as", "fn", "pub", "true", "false", "usize", "bool"}:
            return w
        if w[0].isdigit():
            return "0"
        if re.fullmatch(r"u8|u16|u32|u64|i64|isize", w):
            return "T"
        return seen.setdefault(w, f"v{len(seen)}")
    code = re.sub(r'b?"[^"]*"', '"text"', code)
    return re.sub(r"\s+", " ", re.sub(r"\b\w+\b", word, code)).strip()


def parameters(text):
    return [re.sub(r"\s+", " ", p.strip()) for p in text.split(",") if ":" in p]


def where(f):
    return f"{f['file']}:{f['line']} {f['name']}"


def main():
    words = sys.argv[1:]
    loud = "-v" in words
    words = [w for w in words if w != "-v"]
    commit = words[0] if words else None
    found = collections.OrderedDict()

    def place(kind, text):
        found.setdefault(kind, []).append(text)
    kinds = ["1 own enums", "1 a bool beside a value in a struct", "1 numbers for kinds or refusals", "2 functions of one shape",
             "3 while loops", "3 for loops over an index", "4 a match or an if that only answers yes or no",
             "4 yes or no as a number by hand", "4 conversions by as", "4 printing of a label or a number by a function of its own",
             "5 a clause in three or more contracts", "5 parameters in three or more functions together",
             "6 a buffer with a length beside", "6 an array with a count or marks beside", "7 a flag that chooses what is done"]
    for kind in kinds:
        found[kind] = []
    shapes, clauses, together = collections.defaultdict(list), collections.defaultdict(list), collections.defaultdict(list)
    for name, text in files(commit):
        for e in re.finditer(r"^(?:pub(?:\(crate\))? )?enum (\w+)[^{]*\{(.*?)^\}", text, re.M | re.S):
            cases = re.findall(r"^    (\w+)", e.group(2), re.M)
            place("1 own enums", f"{name}:{text.count(chr(10), 0, e.start()) + 1} {e.group(1)} {{{', '.join(cases)}}}")
        for s in re.finditer(r"^(?:pub(?:\(crate\))? )?struct (\w+)[^{;]*\{(.*?)^\}", text, re.M | re.S):
            fields = re.findall(r"^    (?:pub(?:\(crate\))? )?(\w+): ([^\n]*),", s.group(2), re.M)
            line = text.count("\n", 0, s.start()) + 1
            if any(t == "bool" for _, t in fields) and any(t != "bool" for _, t in fields):
                place("1 a bool beside a value in a struct", f"{name}:{line} {s.group(1)} ({', '.join(n for n, t in fields if t == 'bool')})")
            arrays = [n for n, t in fields if t.startswith("[")]
            if arrays and len(fields) > 1:
                place("6 an array with a count or marks beside", f"{name}:{line} {s.group(1)} ({', '.join(n for n, _ in fields)})")
        for f in functions(name, text):
            body = f["body"]
            if re.search(r"^ *(?:\w+::)*\w+(?:\([^)]*\))? => (?:0x)?\d+,|^ *\d+ => |-> isize|^ *-1$", body + f["head"], re.M):
                place("1 numbers for kinds or refusals", where(f))
            for w in re.finditer(r"^ *while [^\n]*", body, re.M):
                place("3 while loops", where(f))
            for w in re.finditer(r"^ *for (\w+) in [^\n]*\.\.", body, re.M):
                if w.group(1) != "_":
                    place("3 for loops over an index", where(f))
            arms = re.findall(r"=> ([^\n]*)", body)
            if "-> bool" in f["head"] and arms and all(a.strip(" ,") in {"true", "false"} for a in arms):
                place("4 a match or an if that only answers yes or no", where(f))
            if re.search(r"if [^{}]*\{\s*(?:return )?(\w+::\w+\()?1\)?;?\s*\}\s*(?:else \{)?\s*\S*0", body):
                place("4 yes or no as a number by hand", where(f))
            for _ in re.finditer(r" as (u8|u16|u32|u64|usize|isize)\b", body):
                place("4 conversions by as", where(f))
            if re.search(r"^(write|write_\w+|number|end_line|say|digit)$", f["name"]) and "Print" in f["parameters"] and "bytes" not in f["name"]:
                place("4 printing of a label or a number by a function of its own", where(f))
            for c in re.findall(r"requires \{ (.*?) \}\n", f["head"] + "\n", re.S):
                clauses[re.sub(r"\s+", " ", re.sub(r"\b\d+\b", "n", c))].append(where(f))
            ps = sorted(parameters(f["parameters"]))
            for i, p in enumerate(ps):
                for q in ps[i + 1:]:
                    together[(p, q)].append(where(f))
            if re.search(r"let mut \w+ = \[(?:0u8|\w+); \w+\];", body) and re.search(r"&\w+\[\.\.\w+\]", body):
                place("6 a buffer with a length beside", where(f))
            flags = re.findall(r"(\w+): bool", f["parameters"])
            if any(re.search(r"\bif !?" + g + r"\b", body) for g in flags):
                place("7 a flag that chooses what is done", where(f))
            if len(body.strip().split("\n")) > 1 or "capi_c" not in name and "_c/" not in name:
                types = re.sub(r"\b\w+:", "", f["parameters"])
                shapes[shape(types + f["head"].split("\n")[0].split("ensures")[0] + "{" + body + "}")].append(f)
    for group in shapes.values():
        if len(group) > 1:
            for f in group:
                place("2 functions of one shape", f"{where(f)}  [{len(group)} alike, first {group[0]['name']}]")
    for clause, places in clauses.items():
        if len(places) > 2:
            place("5 a clause in three or more contracts", f"{clause}: {len(places)}")
    for (p, q), places in sorted(together.items()):
        if len(places) > 2:
            place("5 parameters in three or more functions together", f"{p}, {q}: {len(places)}")
    for kind, places in found.items():
        print(f"{len(places):5} {kind}")
        if loud:
            for p in places:
                print("        " + p)


main()
