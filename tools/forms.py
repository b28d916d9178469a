#!/usr/bin/env python3
"""Counts the places of docs/DESIGN-PASS.md's points in crates/*/src/*.rt.

usage: python3 tools/forms.py [--list ROW] [CHECKOUT]

Each row is counted on the sources without comments, `ghost use` lines and the clauses of contracts, but for the rows of facts,
which are counted in the clauses. `--list ROW` prints each place of a row. A row says what was looked for; whether a place that is
found is to be changed or to be kept is for a reader to say.
"""
import collections
import glob
import os
import re
import sys

ROWS = collections.OrderedDict([
    ("1a", "enums with a case for nothing read, found or granted (Refused, Nothing, Unread)"),
    ("1b", "results that are a number where one number stands for none: literals 11, 16, 19, 64, 65, 66, 67, 65535 returned"),
    ("1c", "questions and refusals of moves written as numbers"),
    ("1d", "functions that only wrap a refusal again"),
    ("1e", "structs with a flag beside the value that it speaks of"),
    ("2a", "helpers that differ by width or crate (put, store, wide, cell, least, both, byte, ..)"),
    ("2b", "pairs of tables that differ in size (arrays of two sizes lent to one function)"),
    ("3a", "while"),
    ("3b", "loop"),
    ("4a", "casts by a remainder"),
    ("4b", "copies of a field into a name of the same name"),
    ("4c", "equality, choice of the least and tests of a case by hand (same_*, is_*, least)"),
    ("4d", "types that derive no more than Clone and Copy"),
    ("5a", "functions with six parameters or more"),
    ("5b", "functions with two lent tables or more"),
    ("5c", "facts on a parameter that stand in three contracts or more: clauses"),
    ("6a", "structs of an array with its length beside"),
    ("6b", "functions that take a table and its length, or a place to write at, and give the place after"),
    ("7", "function pointers, dyn, numbers that say which step"),
    ("8a", "walks, proofs/F/Proof.antt"),
    ("8b", "lines in proofs/F/"),
])

FACTS = [r"component < 32", r"kind < 16", r"components ≤ 32", r"length nodes\.(?:now|old) ≡ 384", r"Bounded trees",
         r"length scope\.old ≡ 64", r"tree\.to ≤ 64", r"(?:t|u) < 4294967296", r"Tables sizes", r"Ready t sizes",
         r"length table\.(?:now|old) ≡", r"column < 12", r"len ≤ 8"]


def clauses(text):
    """The spans of requires and ensures clauses."""
    spans = []
    for m in re.finditer(r"\n\s+(?:ensures|requires)\*?(?: \w+)? \{", text):
        j, depth = m.end(), 1
        while depth and j < len(text):
            depth += (text[j] == "{") - (text[j] == "}")
            j += 1
        spans.append((m.start(), j))
    return spans


def blank(s):
    return re.sub(r"[^\n]", " ", s)


def split(text):
    """The text without comments, ghost lines and clauses; and the clauses alone. Lines stay where they are."""
    text = re.sub(r"//[^\n]*", lambda m: blank(m.group()), text)
    text = re.sub(r"(?m)^\s*ghost use [^;]*;", lambda m: blank(m.group()), text)
    code, said, last = [], [], 0
    for a, b in clauses(text):
        code += [text[last:a], blank(text[a:b])]
        said += [blank(text[last:a]), text[a:b]]
        last = b
    code.append(text[last:])
    said.append(blank(text[last:]))
    return "".join(code), "".join(said)


def parts(params):
    """Parameters, parted at the commas that stand outside brackets."""
    out, depth, cur = [], 0, ""
    for ch in params:
        depth += ch in "<[({"
        depth -= ch in ">])}"
        if ch == "," and depth == 0:
            out.append(cur)
            cur = ""
        else:
            cur += ch
    out.append(cur)
    return [p.strip() for p in out if p.strip()]


def functions(code):
    for m in re.finditer(r"\bfn (\w+)\s*(?:<[^>]*>)?\(", code):
        j, depth = m.end(), 1
        while depth and j < len(code):
            depth += (code[j] == "(") - (code[j] == ")")
            j += 1
        params = parts(code[m.end():j - 1])
        k = code.find("{", j)
        yield m.group(1), params, code[j:k].strip(), m.start(), k


def body(code, k):
    j, depth = k + 1, 1
    while depth and j < len(code):
        depth += (code[j] == "{") - (code[j] == "}")
        j += 1
    return code[k + 1:j - 1]


def count(top):
    found = collections.OrderedDict((row, []) for row in ROWS)
    names = [line.split(":")[0].split()[0] for line in open(os.path.join(top, "crates.txt"))
             if line.strip() and not line.startswith("#")]
    facts = collections.Counter()
    places = collections.defaultdict(list)
    for crate in names:
        for path in sorted(glob.glob(os.path.join(top, "crates", crate, "src", "*.rt"))):
            raw = open(path).read()
            code, said = split(raw)
            short = os.path.relpath(path, os.path.join(top, "crates"))

            def add(row, at, what):
                found[row].append(f"{short}:{raw.count(chr(10), 0, at) + 1} {what}")

            for m in re.finditer(r"(?s)((?:#\[[^\]]*\]\s*)*)\bpub (enum|struct) (\w+)[^;{]*\{(.*?)\n\}", code):
                attrs, sort, name, inner = m.groups()
                at = m.start(3)
                if sort == "enum" and re.search(r"\b(Refused|Nothing|Unread)\b", inner):
                    add("1a", at, name)
                if sort == "struct" and re.search(r": bool\b", inner) and len(re.findall(r"\n\s+pub \w+:", inner)) > 1:
                    add("1e", at, name)
                if sort == "struct" and re.search(r"\blen: usize", inner) and re.search(r": \[", inner):
                    add("6a", at, name)
                if not re.search(r"derive\([^)]*(?:Debug|PartialEq|Default)", attrs):
                    add("4d", at, name)
            for name, params, result, at, k in functions(code):
                if len(params) >= 6:
                    add("5a", at, f"{name} ({len(params)})")
                if sum("&mut [" in p for p in params) >= 2:
                    add("5b", at, name)
                if re.match(r"(?:wide\w*|least|both|byte|byte_in|cell|cell_at|put|store|stored_at|is_\w+|first)$", name):
                    add("2a", at, name)
                if re.match(r"(?:same\w*|is_\w+|least)$", name):
                    add("4c", at, name)
                if re.search(r"Refusal|Read\b|End\b", result) and re.match(
                        r"(?:refusal|why\w*|not_\w+|refused|broken|fault|unread|too_many|no_form)$", name):
                    add("1d", at, name)
                inner = body(code, k)
                if re.search(r"\busize\b", result) and re.search(
                        r"(?:return|^|\n|=>|\{|else \{)\s*(?:11|16|19|64|65|66|67|65535)\s*(?:;|,|\}|$)", inner):
                    add("1b", at, name)
                if any("&mut [u8]" in p for p in params) and re.search(r"^-> usize", result) and any(
                        re.match(r"(?:at|from|to|len)\b", p) for p in params):
                    add("6b", at, name)
            for m in re.finditer(r"question: \d+|Refused\(\d+\)|refused\(\d+|Err\(\d+\)", code):
                add("1c", m.start(), m.group())
            for m in re.finditer(r"let mut (?:few|some) = \[[^;\]]*; (\d+)\]", code):
                add("2b", m.start(), m.group())
            for row, pattern in (("3a", r"\bwhile\b"), ("3b", r"\bloop \{"),
                                 ("4a", r"% (?:65536|256|4294967296)\) as"), ("4b", r"let (\w+) = \w+\.\1;"),
                                 ("7", r"\bdyn\b|: fn\(|Box<")):
                for m in re.finditer(pattern, code):
                    add(row, m.start(), " ".join(m.group().split()))
            for fact in FACTS:
                for m in re.finditer(fact, said):
                    places[fact].append(f"{short}:{raw.count(chr(10), 0, m.start()) + 1} {fact}")
        for path in sorted(glob.glob(os.path.join(top, "crates", crate, "proofs", "*", "**", "*.antt"), recursive=True)):
            short = os.path.relpath(path, os.path.join(top, "crates"))
            if path.endswith("Proof.antt"):
                found["8a"].append(short)
            lines = sum(1 for _ in open(path))
            found["8b"] += [short] * lines
    for fact in FACTS:
        if len(places[fact]) >= 3:
            found["5c"] += places[fact]
    return found


def main():
    args = sys.argv[1:]
    row = None
    if args and args[0] == "--list":
        row, args = args[1], args[2:]
    found = count(args[0] if args else ".")
    if row:
        print("\n".join(found[row]))
        return
    for name, what in ROWS.items():
        print(f"{name:3} {len(found[name]):6}  {what}")


main()
