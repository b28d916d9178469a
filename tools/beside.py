#!/usr/bin/env python3
"""Prints, as the page docs/DESIGN-PASS.md has them, the public functions, types and definitions that differ between two checkouts.

usage: python3 tools/beside.py OLD NEW

OLD and NEW are folders with crates/. Of each crate: public functions with their clauses, public types with their fields, and the
definitions of specs/, the old ones after `-`, the new ones after `+`; those that are the same but for layout, comments and derives
are left out. A function is found again in its crate by its name. By text alone: what a difference means is for a reader to say.
"""
import collections
import glob
import os
import re
import sys


def without_comments(text):
    return re.sub(r"[ \t]*//[^\n]*", "", text)


def closing(text, at, opens, closes):
    depth = 0
    for k in range(at, len(text)):
        depth += (text[k] == opens) - (text[k] == closes)
        if depth == 0:
            return k + 1
    return len(text)


def squeeze(text):
    text = re.sub(r"\s+", " ", text).strip()
    return re.sub(r",\s*([)\]}])", r"\1", re.sub(r"([(\[{])\s+", r"\1", re.sub(r"\s+([)\]}])", r"\1", text)))


def lines(text):
    """The clauses of a head on lines of their own."""
    text = squeeze(text)
    out, depth, start = [], 0, 0
    for m in re.finditer(r"[{}]|\b(?:requires|ensures)\b", text):
        if m.group() == "{":
            depth += 1
        elif m.group() == "}":
            depth -= 1
        elif depth == 0:
            out.append(text[start:m.start()].strip())
            start = m.start()
    out.append(text[start:].strip())
    return [line if i == 0 else "    " + line for i, line in enumerate(out) if line]


def head_end(text, at):
    """Where a function's body begins: the first brace that is no clause's."""
    k, clause = at, False
    while k < len(text):
        if text.startswith(("requires", "ensures"), k) and not text[k - 1].isalnum():
            clause = True
            k += 7
        elif text[k] in "([":
            k = closing(text, k, text[k], ")" if text[k] == "(" else "]")
        elif text[k] == "{":
            if not clause:
                return k
            clause = False
            k = closing(text, k, "{", "}")
        else:
            k += 1
    return len(text)


def read(top):
    functions, types, definitions = (collections.defaultdict(dict) for _ in range(3))
    for path in sorted(glob.glob(os.path.join(top, "crates", "*", "src", "*.rt"))):
        crate = path.split(os.sep)[-3]
        text = without_comments(open(path, encoding="utf-8").read())
        impls = []
        for m in re.finditer(r"(?m)^impl\b([^{]*)\{", text):
            name = re.sub(r"^\s*<[^>]*>", "", m.group(1)).strip()
            impls.append((m.start(), closing(text, m.end() - 1, "{", "}"), re.sub(r"<.*", "", name.split(" for ")[-1]).strip()))
        for m in re.finditer(r"\bpub (?:extern \"C\" )?fn (\w+)", text):
            owner = next((name for a, b, name in impls if a < m.start() < b), "")
            functions[crate].setdefault(m.group(1), []).append((owner, lines(text[m.start():head_end(text, m.end())])))
        for m in re.finditer(r"\bpub (?:struct|enum) (\w+)[^;{(]*\{", text):
            body = text[m.start():closing(text, m.end() - 1, "{", "}")]
            types[crate][m.group(1)] = [squeeze(re.sub(r"#\[[^\]]*\]", "", body))]
    for path in sorted(glob.glob(os.path.join(top, "crates", "*", "specs", "**", "*.antt"), recursive=True)):
        crate = path.split(os.sep + "crates" + os.sep)[1].split(os.sep)[0]
        text = re.sub(r"(?m)\s*--.*$", "", open(path, encoding="utf-8").read())
        name = None
        for line in text.split("\n"):
            m = re.match(r"(?:abbrev |unfoldable |opaque )*(?:pub )?(?:abbrev |unfoldable |opaque )*(?:record |data )?([^\s:(){}=]+)[^=]*:(?:\s|$)", line)
            if m and not line.startswith((" ", "use ")):
                name = m.group(1)
                key = os.path.basename(path)[:-5] + "." + name
                definitions[crate][key] = [line.rstrip()]
            elif re.match(r"(use|open|pub use|pub mod|mod)\b", line):
                name = None
            elif name and line.strip():
                definitions[crate][key].append(line.rstrip())
    return functions, types, definitions


def show(old, new):
    for line in old:
        print("- " + line)
    for line in new:
        print("+ " + line)
    print()


def main():
    old, new = read(sys.argv[1]), read(sys.argv[2])
    crates = [line.split(":")[0].split()[0] for line in open(os.path.join(sys.argv[2], "crates.txt"))
              if line.strip() and not line.startswith("#")]
    for crate in crates:
        out = []
        for name in list(dict.fromkeys(list(old[1][crate]) + list(new[1][crate]))):
            a, b = old[1][crate].get(name, []), new[1][crate].get(name, [])
            if a != b:
                out.append((a, b))
        for name in list(dict.fromkeys(list(old[0][crate]) + list(new[0][crate]))):
            a = sorted(old[0][crate].get(name, []))
            b = sorted(new[0][crate].get(name, []))
            a, b = [x for x in a if x not in b], [x for x in b if x not in a]
            named = lambda pairs: [line if i or not owner else f"{owner}: {line}" for owner, head in pairs for i, line in enumerate(head)]
            if a or b:
                out.append((named(a), named(b)))
        for name in list(dict.fromkeys(list(old[2][crate]) + list(new[2][crate]))):
            a, b = old[2][crate].get(name, []), new[2][crate].get(name, [])
            if squeeze(" ".join(a)) != squeeze(" ".join(b)):
                out.append((a, b))
        if out:
            print(f"### {crate}\n\n```diff")
            for a, b in out:
                show(a, b)
            print("```\n")


main()
