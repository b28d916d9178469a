#!/usr/bin/env python3
"""Brings the repository's own definitions and lemmas to today's spelling, by the table respelled.txt beside this file.

usage: python3 tools/respell.py            once, after the kit's port.py, with everything committed: the crates
       python3 tools/respell.py OLD..      these names of the table alone (a second run over all of it would take a definition's new
                                           name for the old one of a lemma)
       python3 tools/respell.py --pages    once too: the names that README.md and docs/*.md but PORT.md cite between backquotes; a function's
                                           name that is a lemma's old one is taken for it, so read the diff

The rule of the spelling: words in snake case; types, modules and facts in upper camel case; no dashes in names of our own (an attribute
`using(..)` takes Rust's identifiers alone); a lemma that would have its definition's name ends in _lem. A line of the table is
`OLD NEW CRATE..`: the name as port.py left it, the new one, and the crates whose specs/ or proofs/ declare it, as a definition, lemma,
field, constructor, parameter, helper or alias.

What it turns: .antt of specs/ and proofs/; clauses, imports and backquoted names of comments in src/*.rt; the lines old: and new: of
must-fail edits, whose other words it brings to the spelling that port.py gave the files (port.py leaves edits alone).
What it leaves: functions and variables of src/, strings, names that a file imports from a library, names that Rattle makes (those
after `tie.`, `goal.`, `X-lts.`, and `f-spec`), and helpers inside a walk (proofs/F/Proof.antt), which are named after its goals. It gives no verdict: rt check and rt ci do.
"""
import glob, os, re, sys

HERE = os.path.dirname(os.path.abspath(__file__))
TOKEN = re.compile(r"[^\s(){}.,;@\"]+")
USE = re.compile(r"(?:^|\n)[ ]*(?:pub\s+)?(?:ghost\s+)?use\s+([\w.◌+\-·':]+?)(?:\.\{([^}]*)\}|(?:\s+as\s+([^\s;{}]+)))?;?[ ]*(?=\n|$)")


def table():
    """The table: {old: new}, and the crates that declare anything."""
    names, crates = {}, set()
    for line in open(os.path.join(HERE, "respelled.txt"), encoding="utf-8"):
        if line.strip() and not line.startswith("#"):
            old, new, *where = line.split()
            names[old] = new
            crates.update(where)
    return names, crates


def code_of(path, text):
    """The text with its comments blanked."""
    mark = "--" if path.endswith(".antt") else "//"
    return re.sub(mark + r"[^\n]*", lambda m: " " * len(m.group(0)), text)


def imports(code, crates):
    """The names that a file imports, those of our own and those of a library, and what it calls modules."""
    own, foreign, aliases = set(), set(), set()
    for path, group, alias in USE.findall(code):
        if alias:
            aliases.add(alias)
        at = re.match(r"Rattle\.(\w+)\.(?:specs|proofs)\b", path)
        for item in filter(None, (i.strip() for i in group.split(","))):
            (own if at and at.group(1) in crates else foreign).add(re.split(r"\s+as\s+", item)[-1])
    return own, foreign, aliases


def names_here(path, text, names, crates):
    """The part of the table that holds in this file."""
    code = code_of(path, text)
    own, foreign, aliases = imports(code, crates)
    here = {o: n for o, n in names.items() if o not in foreign}
    here.update({a: names.get(a, plain(a)) for a in aliases if a not in here})
    # a name that was in snake case may be a function's or a variable's too: it turns only where it is declared or imported
    for old in [o for o in here if re.fullmatch(r"[a-z0-9_']+", o)]:
        declared = re.search(r"(?m)^[ ]*(?:(?:abbrev|unfoldable|pub|private|opaque|ruleset)\s+)*" + re.escape(old) + r"(?=\s+:|\s*:(?=\s)|\s+=)", code)
        if not path.endswith(".antt") or not (declared or old in own):
            del here[old]
    return here


def turned(text, here):
    return TOKEN.sub(lambda m: here.get(m.group(0), m.group(0)), text)


def cited(text, here):
    """The same between the backquotes of a comment or a page."""
    word = re.compile(r"(?<![\w'-])[A-Za-z][\w'-]*")
    return re.sub(r"`[^`\n]+`", lambda m: word.sub(lambda w: here.get(w.group(0), w.group(0)), m.group(0)), text)


def antt(text, here):
    # after tie., goal. and X-lts. stands a name that Rattle makes; X itself is an alias of ours
    parts = re.split(r"((?<![\w-])(?:tie|goal|[\w-]+[-_]lts)\.[\w'+-]+)", text)

    def generated(part):
        head, tail = part.split(".", 1)
        return here.get(head, head) + "." + tail

    text = "".join(generated(p) if i % 2 else turned(p, here) for i, p in enumerate(parts))
    return re.sub(r"--[^\n]*", lambda m: cited(m.group(0), here), text)


def rust(text, here):
    parts = re.split(r'(b?"(?:[^"\\]|\\.)*")', text)
    text = "".join(p if i % 2 else turned(p, here) for i, p in enumerate(parts))
    return re.sub(r"//[^\n]*", lambda m: cited(m.group(0), here), text)


def plain(name):
    """Snake case, as the table has it, for words that port.py turned in the files."""
    if "◌" in name:
        return name
    if re.match(r"[a-z_]", name):
        name = re.sub(r"(?<=[a-z0-9])([A-Z])", lambda m: "_" + m.group(1).lower(), name)
    return re.sub(r"(?<=[\w'])-(?=\w)", "_", name)


def edit(path, text, here, names):
    """An edit: own names by the table; other words as port.py turned them in the edited file."""
    crate = os.path.dirname(os.path.dirname(path))
    known = set(names.values())
    for target in re.findall(r"(?m)^file: *(\S+)", text):
        known.update(TOKEN.findall(open(os.path.join(crate, target), encoding="utf-8").read()))

    def word(m):
        w = m.group(0)
        return here.get(w) or (plain(w) if plain(w) in known else w)

    def line(l):
        if not re.match(r"(?:old|new):", l):
            return l
        return TOKEN.sub(word, l.replace("Rattle·", "Rattle."))

    return "\n".join(map(line, text.split("\n")))


def today(s):
    """What port.py does to a line of a definition: tight projections, operators, get_or."""
    s = re.sub(r"(?<=[\w)'ₛ]) \.(?=[a-z])", ".", s)
    for _ in range(4):
        s = re.sub(r"\(([\w'.]+\.[\w'.]+)\)", r"\1", s)
    s = re.sub(r"(?<![\w_])_([^\w\s_(){}.,;]{1,2})_(?![\w_])", r"◌\1◌", s)
    return re.sub(r"(?<!\w)getD(?!\w)", "get_or", s)


def mended(path, text):
    """An edit whose old: text no longer stands once in its file takes port.py's spelling, if it then does."""
    crate = os.path.dirname(os.path.dirname(path))
    lines, target, texts = text.split("\n"), None, {}
    for i, l in enumerate(lines):
        if l.startswith("file:"):
            target = os.path.join(crate, l[5:].strip())
        if not l.startswith("old:"):
            continue
        old, new = l[5:], lines[i + 1][5:]
        now = texts.setdefault(target, open(target, encoding="utf-8").read())
        if now.count(old) != 1 and now.count(today(old)) == 1:
            old, new = today(old), today(new)
        elif now.count(old) == 1 and target.endswith(".antt"):
            new = today(new)
        elif now.count(old) != 1:
            print(f"by hand: {path}: {old.strip()}")
            continue
        lines[i], lines[i + 1] = "old: " + old, "new: " + new
        texts[target] = now.replace(old, new)
    return "\n".join(lines)


def main(pages, only):
    names, crates = table()
    if only:
        names = {o: n for o, n in names.items() if o in only}
    if pages:
        paths, kind = ["README.md"] + [p for p in sorted(glob.glob("docs/*.md")) if p != "docs/PORT.md"], lambda p, t, h: cited(t, names)
    else:
        paths = [p for pattern in ("specs/**/*.antt", "proofs/**/*.antt", "src/**/*.rt", "must-fail/*.edit")
                 for p in sorted(glob.glob("crates/*/" + pattern, recursive=True))]
        kind = lambda p, t, h: antt(t, h) if p.endswith(".antt") else rust(t, h) if p.endswith(".rt") else edit(p, t, h, names)
    count = 0
    for step in [kind] if pages else [kind, lambda p, t, h: mended(p, t) if p.endswith(".edit") else t]:
        for path in paths:
            text = open(path, encoding="utf-8").read()
            new = step(path, text, names_here(path, text, names, crates))
            if new != text:
                count += 1
                open(path, "w", encoding="utf-8").write(new)
    print(f"{count} files written")


if __name__ == "__main__":
    main("--pages" in sys.argv[1:], [a for a in sys.argv[1:] if not a.startswith("--")])
