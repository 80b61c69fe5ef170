#!/usr/bin/env python3
"""Brings the repository's own definitions and lemmas to one spelling: words in snake case, a prime as an apostrophe.

usage: python3 tools/respell.py [--table]     at the top of the repository; --table prints the table, and writes nothing

It reads which names the files of specs/ and proofs/ declare (a function's Proof.antt aside), and turns `firstOf` and `first-of` to `first_of` wherever
a file of crates/ names them: in proofs and definitions, in clauses and `ghost use` items of sources, in code spans of comments, in comments of the file
that declares the name, and in must-fail edits.
Names of types and facts, of Rust functions, of the library and of what Rattle makes keep their spelling.
Where two names fall together, the lemma gets `_lem`, as TOGETHER and the rule in `table` say. A second run changes nothing.
"""

import collections
import os
import re
import sys

WORD = re.compile(r"[^\s(){}.;,@\"«»`]+")
DECLARED = re.compile(r"^ *(?:(?:pub|abbrev|unfoldable|data|record) )*((?:[^\s:(){}=;,.@\"«»]+ )+):(?: |$)")
LOCAL = re.compile(r"(?<![^\s(])let ([^\s:(){}=;,.@\"«»]+)|\((?=[^\s():]+(?: [^\s():]+)* : )([^():]+) : |\bas ([a-z]\w*)")
USED = re.compile(r"use ([^\s;{]+?)\.?\{([^}]*)\}")
CLAUSE = re.compile(r"(?:requires|ensures)\*?\s*(?:\w+\s*)?\{|ghost\s*(?:\w+\s*:\s*)?\{")
SPAN = re.compile(r"`[^`\n]+`")
KEYWORDS = {"pub", "abbrev", "unfoldable", "let", "in", "data", "record", "infix", "infixl", "infixr", "use", "module", "--"}

# A definition whose new name would be a field's of a struct that the same files name.
GIVEN = {"closedAt": "closed_entry_at", "opened-at": "opened_at_lem"}

# Lemmas whose spelling a definition gets: (the lemma, the new name, the crates that name it).
TOGETHER = [
    ("each_in", "each_in_lem", ["plain"]),
    ("goes_on", "goes_on_lem", ["employees"]),
    ("is_open", "is_open_lem", ["walk", "step"]),
    ("in_place", "in_place_lem", ["pfml_fields"]),
]


def snake(name):
    if "-" not in name and re.match(r"[a-z]", name):
        name = re.sub(r"(?<=[a-z0-9])([A-Z])", lambda m: "_" + m[1].lower(), name)
    return name.replace("-", "_").replace("′", "'")


def texts(root, ends):
    for folder, folders, files in os.walk(os.path.join(root, "crates")):
        folders[:] = sorted(it for it in folders if it != "out")
        for it in sorted(files):
            if it.endswith(ends):
                path = os.path.join(folder, it)
                with open(path, encoding="utf-8") as f:
                    yield path, f.read()


def declared(text):
    for line in text.split("\n"):
        found = None if line.lstrip().startswith("--") else DECLARED.match(line)
        for name in found[1].split() if found else []:
            if name not in KEYWORDS:
                yield name


def local(text):
    """Names that a proof binds, and those that an import gives."""
    for names in LOCAL.findall(text):
        yield from " ".join(names).split()


def table(root):
    own = set()
    library = set()
    for path, text in texts(root, (".antt", ".rt")):
        library.update(foreign(text))
    for path, text in texts(root, ".antt"):
        if os.path.basename(path) != "Proof.antt":
            own.update(declared(text))
            own.update(it for it in local(text) if it not in library)
    for path, text in texts(root, ".rt"):
        own.update(it for it in re.findall(r"\bas (\w+)", " ".join(re.findall(r"ghost use [^;]*;", text))) if it not in library)
    rows = {it: GIVEN.get(it, snake(it)) for it in own}
    camel = {new for old, new in rows.items() if new != old and "-" not in old}
    for old, new in rows.items():
        if "-" in old and old not in GIVEN and (new in camel or new in own):
            rows[old] = new + "_lem"
    return {old: new for old, new in rows.items() if new != old}


def foreign(text):
    """What the file has from a library that is not the repository's: these names stay."""
    names = set()
    for module, items in USED.findall(text):
        if not module.startswith("Rattle.") or module.startswith("Rattle.std"):
            names.update(it.split()[0] for it in items.split(",") if it.strip())
    return names


def turn_words(text, rows):
    return WORD.sub(lambda m: rows.get(m[0], m[0]), text)


def turn_spans(text, rows):
    return SPAN.sub(lambda m: turn_words(m[0], rows), text)


def turn_antt(text, rows):
    said = {old: rows[old] for old in declared(text) if old in rows}
    lines = []
    for line in text.split("\n"):
        at = re.search(r"(?:^|(?<=\s))--(?=\s|$)", line)
        code, comment = (line[: at.start()], line[at.start() :]) if at else (line, "")
        comment = re.sub(r"[\w'′]+(?:-[\w'′]+)*", lambda m: said.get(m[0], m[0]), comment)
        lines.append(turn_words(code, rows) + turn_spans(comment, rows))
    return "\n".join(lines)


def end_of_braces(text, start):
    depth = 1
    for k in range(start, len(text)):
        depth += {"{": 1, "}": -1}.get(text[k], 0)
        if depth == 0:
            return k
    return len(text)


def turn_rt(text, rows):
    out, at = [], 0
    while at < len(text):
        here = [m for m in (re.compile(r"ghost use [^;]*;").search(text, at), CLAUSE.search(text, at), re.compile(r"//[^\n]*").search(text, at)) if m]
        if not here:
            break
        m = min(here, key=lambda it: it.start())
        out.append(text[at : m.start()])
        if m[0].startswith("//"):
            out.append(turn_spans(m[0], rows))
            at = m.end()
        elif m[0].startswith("ghost use"):
            out.append(turn_words(m[0], rows))
            at = m.end()
        else:
            at = end_of_braces(text, m.end())
            out.append(turn_words(text[m.start() : at], rows))
    return "".join(out) + text[at:]


def turn_edit(text, rows):
    return "\n".join(turn_words(line, rows) if re.match(r"(old|new): .*[^\w\s]", line) else line for line in text.split("\n"))


def together(path, text, root):
    crate = os.path.relpath(path, os.path.join(root, "crates")).split(os.sep)[0]
    for old, new, crates in TOGETHER:
        if crate in crates:
            text = re.sub(rf"(?<![\w'.-]){old}(?![\w'-])", new, text)
    return text


def main():
    root = "."
    rows = table(root)
    if "--table" in sys.argv[1:]:
        print("\n".join(f"{old}\t{new}" for old, new in sorted(rows.items())))
        return
    for path, text in list(texts(root, (".antt", ".rt", ".edit"))):
        stay = foreign(text)
        here = {old: new for old, new in rows.items() if old not in stay}
        before = text
        if path.endswith(".antt"):
            text = turn_antt(together(path, text, root), here)
        elif path.endswith(".rt"):
            text = turn_rt(text, here)
        else:
            text = turn_edit(text, here)
        if text != before:
            with open(path, "w", encoding="utf-8") as f:
                f.write(text)


if __name__ == "__main__":
    main()
