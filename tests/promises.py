#!/usr/bin/env python3
"""Holds docs/CONTRACTS.md to the public functions of the crates, and the list of docs/PROVED.md to the files of definitions.

Every public function of a library crate has an `ensures` and no `requires`, and stands in the table of docs/CONTRACTS.md that has its answer and definition, and
in the one that names the law by which no second answer fits its promise; the tables name no other. The programs have no public function. One below them that
reads or writes (it takes the runtime) answers nothing, or says in an `ensures` what it can of its answer, and docs/CONTRACTS.md names it after the table.
"""
import glob
import os
import re
import sys

ROOT = os.path.dirname(os.path.dirname(os.path.abspath(__file__)))
passed = 0
failed = 0


def check(what, holds):
    global passed, failed
    if holds:
        passed += 1
    else:
        failed += 1
        print("FAILED %s" % what)


def read(*path):
    with open(os.path.join(ROOT, *path), encoding="utf-8") as file:
        return file.read()


def promise(text):
    """What stands between a function's name and its body: up to the first line that ends with a brace and is none of a clause."""
    lines = text.split("\n")
    for k, line in enumerate(lines):
        if line.endswith("{") and not re.match(r"\s*(?:requires|ensures)\b", line):
            return "\n".join([*lines[:k], line[:-1]])
    raise ValueError("a function has no body")


def public_functions(crate):
    """Each with the text between its name and its body."""
    for path in sorted(glob.glob(os.path.join(ROOT, "crates", crate, "src", "**", "*.rt"), recursive=True)):
        module = os.path.relpath(path, os.path.join(ROOT, "crates", crate, "src"))[:-3].replace(os.sep, "::")
        source = read(path)
        for found in re.finditer(r'\bpub (?:const )?(?:extern "C" )?fn (\w+)', source):
            inside = "" if module in ("lib", "main") else module + "::"
            yield "%s::%s%s" % (crate, inside, found.group(1)), promise(source[found.end():])


def named(lines):
    return re.findall(r"`(\w+(?:::\w+)+)`", "\n".join(lines))


def contracts(page):
    """The functions of the first column of the table of contracts, by the files that they lead to."""
    table = re.search(r"\n## Contracts\n(.*?)\n## ", page, re.S).group(1)
    cells = [line.split(" | ")[0] for line in table.splitlines() if line.startswith("|")]
    for name, crate, file in re.findall(r"\[`([\w:]+)`\]\(\.\./crates/(\w+)/src/([\w/]+)\.rt#L[0-9]+\)", "\n".join(cells)):
        inside = "" if file == "lib" else file.replace("/", "::") + "::"
        yield "%s::%s%s" % (crate, inside, name.split("::")[-1])


KINDS = ("-- Definitions: ", "-- Laws: ", "-- Follows the code; need not be believed. ")


def spec_files():
    """Each file of definitions or laws, with its first line; not the list of a crate's files."""
    for path in sorted(glob.glob(os.path.join(ROOT, "crates", "*", "specs", "*.antt"))):
        if os.path.basename(path) != "Lib.antt":
            yield os.path.relpath(path, ROOT).replace(os.sep, "/"), read(path).split("\n", 1)[0]


def believed():
    """docs/PROVED.md lists the files of definitions, each once and no other; every file of specs/ says in its first line of which kind it is."""
    section = re.search(r"\n## The files to believe, in reading order\n(.*?)\n## ", read("docs", "PROVED.md"), re.S).group(1)
    listed = re.findall(r"\]\(\.\./(crates/\w+/specs/\w+\.antt)\)", section)
    definitions = []
    for path, first in spec_files():
        check("%s says what it is: definitions, laws, or what follows the code" % path, first.startswith(KINDS))
        if first.startswith(KINDS[0]):
            definitions.append(path)
            check("%s is listed in docs/PROVED.md, once" % path, listed.count(path) == 1)
    for path in listed:
        check("%s of docs/PROVED.md is a file of definitions" % path, path in definitions)


def main():
    believed()
    page = read("docs", "CONTRACTS.md")
    told = list(contracts(page))
    section = re.search(r"\n## That no second answer fits\n(.*?)\n## ", page, re.S).group(1).splitlines()
    listed, apart = named(line for line in section if line.startswith("|")), named(line for line in section if not line.startswith("|"))
    functions, reading = [], []
    for crate in re.findall(r"^(\w+)(?: staticlib)?:", read("crates.txt"), re.M):
        if os.path.exists(os.path.join(ROOT, "crates", crate, "src", "main.rt")):
            check("%s has no public function" % crate, not list(public_functions(crate)))
            continue
        for name, text in public_functions(crate):
            check("%s asks nothing of its caller" % name, "requires" not in text)
            if re.search(r"\bHostRuntime\b", text):
                reading.append(name)
                check("%s answers nothing, or says what it can of its answer" % name, "->" not in text and "&mut" not in text or "ensures" in text)
                check("%s stands after the table of docs/CONTRACTS.md, once" % name, apart.count(name) == 1)
                continue
            functions.append(name)
            check("%s states its answer" % name, "ensures" in text)
            check("%s stands in the contracts of docs/CONTRACTS.md, once" % name, told.count(name) == 1)
            check("%s stands in docs/CONTRACTS.md with its law, once" % name, listed.count(name) == 1)
    for name in told + listed:
        check("%s of docs/CONTRACTS.md is a public function" % name, name in functions)
    for name in apart:
        check("%s of docs/CONTRACTS.md reads or writes" % name, name in reading)
    print("%d passed, %d failed" % (passed, failed))
    return 1 if failed else 0


if __name__ == "__main__":
    sys.exit(main())
