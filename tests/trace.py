#!/usr/bin/env python3
"""Holds docs/TRACE.md to document 01, to the requests of document 02 that have landed, and to the crates; and the links of all pages to what they name.

    tests/trace.py [DOCUMENTS]     the folder that holds the two papers, ../shared/documents if not given
    tests/trace.py --links         the links alone; looks at no paper
    tests/trace.py --write         puts in the links that docs/ lacks, and sets the line numbers anew; looks at no paper

Every sentence of document 01 stands in the table, in the paper's order and in its words, and after them every sentence of each request that has a
note in docs/changes; no row speaks of a sentence that the papers do not have. Each name in `backquotes` in a column of LINKED is a link: to a file or
folder of the repository, or to the line on which the name is defined. Elsewhere in the pages a link to a line is held in the same way, and every other
link leads to a file that is there, and to a heading that it has.

A name that is defined in several files is linked by --write to the one that its row names by crate, or by crate and file; where the row names none, the link
has to be put in by hand, and --write keeps the file that a link has for as long as the name is defined there.
"""
import functools
import glob
import os
import re
import sys

ROOT = os.path.dirname(os.path.dirname(os.path.abspath(__file__)))

PAPERS = ("01-scope.md", "02-change-requests.md")

# The columns in which every name is a link, by page and heading.
LINKED = {
    "TRACE.md": ("Where",),
    "PROVED.md": ("Where", "Name"),
    "CONTRACTS.md": ("Function", "Definition", "Law", "Name"),
    "DECISIONS.md": ("Whether it is taken",),
}
LINK = re.compile(r"\[`([^`]+)`\]\(([^()\s]+)\)")
NAME = re.compile(r"\[`([^`]+)`\]\(([^()\s]+)\)|`([^`]+)`()")


def read(*path):
    with open(os.path.join(ROOT, *path), encoding="utf-8") as f:
        return f.read()


# ---- the papers


def split(section, text):
    if section == "Checked by hand":
        return [p.strip() for p in re.split(r"\s(?=[a-l]\. )", " " + text) if p.strip()]
    return [p.strip() for p in re.split(r'(?<=\.)\s+(?=[A-Z`"0-9])', text) if p.strip()]


def sentences(path):
    """(section, sentence) in order; a row of a table is one sentence."""
    found, section, part = [], "", []

    def close():
        if part:
            found.extend((section, p) for p in split(section, " ".join(part)))
            part.clear()

    with open(path, encoding="utf-8") as f:
        for line in f.read().split("\n"):
            if line.startswith("#"):
                close()
                section = line.lstrip("#").strip()
            elif line.startswith("|"):
                close()
                if not re.match(r"^\|[-| ]+\|$", line):
                    found.append((section, line.strip().strip("|").strip().replace(" | ", ": ")))
            elif line.startswith("- "):
                close()
                part.append(line[2:].strip())
            elif line.startswith("    "):
                close()
                found.append((section, line.strip()))
            elif line.strip():
                part.append(line.strip())
            else:
                close()
    close()
    return found


def requests(path):
    """The sentences of the requests of document 02 that have a note: docs/changes/i.md for (i)."""
    found = []
    with open(path, encoding="utf-8") as f:
        for line in f:
            request = re.match(r"\*\*\(([ivx]+)\) [^*]+\*\* (.*)", line)
            if request and os.path.exists(os.path.join(ROOT, "docs", "changes", request[1] + ".md")):
                found.extend(split("", request[2]))
    return found


def rows(text):
    """The first two columns of every row of docs/TRACE.md's tables."""
    for line in text.split("\n"):
        if line.startswith("| ") and not line.startswith(("| Sentence", "| ---")):
            cells = [c.strip() for c in line.strip().strip("|").split(" | ")]
            yield cells[0], cells[1] if len(cells) > 1 else ""


# ---- what is defined where

ANTT = re.compile(r"(\s*)(?:(?:abbrev|unfoldable)\s+)*(pub\s+)?(?:(?:record|data|type)\s+(\S+)|(\S+)(?=\s+:(?:\s|$)))")
RATTLE = re.compile(r'(\s*)(pub )?(?:extern "C" )?(fn|struct|enum|const|type|mod) (\w+)')
MEMBER = re.compile(r"(\s+)(pub )?(\w+)\s*(?:[,({:]|$)")


@functools.lru_cache(None)
def defined(path):
    """The names that a file of the crates defines, each with its lines: those of public and of outer definitions first."""
    found, inside = {}, False
    for number, line in enumerate(read(path).split("\n"), 1):
        if path.endswith(".antt"):
            here = ANTT.match(line)
            name = here and (here[3] or here[4])
        else:
            here = RATTLE.match(line)
            name = here and here[4]
            if here:
                inside = here[3] in ("struct", "enum") and line.rstrip().endswith("{")
            elif line.startswith("}"):
                inside = False
            elif inside:
                here = MEMBER.match(line)
                name = here and here[3]
        if name and not name.startswith("--"):
            found.setdefault(name, []).append((not here[2], len(here[1]), number))
    return {name: [number for _, _, number in sorted(places)] for name, places in found.items()}


@functools.lru_cache(None)
def files(kind):
    patterns = {"specs": "crates/*/specs/**/*.antt", "proofs": "crates/*/proofs/**/*.antt", "src": "crates/*/src/**/*.rt"}
    return sorted(os.path.relpath(p, ROOT) for p in glob.glob(os.path.join(ROOT, patterns[kind]), recursive=True))


def module(path):
    """`crates/number/src/rules.rt` is `number::rules`, `crates/number/src/lib.rt` is `number`."""
    parts = path[:-len(".rt")].split("/")
    return "::".join(p for p in [parts[1]] + parts[3:] if p not in ("lib", "main"))


def defines(path, name):
    """The lines of a file on which a name is defined; `a::b` only in a file of the module a."""
    if not path.endswith((".antt", ".rt")) or not os.path.isfile(os.path.join(ROOT, path)):
        return []
    prefix, last = name.rpartition("::")[::2]
    if prefix and not (path.endswith(".rt") and ("::" + module(path)).endswith("::" + prefix)):
        return []
    return defined(path).get(last, [])


def is_public(path, name):
    return any(re.search(r"\bpub\b", read(path).split("\n")[line - 1]) for line in defines(path, name))


def in_row(found, row):
    """Of several files those whose crate the row names in `backquotes`, and of these those whose own name it has as a word."""
    named = [p for p in found if "`%s`" % p.split("/")[1] in row]
    words = [p for p in named if re.search(r"(?<![\w/`-])%s(?![\w/`-])" % re.escape(p.split("/")[-1].split(".")[0]), row)]
    return words or named or found


def place(name, row, before):
    """The file that defines a name, or why there is none; `before` is the file of the function before it in the cell."""
    if defines(before, name):
        return before, None
    for kind in ("src",) if "::" in name else ("specs", "src", "proofs"):
        found = [p for p in files(kind) if defines(p, name)]
        found = [p for p in found if is_public(p, name)] or found
        if len(found) > 1:
            found = in_row(found, row)
        if len(found) == 1:
            return found[0], None
        if found:
            return None, "it is defined in %s: link it to one of them by hand" % ", ".join(found)
    return None, "no file defines it"


# ---- links


def target(page, link):
    """The path of a link from the repository's root, and what follows the #."""
    path, _, part = link.partition("#")
    folder = os.path.dirname(page)
    return os.path.normpath(os.path.join(folder, path)) if path else page, part


def is_path(name):
    return os.path.exists(os.path.join(ROOT, name))


def is_crate(name, row):
    return os.path.isdir(os.path.join(ROOT, "crates", name)) and ("crate `%s`" % name in row or "crate [`%s`]" % name in row)


def wrong(page, name, link, row):
    """What is wrong with a link that has a name, None if nothing is."""
    path, part = target(page, link)
    if not is_path(path):
        return "no file " + path
    if is_path(name) or is_crate(name, row):
        return None if path in (name, "crates/" + name) else "it leads to " + path
    if not re.fullmatch(r"L[0-9]+", part):
        return "it names no line"
    lines = defines(path, name)
    if not lines:
        return "%s does not define it" % path
    if int(part[1:]) not in lines:
        return "it is on line %d of %s, not %s" % (lines[0], path, part[1:])
    return None


def relink(page, name, link, row, before):
    """The link that a name should have, or why there is none."""
    up = os.path.relpath(".", os.path.dirname(page) or ".")
    if is_path(name):
        return link if link and target(page, link)[0] == name else os.path.relpath(name, os.path.dirname(page) or "."), None
    if is_crate(name, row):
        return os.path.join(up, "crates", name), None
    path, part = target(page, link) if link else ("", "")
    lines, why = defines(path, name), None
    if not lines:
        path, why = place(name, row, before)
        lines = path and defines(path, name)
    if not lines:
        return None, why
    # where a file defines a name several times, the line nearest to the old one
    line = min(lines, key=lambda n: abs(n - int(part[1:]))) if len(lines) > 1 and re.fullmatch(r"L[0-9]+", part) else lines[0]
    return "%s#L%d" % (os.path.join(up, path), line), None


def cells_of(page, text):
    """(line, its cells or None, which of them have to be linked)."""
    linked = ()
    for line in text.split("\n"):
        if not line.startswith("|"):
            linked = ()
            yield line, None, ()
            continue
        cells = line.split(" | ")
        headings = [c.strip("| ") for c in cells]
        if any(h in LINKED.get(os.path.basename(page), ()) for h in headings):
            linked = tuple(i for i, h in enumerate(headings) if h in LINKED[os.path.basename(page)])
            yield line, None, ()
        else:
            yield line, cells, linked


def held(link):
    return bool(re.search(r"#L[0-9]+$", link))


def write(page):
    failures, kept = [], []

    def again(row, all_names):
        before = [""]

        def one(found):
            name, link = (found[1], found[2]) if found[1] else (found[3], "")
            if not (all_names or held(link)):
                return found[0]
            new, why = relink(page, name, link, row, before[0])
            if why:
                failures.append("%s: `%s`: %s" % (page, name, why))
                return found[0]
            if "::" in name:
                before[0] = target(page, new)[0]
            return "[`%s`](%s)" % (name, new)

        return one

    for line, cells, linked in cells_of(page, read(page)):
        if cells is None:
            kept.append(NAME.sub(again(line, False), line))
        else:
            kept.append(" | ".join(NAME.sub(again(line, i in linked), c) for i, c in enumerate(cells)))
    with open(os.path.join(ROOT, page), "w", encoding="utf-8") as f:
        f.write("\n".join(kept))
    return failures


def anchors(path):
    """The headings of a page, as links name them."""
    found = re.findall(r"^#+ (.*)", read(path), re.M)
    return [re.sub(r"[^\w\- ]", "", h.lower()).replace(" ", "-") for h in found]


def links(page):
    """(what is looked at, what is wrong with it or None) for each link of a page."""
    text = re.sub(r"^```.*?^```", "", read(page), flags=re.M | re.S)
    for line, cells, linked in cells_of(page, text):
        for i, cell in enumerate(cells or [line]):
            for name, link, bare, _ in NAME.findall(cell):
                if i in linked and bare:
                    yield "`%s` of %s" % (bare, page), "it is no link: tests/trace.py --write puts it in"
                elif name and (i in linked or held(link)):
                    yield "`%s` of %s" % (name, page), wrong(page, name, link, line)
        for link in re.findall(r"\]\(([^()\s]+)\)", line):
            if held(link) or re.match(r"[a-z]+:", link):
                continue
            path, part = target(page, link)
            why = None if is_path(path) else "no file " + path
            if not why and part and part not in anchors(path):
                why = "no heading #%s in %s" % (part, path)
            yield "the link %s of %s" % (link, page), why


def pages():
    found = [os.path.relpath(p, ROOT) for p in glob.glob(os.path.join(ROOT, "**", "*.md"), recursive=True)]
    return sorted(p for p in found if not {"target", "out"} & set(p.split(os.sep)))


def against_papers(folder):
    """How many sentences the papers have, and what is wrong with docs/TRACE.md beside them."""
    failures = []
    asked = [s for _, s in sentences(os.path.join(folder, PAPERS[0]))] + requests(os.path.join(folder, PAPERS[1]))
    table = list(rows(read("docs", "TRACE.md")))
    told = [t for t, _ in table]
    for s in asked:
        if s not in told:
            failures.append("not in docs/TRACE.md: " + s)
    for t, where in table:
        if t not in asked:
            failures.append("no sentence of the papers: " + t)
        elif not where:
            failures.append("no place for: " + t)
    if not failures and told != asked:
        failures.append("the rows are not in the papers' order")
    done = sum(1 for _, w in table if not w.startswith("not yet"))
    print("%d sentences, %d with a place, %d not yet" % (len(asked), done, len(table) - done))
    return len(asked), failures


def main():
    if sys.argv[1:] == ["--write"]:
        failures = [f for page in pages() if os.path.dirname(page) == "docs" for f in write(page)]
        for f in failures:
            print("FAILED " + f)
        return 1 if failures else 0
    passed, failures = 0, []
    if sys.argv[1:] != ["--links"]:
        folder = sys.argv[1] if len(sys.argv) > 1 else os.path.join(ROOT, "..", "shared", "documents")
        for paper in PAPERS:
            if not os.path.exists(os.path.join(folder, paper)):
                print("no " + os.path.join(folder, paper) + ": give the folder of the documents as the first argument")
                return 2
        asked, failures = against_papers(folder)
        passed = asked - min(len(failures), asked)
    looked = [found for page in pages() for found in links(page)]
    print("%d links" % len(looked))
    passed += sum(1 for _, why in looked if not why)
    failures += ["%s: %s" % (what, why) for what, why in looked if why]
    for f in failures:
        print("FAILED " + f)
    print("%d passed, %d failed" % (passed, len(failures)))
    return 1 if failures else 0


if __name__ == "__main__":
    sys.exit(main())
