#!/usr/bin/env python3
"""Holds the columns, classes, codes and reason numbers of the crates to the documents they are taken from.

    tests/compare_source.py [--root DIR] [DOCUMENTS]

DOCUMENTS is the folder that holds documents 000 and 001 (their file names begin with 000_ and 001_), 01-scope.md and 02-change-requests.md;
../shared/documents from the repository's root if not given. DIR is the repository's root; the one that holds this file if not given.

The five tables of PFML and the codes are read from document 000, the six of the amended withholding file from document 001. What each field is, its class,
follows from the table's own words: type, rules or description, and the field's name. The readings of document 01 (which location is read as two, how many
fields, which reasons) are read from its sentences, and from those of document 02 the reasons that its requests add, where docs/changes has a note of the
request; that of an unknown format at opening is there before its request, and those that a request leaves to a list in docs/ are read from there.
One line for each comparison; the last line is 'N passed, M failed'.
"""
import argparse
import os
import re
import sys

import format_lists
import paper_fields

RECORDS = "AESTF"
# Those of the amended withholding file, in the order of the crates. Document 001 has a B too, which document 02 leaves out of this edition.
WHAM_RECORDS = "AESRTF"
COUNTS = {"passed": 0, "failed": 0}


# ---- the documents


def plain(text):
    """A table's cell without its marks."""
    return re.sub(r"</?[a-z]+>", "", text).strip()


def columns(location):
    """'2 – 5' is (2, 5), '190' is (190, 190); None for anything else."""
    match = re.fullmatch(r"(\d+)(?:\s*[–-]\s*(\d+))?", location)
    return match and (int(match.group(1)), int(match.group(2) or match.group(1)))


def tables(source):
    """The rows of each record's table as (first, last, name, length, type, description, rules)."""
    rows, record = {r: [] for r in RECORDS}, None
    for line in source.split("\n"):
        heading = re.match(r"#+ (.*)", line)
        if heading:
            named = re.search(r"\(([AESTF])\) Record", heading.group(1))
            record = named and named.group(1)
            continue
        cells = [plain(c) for c in line.split("\t")]
        if record and len(cells) == 6 and columns(cells[0]):
            rows[record].append(columns(cells[0]) + (cells[1], int(cells[2])) + tuple(cells[3:]))
    return rows


def third_quarter_columns(source):
    """'E record, column 191 will only be evaluated in Q3 each year.'"""
    return {(r, int(c)) for r, c in re.findall(r"([AESTF]) record, column (\d+) will only be evaluated in Q3", source)}


def class_of(record, row, only_third):
    """What a field is, by the words of its row."""
    first, last, name, length, kind, description, rules = row
    if name == "Record Identifier":
        return "RecordLetter"
    if name == "Blank Space":
        return "BlankSpace"
    if "'PFML'" in rules:
        return "EntityCode"
    if name == "Tax Year":
        return "TaxYear"
    if name == "Period Covered":
        return "Period"
    if name.endswith("State"):
        return "StateCode"
    if name.lower().endswith("zip code extension"):
        return "ZipExtension"
    if name.lower().endswith("zip code"):
        return "ZipCode"
    return number_class(record, row, only_third) if kind == "N" else text_class(rules)


def number_class(record, row, only_third):
    first, last, name, length, kind, description, rules = row
    if length == 1 and '"0"' in description and '"1"' in description:
        return "ThirdQuarterFlag" if (record, first) in only_third else "Flag"
    if "valid FEIN format" in rules:
        return "EmployerFein"
    if "If it is blank" in rules:
        return "AccountNumber"
    if "valid SSN" in rules:
        return "IdentityNumber"
    if "valid date" in rules:
        return "CeaseDate"
    return "Numeric"


def text_class(rules):
    if rules.startswith("Required text. Can not contain numbers or symbols"):
        return "PersonName"
    if rules == "Required text":
        return "RequiredText"
    if rules == "Optional text":
        return "OptionalText"
    return "no class for the rule: " + rules


def halves(paper):
    """'S 46-51 is read as two, 46-47 and 48-51': a location, and the two that it is read as."""
    read = re.findall(r"([AESTF]) (\d+)-(\d+) is read as two, (\d+)-(\d+) and (\d+)-(\d+)", paper)
    return {(r[0], int(r[1]), int(r[2])): [(int(r[3]), int(r[4])), (int(r[5]), int(r[6]))] for r in read}


def as_read(source, paper):
    """The fields of each record as (class, first, last, name)."""
    only_third, two, fields = third_quarter_columns(source), halves(paper), {}
    for record, rows in tables(source).items():
        fields[record] = []
        for row in rows:
            parts = two.get((record,) + row[:2])
            if parts and row[2] == "Reporting Quarter and Year":
                for kind, part in zip(("Period", "TaxYear"), parts):
                    fields[record].append((kind,) + part + (row[2],))
            else:
                fields[record].append((class_of(record, row, only_third),) + row[:3])
    return fields


def field_counts(paper):
    """'A 17 fields, E 28, S 12, T 7, F 7 .. so 72 in all'"""
    match = re.search(r"A (\d+) fields, E (\d+), S (\d+), T (\d+), F (\d+)\.[^.]*so (\d+) in all", paper)
    return [int(n) for n in match.groups()] if match else []


def appendix_codes(source):
    """Appendix A's states, the left columns and then the right ones, and its provinces."""
    part = source[source.index("## Appendix A - FIPS Codes & Canadian Postal Codes\n"):]
    part = part[:part.index("## Appendix B")]
    left, right, provinces = [], [], []
    for line in part.split("\n"):
        cells = [plain(c) for c in line.split("\t")]
        for place, codes in ((1, left), (4, right)):
            if len(cells) > place + 1 and re.fullmatch(r"\d\d", cells[place + 1]):
                codes.append(cells[place])
        if len(cells) == 2 and re.fullmatch(r"[A-Z][A-Z]", cells[1]):
            provinces.append(cells[1])
    return left + right, provinces


def paper_numbers(paper):
    """The numbers of document 01's table. '10 to 63 | as above': those that the text above the table names."""
    above = paper[paper.index("Classes:"):paper.index("| No. |")]
    above = re.sub(r"\d+-\d+|03, 06, 09, 12|\d+ (?:codes|states|provinces)", "", above)
    named = {int(n) for n in re.findall(r"(?<![\d,.])([1-9]\d)(?![\d,]\d)(?!\d)", above)}
    numbers = set()
    for cell, when in re.findall(r"^\| (\d[^|]*) \| ([^|]*) \|$", paper, re.M):
        span = re.fullmatch(r"(\d+) to (\d+)", cell.strip())
        listed = set(range(int(span.group(1)), int(span.group(2)) + 1)) if span else {int(n) for n in cell.split(",")}
        numbers |= listed & named if when.strip() == "as above" else listed
    return numbers - {0}


def later_numbers(requests, built, page):
    """The numbers that the change requests of document 02 add, of those that are built: 'Refusals: 64, right after 44 and before 45, ..'.
    One that is given 'also' for something more, as 74 in (xiii), is another request's. Of '90 to 99 for the R record, .. listed in docs/' those that the
    format's page lists."""
    numbers, left = set(), r"(\d+) to (\d+) for the (\w) record,[^;]* listed in docs/"
    for name, refusals in re.findall(r"^\*\*\((\w+)\) .*Refusals?[^:]*:(.*)$", requests, re.M):
        if built(name):
            for first, last, record in re.findall(left, refusals):
                numbers |= listed_numbers(page, record) & set(range(int(first), int(last) + 1))
            numbers |= {int(n) for n in re.findall(r"(?<![\d,.])([1-9]\d)(?![\d,]\d)(?!\d)(?! also)", re.sub(left, "", refusals))}
    return numbers


def listed_numbers(page, record):
    """The numbers in the rules of a record's fields, in the page of a format."""
    numbers = set()
    for above, heads, rows in format_lists.tables(page.split("\n")):
        if heads[:2] == ["Columns", "Field"] and above.startswith(record + ","):
            numbers |= {int(n) for _, cells in rows for n in re.findall(r"\d+", cells[3])}
    return numbers


def opening_numbers(requests):
    """That of request (vii), 'Refusals: 73, unknown edition, at opening after 70': a format is named at opening, with one to name so far."""
    return {int(n) for n in re.findall(r"Refusals: (\d+), unknown edition, at opening after 70", requests)}


# ---- document 001


def wham_tables(source):
    """The rows of each record's table as (first, last, name, length, type, description). A table begins with the row of the record's letter."""
    rows, record = {}, None
    for line in source.split("\n"):
        cells = [plain(c) for c in line.split("\t")]
        if len(cells) != 5 or not columns(cells[0]):
            continue
        if cells[1] == "Record Identifier":
            record = cells[4][-1]
        rows.setdefault(record, []).append(columns(cells[0]) + (cells[1], int(cells[2])) + tuple(cells[3:]))
    return rows


def wham_class(row):
    """What a field is, by the words of its row."""
    first, last, name, length, kind, description = row
    if name == "Record Identifier":
        return "RecordLetter"
    if "will be ignored" in description:
        return "Ignored"
    if name == "Taxing Entity":
        return "EntityCode"
    return wham_number(name, description) if kind == "N" else wham_text(name)


def wham_number(name, description):
    if name == "Period Covered":
        return "Period"
    if name == "Social Security Number":
        return "SocialSecurity"
    if "(Maine is 23)" in description:
        return "MaineCode"
    if "“1” = Indicates" in description and "“0” = Indicates" in description:
        return "Flag"
    if "must equal the total entered here" in description:
        return "Difference"
    return "Numeric"


def wham_text(name):
    """A text is required unless it can be not applicable. Whatever stands for an initial is one, or a blank: so nothing of it is tested."""
    if name.endswith("State"):
        return "StateCode"
    if name.lower().endswith("zip code extension"):
        return "ZipExtension"
    if name.lower().endswith("zip code"):
        return "ZipCode"
    if name.endswith("Middle Initial"):
        return "Ignored"
    if name == "Telephone Extension/Box":
        return "OptionalText"
    return "Licence" if name == "Processor License Number" else "RequiredText"


def wham_as_read(source, paper):
    """The fields of each record as (class, first, last, name)."""
    two, fields = halves(paper), {}
    for record, rows in wham_tables(source).items():
        fields[record] = []
        for row in rows:
            if row[2] == "Reporting Quarter and Year":
                parts = zip(("Period", "Numeric"), two[(record,) + row[:2]])
                fields[record] += [(kind,) + part + (row[2],) for kind, part in parts]
            else:
                fields[record].append((wham_class(row),) + row[:3])
    return fields


# ---- the crates


def found(pattern, text, what):
    match = re.search(pattern, text, re.S)
    if not match:
        raise ValueError("%s is not found" % what)
    return match


def camel(constant):
    """BLANK_SPACE is BlankSpace."""
    return "".join(word.capitalize() for word in constant.split("_"))


def in_records(rows):
    """Rows one after the other, cut where a row begins at column 1."""
    records = []
    for row in rows:
        if row[1] == 1 or not records:
            records.append([])
        records[-1].append(row)
    return records


def code_fields(text):
    """The rows of FIELDS; one that is a constant's name has its columns there."""
    row = r"row!\((?:More\()?(\w+)\)?, (\d+), (\d+)\)"
    named = {name: row for name, *row in re.findall(r"const (\w+): Field = " + row, text)}
    body = found(r"const FIELDS[^=]*= \[(.*?)\n\];", text, "FIELDS").group(1)
    rows = [named[name] if name else own for name, *own in re.findall(r"^    (?:(\w+)|%s),$" % row, body, re.M)]
    return [(c, int(a), int(b)) for c, a, b in rows]


def code_map(text):
    """The numbers of MAP, a byte string whose lines are joined."""
    body = found(r'const MAP: \[u8; \d+\] = \*b"(.*?)";', text, "MAP").group(1)
    return [int(n, 16) for n in re.findall(r"\\x([0-9a-fA-F]{2})", re.sub(r"\\\n\s*", "", body))]


def numbers_in(pattern, text, what):
    """The numbers in what the pattern's group holds."""
    return [int(n) for n in re.findall(r"\d+", found(pattern, text, what).group(1))]


def list_of(record):
    """The name, in specs, of a record's list of fields."""
    return "fields_of_" + record.lower()


def listed_fields(text, record):
    """The rows of a record's list in specs, each with the name beside it; one that is a definition's name has its columns there."""
    row = r"row (?:\(More )?(\w+)\)? (\d+) (\d+)"
    named = {name: row for name, *row in re.findall(r"^(\w+) = " + row + "$", text, re.M)}
    body = found(r"\n%s =\n(.*?)\n    \[\]" % list_of(record), text, list_of(record)).group(1)
    rows = [(named[name] if name else own, beside) for name, *own, beside in re.findall(r"^    (?:(\w+)|%s) ∷ *(?:-- (.*))?" % row, body, re.M)]
    return [(c, int(a), int(b), beside) for (c, a, b), beside in rows]


def is_short_for(name, full):
    """A comment names the field in the source's words, to its end or up to '..'; after a colon it may say more."""
    short = name.split(":")[0]
    return full.startswith(short[:-2].rstrip()) if short.endswith("..") else full.rstrip(".") == short.rstrip(".")


def code_reasons(text):
    """Each reason's name with the number that leads to it, and with the number that it has."""
    back = {name: int(n) for n, name in re.findall(r"\b(\d+) => Reason::(\w+),", text)}
    given = {name: int(n) for name, n in re.findall(r"(?m)^    (\w+) = (\d+),$", text)}
    return back, given


# ---- the comparisons


def say(holds, what, difference=""):
    COUNTS["passed" if holds else "failed"] += 1
    print(("ok " + what) if holds else "FAILED %s: %s" % (what, difference))


def first_difference(wanted, got):
    for k, (a, b) in enumerate(zip(wanted, got)):
        if a != b:
            return "entry %d is %s, not %s" % (k + 1, b, a)
    return "%d entries, not %d" % (len(got), len(wanted))


def same(what, wanted, got):
    say(wanted == got, what, first_difference(wanted, got) if isinstance(wanted, list) else "%s, not %s" % (got, wanted))


def tiling(rows, length):
    """Where the rows do not tile columns 1 to this length, in words; nothing if they do."""
    at = 1
    for kind, first, last, name in rows:
        if first != at or last < first:
            return "%s begins at %d and ends at %d, with %d next" % (name, first, last, at)
        at = last + 1
    return "" if at == length + 1 else "the last column is %d" % (at - 1)


def compare_source(source, paper, fields):
    printed, counted = tables(source), field_counts(paper)
    same("the fields of each record are as many as document 01 counts", counted[:5], [len(printed[r]) for r in RECORDS])
    same("the fields as read are as many as document 01 says in all", counted[5:], [sum(len(fields[r]) for r in RECORDS)])
    for record in RECORDS:
        wrong = ["%d-%d has length %d" % (row[0], row[1], row[3]) for row in printed[record] if row[3] != row[1] - row[0] + 1]
        say(not wrong, "%s: each printed length is last - first + 1" % record, "; ".join(wrong))
        gap = tiling(fields[record], 290)
        say(not gap, "%s: the fields tile columns 1 to 290" % record, gap)


def compare_counts(code, fields, records):
    """The counts of fields beside a list of them. The number of each record's first field."""
    starts = [sum(len(fields[r]) for r in records[:k]) for k in range(len(records))]
    same("FIRST_OF_A to FIRST_OF_F count the fields before each record", starts, [n for r in records for n in numbers_in(r"const FIRST_OF_%s: usize = (\d+);" % r, code, r)])
    same("ALL_FIELDS counts all of them", [sum(len(fields[r]) for r in records)], numbers_in(r"const ALL_FIELDS: usize = (\d+);", code, "ALL_FIELDS"))
    return starts


def compare_fields(read, source, fields):
    code, specs = read("crates/pfml_fields/src/lib.rt"), read("crates/pfml_fields/specs/Fields.antt")
    rows = in_records(code_fields(code))
    same("FIELDS has five records", 5, len(rows))
    starts = compare_counts(code, fields, RECORDS)
    same("starts, in specs, counts them too", starts, numbers_in(r"\nstarts =(.*?)\[\]", specs, "starts"))
    length = numbers_in(r"Each record must be a uniform length of (\d+)", source, "the record's length")
    same("RECORD is the record's length", length, numbers_in(r"const RECORD: u16 = (\d+)", code, "RECORD"))
    for k, record in enumerate(RECORDS):
        wanted = [row[:3] for row in fields[record]]
        same("%s: columns and classes of FIELDS" % record, wanted, rows[k] if k < len(rows) else [])
        same("%s: columns and classes of tests/paper_fields.py" % record, wanted, [(camel(c), a, b) for c, a, b in paper_fields.ROWS[record]])
        listed = listed_fields(specs, record)
        same("%s: columns and classes of %s" % (record, list_of(record)), wanted, [row[:3] for row in listed])
        wrong = ["%s for %s" % (row[3], full[3]) for row, full in zip(listed, fields[record]) if not is_short_for(row[3], full[3])]
        say(not wrong, "%s: the names in %s are the source's" % (record, list_of(record)), "; ".join(wrong))


# In document 001 two printed lengths are not last - first + 1, B 19-264 and E 229-257. The columns decide.
WHAM_LENGTHS = [("B", 19, 264, 245), ("E", 229, 257, 43)]


def compare_wham_source(source, fields, length):
    printed = wham_tables(source)
    same("001 has tables of A, B, E, S, R, T and F", sorted("ABESRTF"), sorted(printed))
    wrong = [(record, row[0], row[1], row[3]) for record in sorted(printed) for row in printed[record] if row[3] != row[1] - row[0] + 1]
    same("001: each printed length but two is last - first + 1", WHAM_LENGTHS, wrong)
    for record in WHAM_RECORDS:
        gap = tiling(fields[record], length)
        say(not gap, "001, %s: the fields tile columns 1 to %d" % (record, length), gap)
        codes = {re.sub("^Enter ", "", row[5]) for row in printed[record] if row[2] == "Taxing Entity"}
        say(codes == (set() if record == "R" else {"WHAM"}), "001, %s: its entity code is WHAM, or it has none" % record, codes)


def compare_wham(read, source, fields):
    code, specs = read("crates/wham_fields/src/lib.rt"), read("crates/wham_fields/specs/Fields.antt")
    length = numbers_in(r"Each record must be a uniform length \((\d+) or", source, "the record's length")
    compare_wham_source(source, fields, *length)
    rows = in_records(code_fields(code))
    same("FIELDS of wham_fields has six records", 6, len(rows))
    compare_counts(code, fields, WHAM_RECORDS)
    same("RECORD of wham_fields is the record's length", length, numbers_in(r"const RECORD: u16 = (\d+)", code, "RECORD"))
    for k, record in enumerate(WHAM_RECORDS):
        wanted = [row[:3] for row in fields[record]]
        same("001, %s: columns and classes of FIELDS" % record, wanted, rows[k] if k < len(rows) else [])
        same("001, %s: columns and classes of %s" % (record, list_of(record)), wanted, [row[:3] for row in listed_fields(specs, record)])
    order = found(r"\nrecords = (.*?) ∷ \[\]", specs, "records").group(1).split(" ∷ ")
    same("records, in specs, has them in this order", [list_of(record) for record in WHAM_RECORDS], order)
    same("ENTITY of wham is the entity code", "WHAM", found(r'const ENTITY: \[u8; 4\] = \*b"(.*?)";', read("crates/wham/src/lib.rt"), "ENTITY").group(1))
    same("and so it is in specs", ["WHAM"], re.findall(r'code = bytes "(.*?)"', read("crates/wham/specs/Edits.antt")))


def compare_map(read, fields):
    numbers, number = code_map(read("crates/pfml_fields/src/map.rt")), 0
    same("MAP has five records of 290 columns", 5 * 290, len(numbers))
    for k, record in enumerate(RECORDS):
        wanted = []
        for kind, first, last, name in fields[record]:
            wanted += [number] * (last - first + 1)
            number += 1
        same("%s: the field of every column in MAP" % record, wanted, numbers[290 * k:290 * (k + 1)])


def compare_codes(read, source, paper):
    states, provinces = appendix_codes(source)
    counted = found(r"the (\d+) codes of Appendix A, (\d+) states, DC and (\d+) provinces", paper, "the count of the codes")
    same("the codes of Appendix A are as many as document 01 counts", [int(n) for n in counted.groups()],
         [len(states + provinces), len([s for s in states if s != "DC"]), len(provinces)])
    code, specs = read("crates/codes/src/lib.rt"), read("crates/codes/specs/Codes.antt")
    same("CODES: states, then provinces", states + provinces, re.findall(r'\*b"(..)"', code))
    same("STATES counts the states", [len(states)], numbers_in(r"const STATES: usize = (\d+)", code, "STATES"))
    for name, wanted in (("states", states), ("provinces", provinces)):
        same("%s, in specs" % name, wanted, found(r'\n%s = codes_in \(bytes "([^"]*)"\)' % name, specs, name).group(1).split(" "))


def compare_reasons(read, paper, later):
    back, given = code_reasons(read("crates/reason/src/lib.rt"))
    same("the numbers of the reasons are those of document 01 and of the requests that are built", sorted({*paper_numbers(paper), *later}), sorted(given.values()))
    same("each reason's number leads to it", sorted(given.items()), sorted(back.items()))
    specs = re.findall(r"\nnumber_of (\w+) = (\d+)", read("crates/reason/specs/ReasonNumbers.antt"))
    same("the numbers in specs are those of the code", sorted(given.items()), sorted((name, int(n)) for name, n in specs))


def compare(what, part, *arguments):
    """A file that is missing, or in which a table is not found, is a failure of its part."""
    try:
        part(*arguments)
    except (OSError, ValueError) as problem:
        say(False, what, problem)


def reader(root):
    def read(path):
        with open(os.path.join(root, path), encoding="utf-8") as f:
            return f.read()
    return read


def document(folder, begins):
    """The text of the one document whose file name begins so."""
    names = sorted(n for n in os.listdir(folder) if n.startswith(begins)) if os.path.isdir(folder) else []
    if not names:
        print("no document %s.. in %s: give the folder of the documents as the first argument" % (begins, folder))
        sys.exit(2)
    with open(os.path.join(folder, names[0]), encoding="utf-8") as f:
        return f.read()


def main():
    here = os.path.dirname(os.path.dirname(os.path.abspath(__file__)))
    words = argparse.ArgumentParser(description=__doc__, formatter_class=argparse.RawDescriptionHelpFormatter)
    words.add_argument("documents", nargs="?")
    words.add_argument("--root", default=here)
    given = words.parse_args()
    folder = given.documents or os.path.join(given.root, "..", "shared", "documents")
    source, wham, paper, requests = (document(folder, begins) for begins in ("000_", "001_", "01-scope", "02-change"))
    fields, read = as_read(source, paper), reader(given.root)
    later = later_numbers(requests, lambda name: os.path.exists(os.path.join(given.root, "docs", "changes", name + ".md")), read("docs/formats/wham.md"))
    later |= opening_numbers(requests)
    compare_source(source, paper, fields)
    compare("the list of fields", compare_fields, read, source, fields)
    compare("the list of fields of wham-2024", compare_wham, read, wham, wham_as_read(wham, paper))
    compare("the map of columns", compare_map, read, fields)
    compare("the codes", compare_codes, read, source, paper)
    compare("the reasons", compare_reasons, read, paper, later)
    print("%d passed, %d failed" % (COUNTS["passed"], COUNTS["failed"]))
    sys.exit(1 if COUNTS["failed"] else 0)


if __name__ == "__main__":
    main()
