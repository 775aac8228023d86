"""Numbers that documents state are those of the tree."""
import collections
import re
import struct

from declared import functions
from tree import crate_of, line_of, lines_of, quoted

RULES, PROMISES, DIFFERENCES = "docs/RULES.md", "docs/PROMISES.md", "docs/DIFFERENCES.md"
ORACLE, HEADER = "oracle/README.md", "include/phsarodil.h"
# Where a number stands (a file, or files by a pattern), and what it counts: a line of `counted`, or a definition with its crate.
# Notes of requests say what was, and are left out.
COUNTS = [
    ("README.md", r"Of ([\d,]+) cases it wrote down", "stored cases"),
    (DIFFERENCES, r"repeat ([\d,]+) cases in every check", "stored cases"),
    (PROMISES, r"stored runs are of ([\d,]+) cases", "stored cases"),
    (PROMISES, r"([\d,]+) of them in `answers`", "stored cases of answers"),
    (PROMISES, r"([\d,]+) in `carved`", "stored cases of carved"),
    (PROMISES, r"and ([\d,]+) in `walked`", "stored cases of walked"),
    (PROMISES, r"on ([\d,]+) the Rust agreed", "stored cases that the Rust agreed on"),
    (PROMISES, r"([\d,]+) have a name", "stored cases with a name"),
    (ORACLE, r"seed \d+: ([\d,]+)\s+cases", "stored cases"),
    (ORACLE, r"of which `answers` has ([\d,]+)", "stored cases of answers"),
    (ORACLE, r"`carved` ([\d,]+) and", "stored cases of carved"),
    (ORACLE, r"and\s+`walked` ([\d,]+)\.", "stored cases of walked"),
    (ORACLE, r"On ([\d,]+) of them\s+the Rust was asked", "stored cases that the Rust agreed on"),
    (ORACLE, r"on ([\d,]+) the rules alone decide", "stored cases that the rules decide"),
    (PROMISES, r"compares ([\d,]+) more with outputs", "inputs of tests/carvelist-cases"),
    (DIFFERENCES, r"([\d,]+) cases over", "cases in the table of calls"),
    (DIFFERENCES, r"([\d,]+) of them with the Rust", "cases with the Rust in the table of calls"),
    (DIFFERENCES, r"cases over ([\w-]+) calls", "calls of the C interface that answer"),
    (PROMISES, r"The paper's (\w+) modules", "modules of the table"),
    (PROMISES, r"a scan into lists of ([\d,]+) and", "words for the rows of a part"),
    (PROMISES, r"and ([\d,]+) words from a start on", "words for the entries of a part"),
    (PROMISES, r"the row's (\w+) words", "sheet.words_per_row"),
    (RULES, r"A row is (\w+) words", "sheet.words_per_row"),
    (RULES, r"An entry is (\w+) words", "sheet.words_per_entry"),
    (PROMISES, r"an attempt has at most (\d+) header places", "attempt.most_places"),
    (HEADER, r"PHS_WORDS_PER_ROW (\d+)", "sheet.words_per_row"),
    (HEADER, r"PHS_WORDS_PER_ENTRY (\d+)", "sheet.words_per_entry"),
    (HEADER, r"PHS_MOST_COLUMNS (\d+)", "sheet.most_columns"),
    (HEADER, r"PHS_MOST_ONE_BYTE_COLUMNS (\d+)", "rebuild.one_byte_types"),
    (HEADER, r"PHS_LARGEST_REGION (\d+)", "sheet.largest_region"),
    (HEADER, r"PHS_LARGEST_STATEMENT (\d+)", "sheet.largest_statement"),
    (HEADER, r"PHS_MOST_TABLES (\d+)", "sheet.most_tables"),
    (HEADER, r"PHS_MOST_LEARNED (\d+)", "sheet.most_rows"),
    (HEADER, r"PHS_VERSION (\d+)", "phsarodil.door_version"),
    (r"wrapper/src/\w+\.rs", r"const VERSION: u64 = (\d+)", "phsarodil.door_version"),
    (r"wrapper/src/\w+\.rs", r"const ROW_WORDS: usize = (\d+)", "sheet.words_per_row"),
    (r"wrapper/src/\w+\.rs", r"const ENTRY_WORDS: usize = (\d+)", "sheet.words_per_entry"),
    (r"oracle/src/rules/\w+\.rs", r"const WORDS_PER_ROW: usize = (\d+)", "sheet.words_per_row"),
    (r"oracle/src/rules/\w+\.rs", r"const WORDS_PER_ENTRY: usize = (\d+)", "sheet.words_per_entry"),
]
# Where refusals have their numbers beside rule 1.1, and how a line of them is written.
REFUSALS = {
    HEADER: r"^    PHS_([A-Z_]+) = ([1-9]\d*)",
    "wrapper/src/refusal.rs": r"^    (\w+) = (\d+),$",
    "crates/sheet/specs/Refusal.antt": r"^refusal_number (\w+) = (\d+)$",
}
HEAD, CALL, NAME, SIZE, RUST = 160, 0, 72, 112, 152  # bytes of a stored case's head, and where its words stand
SMALL = ("zero one two three four five six seven eight nine ten "
         "eleven twelve thirteen fourteen fifteen sixteen seventeen eighteen nineteen").split()
TENS = "twenty thirty forty fifty sixty seventy eighty ninety".split()


def number(said):
    """The number that digits or a word say; -1 for any other word."""
    ten, _, one = said.partition("-")
    if ten in TENS and (not one or one in SMALL):
        return 10 * TENS.index(ten) + 20 + (SMALL.index(one) if one else 0)
    return SMALL.index(said) if said in SMALL else int(said.replace(",", "")) if said[0].isdigit() else -1


def stored(tree, program):
    """Of each stored case of a program: whether the Rust agreed, and whether it has a name. Headings are none."""
    file, at, cases = tree.files.get(f"crates/{program}/data/cases.bin", b""), 0, []
    while at < len(file):
        size, call, name, rust = (struct.unpack_from(">Q", file, at + word)[0] for word in (SIZE, CALL, NAME, RUST))
        if call:
            cases.append((rust == 1, name > HEAD))
        at += size
    return cases


def column(tree, path, name):
    """Line and cell of each row that has a column of that name."""
    rows = [(line.number, dict(line.cells)) for line in lines_of(tree.files[path]) if len(line.cells) > 1]
    return [(at, row) for at, row in rows if name in row and row[name] != name and not row[name].startswith("---")]


def sum_of(tree, path, name):
    return sum(number(row[name]) for _, row in column(tree, path, name))


def defined(tree):
    """The definitions that are a number, each by its crate."""
    specs = tree.like(r"crates/\w+/specs/\w+\.antt").items()
    return {f"{crate_of(path)}.{name}": int(value) for path, text in specs for name, value in re.findall(r"^(\w+) = (\d+)$", text, re.M)}


def counted(tree):
    """What there is to count, and how much of it."""
    programs = {program: stored(tree, program) for program in ("answers", "carved", "walked")}
    cases = sum(programs.values(), [])
    agreed = sum(rust for rust, _ in cases)
    calls = [function for function in functions(tree, {"phsarodil"}) if function.name.startswith("phs_")]
    numbers = collections.defaultdict(lambda: -1, defined(tree))
    return {
        **numbers,
        "stored cases": len(cases),
        **{f"stored cases of {program}": len(own) for program, own in programs.items()},
        "stored cases that the Rust agreed on": agreed,
        "stored cases that the rules decide": len(cases) - agreed,
        "stored cases with a name": sum(named for _, named in cases),
        "inputs of tests/carvelist-cases": sum(path.startswith("tests/carvelist-cases/") and path.endswith(".in") for path in tree.files),
        "cases in the table of calls": sum_of(tree, DIFFERENCES, "Cases"),
        "cases with the Rust in the table of calls": sum_of(tree, DIFFERENCES, "With the Rust"),
        "calls of the C interface that answer": len(calls) - 1,  # all but phs_version
        "modules of the table": sum(len(quoted(row["Module"])) for _, row in column(tree, PROMISES, "Module")),
        "words for the rows of a part": numbers["listing.part_rows"] * numbers["sheet.words_per_row"],
        "words for the entries of a part": numbers["listing.part_rows"] * numbers["sheet.words_per_entry"] * numbers["sheet.most_columns"],
    }


def check_counts(tree):
    """Each number of the table above."""
    counts = counted(tree)
    for files, pattern, what in COUNTS:
        due = counts.get(what, "not defined")
        found = [(path, said) for path, text in tree.like(files).items() for said in re.finditer(pattern, text)]
        if not found:
            yield f"{files}:1", f"nothing here says how many: {what} ({pattern})"
        for path, said in found:
            if number(said[1]) != due:
                yield f"{path}:{line_of(said.string, said.start())}", f"says {said[1]}, and it is {due}: {what}"


def check_modules(tree):
    """The table of modules: the edits of the crates that a row names, and cases that come to those compared with the Rust."""
    for at, row in column(tree, PROMISES, "Module"):
        due = sum(crate in quoted(row["Crates"]) for crate, _ in tree.edits.values())
        if number(row["Edits"]) != due:
            yield f"{PROMISES}:{at}", f"says {row['Edits']} edits, and {row['Crates']} have {due}"
    cases = sum_of(tree, PROMISES, "Cases compared")
    if cases != sum_of(tree, DIFFERENCES, "With the Rust"):
        yield f"{PROMISES}:1", f"the cases of the table of modules come to {cases}, and those of {DIFFERENCES} do not"


def check_crates(tree):
    """crates.txt, the folders of crates and the table of README.md have the same crates."""
    folders = {path.split("/")[1] for path in tree.files if path.startswith("crates/")}
    table = {name: at for at, row in column(tree, "README.md", "Crate") for name in quoted(row["Crate"])}
    for place, names in {"crates.txt": set(tree.crates), "README.md": set(table)}.items():
        for name in sorted(folders - names):
            yield f"{place}:1", f"the crate {name} is missing"
        for name in sorted(names - folders):
            yield f"{place}:{table.get(name, 1)}", f"there is no crate {name}"


def check_refusals(tree):
    """The refusals of rule 1.1 have the same numbers in the header, in the wrapper and in the definition."""
    rule = {quoted(row["Name"])[0]: row["No"] for _, row in column(tree, RULES, "No")}
    for path, pattern in REFUSALS.items():
        listed = tree.files[path].partition("enum phs_refusal {")[2].partition("}")[0] or tree.files[path]
        names = {name.title().replace("_", "") if name.isupper() else name: no for name, no in re.findall(pattern, listed, re.M)}
        for name in sorted(rule.keys() | names.keys()):
            if rule.get(name) != names.get(name):
                yield f"{path}:1", f"refusal {name} is {names.get(name, 'missing')} here and {rule.get(name, 'missing')} in rule 1.1"
