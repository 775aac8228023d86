"""Must-fail edits and public functions: what docs/PROMISES.md has to say of them, and what has to be proved."""
import functools
import re

from declared import functions
from names import crates_of, names_in
from tree import crate_of, line_of, lines_of, quoted

PROMISES, LOOSE, HEADER = "docs/PROMISES.md", "docs/LOOSE.md", "include/phsarodil.h"
# The crates of which each function is promised by its name, with all that they rest on. The others are programs, tests and their parts.
LIBRARY = {"phsarodil", "listing"}
# The crate of the archive, which has the calls of the other once more.
ARCHIVE, CALLS = "phsarodil_c", "phsarodil"
READS = re.compile(r"^use Rattle\.(\w+)\.proofs\.([\w.]+)\.Reads as (\S+)$", re.M)
CLAIM = re.compile(r"^\S.* : (?:(?:\([\w ]+ : _\) )+→ )?(?:Fixes|FixesSeen) \(?([^\s(]+)\.Post\b(.*(?:\n    .*)*)", re.M)


def said_of(tree, crate):
    """The names in the sections of docs/PROMISES.md on a crate; one that follows a longer one in its cell may stand for its like."""
    said = set()
    for line in lines_of(tree.files[PROMISES]):
        for _, cell in line.cells if crate in crates_of(tree, line.heading) else ():
            before = ""
            for name in (name for token in quoted(cell) for name in names_in(token)):
                before = name.rpartition("::")[0] or before
                said |= {name, f"{before}::{name}"}
    return said


def check_edits_named(tree):
    """Each edit stands in the section of its crate."""
    said = {crate: said_of(tree, crate) for crate in tree.crates}
    for path, (crate, name) in tree.edits.items():
        if name not in said.get(crate, ()):
            yield f"{path}:1", f"the edit is not named in {PROMISES}, section `{crate}`"


def check_edits_apply(tree):
    """What an edit replaces stands once in its file, as the pairs before it left the file."""
    for path, (crate, _) in tree.edits.items():
        file, text, old = None, "", None
        for number, line in enumerate(tree.files[path].splitlines(), 1):
            word, _, rest = line.partition(": ")
            if word == "file":
                file = f"crates/{crate}/{rest}"
                text = tree.files.get(file, "")
            elif word == "old":
                old = rest
                if text.count(old) != 1:
                    yield f"{path}:{number}", f"the old text stands {text.count(old)} times in {file}"
            elif word == "new" and old:
                text = text.replace(old, rest)


def public(tree):
    """The public functions of all crates but the archive and programs: those that docs/LOOSE.md names as such, and says why."""
    programs = re.search(r"^\*\*Programs\.\*\*.*?(?=\n\n|\Z)", tree.files[LOOSE], re.S | re.M)
    return functions(tree, set(tree.crates) - {ARCHIVE} - set(quoted(programs[0] if programs else "")))


def calls(tree):
    """Those that anyone may call. Of one that requires something `check_requires` says what is wrong."""
    return [function for function in public(tree) if not function.requires]


def place(function):
    return f"{function.file}:{function.line}"


def title(function):
    return "::".join(function.path[-2:] if function.owner else function.path[-1:])


def check_requires(tree):
    """No public function asks anything of its caller."""
    for function in public(tree):
        if function.requires:
            yield place(function), f"`{title(function)}` has a requires and stands outside of inner"


@functools.cache
def claims(text):
    """What a Unique.antt fixes of each function, by the function's path: its answer ("r"), and arguments at exit, by their place."""
    fixed = {}
    paths = {alias: (crate, *path.split(".")) for crate, path, alias in READS.findall(text)}
    for alias, seen in CLAIM.findall(text):
        body = seen.partition("λ k r s.")[2] or "r"
        places = {len(steps) // 2 for steps in re.findall(r"\bs((?:\.1)*)\.0\.now\b", body)}
        fixed.setdefault(paths.get(alias), set()).update(places, {"r"} if re.search(r"(?<![.\w])r(?:\.now)?(?![\w.])", body) else ())
    return fixed


def fixed_by(tree, function):
    unique = f"crates/{crate_of(function.file)}/proofs/Unique.antt"
    return claims(tree.files.get(unique, "")).get(function.proof, set())


def check_answers_fixed(tree):
    """Of each public function that answers a theorem says that the contract fixes the answer."""
    for function in calls(tree):
        if function.answers and "r" not in fixed_by(tree, function):
            yield place(function), f"`{title(function)}`: no theorem of proofs/Unique.antt fixes its answer"


def check_lists_fixed(tree):
    """And of each list that it is lent to write to, what it holds at exit."""
    for function in calls(tree):
        for at, (name, kind) in enumerate(function.arguments):
            if kind.startswith("&mut") and at not in fixed_by(tree, function):
                yield place(function), f"`{title(function)}`: no theorem of proofs/Unique.antt fixes `{name}` at exit"


def check_promised(tree):
    """Each public function stands in the section of its crate, a method with its type."""
    for crate in sorted(tree.below(LIBRARY)):
        said = said_of(tree, crate)
        for function in calls(tree):
            if crate == crate_of(function.file) and not function.names() & said:
                yield place(function), f"`{title(function)}` is not named in {PROMISES}, section `{crate}`"


def check_archive(tree):
    """The archive has each call of the library, with the same arguments and clauses, and nothing else."""
    ours, theirs = ({function.path[1:]: function for function in functions(tree, {crate})} for crate in (ARCHIVE, CALLS))
    for path in sorted(theirs.keys() - ours.keys()):
        yield place(theirs[path]), f"`{path[-1]}` is not in the archive"
    for path, function in sorted(ours.items()):
        if path not in theirs or function.signature != theirs[path].signature:
            yield place(function), f"`{path[-1]}` is no call of {CALLS} with these arguments and clauses"


def check_header(tree):
    """The C interface is declared in the header, call for call."""
    header = tree.files[HEADER]
    declared = {found[1]: line_of(header, found.start()) for found in re.finditer(r"^uint64_t (phs_\w+)\(", header, re.M)}
    made = {function.name: place(function) for function in calls(tree) if function.name.startswith("phs_")}
    for name in sorted(made.keys() - declared.keys()):
        yield made[name], f"`{name}` is not declared in {HEADER}"
    for name in sorted(declared.keys() - made.keys()):
        yield f"{HEADER}:{declared[name]}", f"`{name}` is no function of crates/phsarodil"
