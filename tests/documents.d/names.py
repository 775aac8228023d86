"""Names that a document or a comment has in backquotes, and files that it names anywhere, are there."""
import functools
import itertools
import posixpath
import re

from declared import all_items, definitions
from tree import code, crate_of, line_of, lines_of, prose, quoted

PROMISES, DIFFERENCES, WRAPPER, HEADER = "docs/PROMISES.md", "docs/DIFFERENCES.md", "wrapper/README.md", "include/phsarodil.h"

# Names that are neither ours nor the Rust's, by the reason why a document has them.
OTHERS = {
    "a tool or a package of a machine": "cargo cc rt rustc rustc-web sqlite3 valgrind qemu-user libllvm22 libstd-rust-web-dev",
    "a word or a function of Rattle, of Rust or of C": "requires data f64 f64::from_bits f64_from_bits_with_nan to_bits nanosleep memcpy memset",
    "the kit's own": "toBits Post os::fail",
    "put together by the bench": "small-blocks exact-high-of-510-columns",
}
# What is gone, by the one document that still tells of it.
GONE = {"docs/requests/K8.md": "oneByte edges recording replay rowcases shown valuecases walks"}
BESIDE = r"(?!tests/documents)((oracle|bench|wrapper|include|examples|tests)/.*\.(rs|c|h|py|awk)|(oracle|bench|tests)/[^./]+)"
NO_NAME = re.compile(r"[0-9A-F]{2}|[0-9A-F]{8,}|\w")  # a byte or bits in hexadecimal, a letter
NAME = re.compile(r"[A-Za-z][\w-]*(?:::[A-Za-z]\w*)*")
FILE = re.compile(r"[\w-]+\.(?:antt|rt|rs|c|h|py|md|awk|bin|txt)")
PATH = re.compile(r"(?<![\w/.-])(?:\./)?([\w-]+(?:/[\w-]+(?:\.\w+)*)+)")
BEFORE_FILE = re.compile(r"((?:`[\w-]+`(?:,|,? and)\s+)*`[\w-]+`)(?:,\s+|\s+\()`((?:crates/\w+/)?(?:specs|proofs)/\w+\.antt)`")
LINK = re.compile(r"\]\(([\w./-]+)\)")
OF_A_CRATE = ("specs", "proofs", "src", "must-fail")


class Names:
    """The names of a tree: definitions, items and edits by their crate, and all words of the code beside the crates."""

    def __init__(self, tree):
        self.tree, self.crates = tree, set(tree.crates)
        self.defined, self.items, self.edits = {}, {}, {}
        for path, text in tree.like(r"crates/.*\.antt").items():
            self.defined.setdefault(crate_of(path), set()).update(definitions(text))
        for item in all_items(tree):
            ways = {"::".join(item.path[at:]) for at in range(len(item.path))}
            self.items.setdefault(item.path[0], set()).update(ways, item.path)
        for crate, name in tree.edits.values():
            self.edits.setdefault(crate, set()).add(name)
        self.listed = {word for listed in OTHERS.values() for word in listed.split()}
        self.others = self.listed | set(of_the_rust(tree))
        self.beside = {word for path, text in tree.like(BESIDE).items() for word in words(code(path, text))}
        self.everywhere = set().union(self.crates, *self.defined.values(), *self.items.values(), *self.edits.values(), self.others, self.beside)

    def of(self, kind, crates):
        """The names of a kind that these crates declare."""
        return {name for crate in crates for name in kind.get(crate, ())}

    @functools.cache
    def in_column(self, heading, column):
        """What a name in a column of a section of docs/PROMISES.md may be, and how that is called."""
        own = crates_of(self.tree, heading)
        below = self.tree.below(own)
        if not own:
            return "name", self.everywhere
        if column == "Edits":
            return "edit of this section's crates", self.of(self.edits, own)
        if column == "Call":
            return "function of this section's crates", self.of(self.items, below)
        if column in ("Definition", "Law"):
            return "definition of this section's crates", self.of(self.defined, below) | self.crates | self.listed
        known = [self.of(kind, below) for kind in (self.defined, self.items, self.edits)]
        return "name of this section's crates", set().union(*known, self.crates, self.others, self.beside)


@functools.cache
def words(text):
    return frozenset(re.findall(r"[A-Za-z_][\w-]*", text)) | frozenset(re.findall(r"\w+", text))


def of_the_rust(tree):
    """Names and files of the given Rust: those in the columns of two documents that speak of it, and what the oracle opens."""
    for line in (line for path in (DIFFERENCES, WRAPPER) for line in lines_of(tree.files[path])):
        for column, cell in line.cells:
            if column in ("Rust", "The Rust", "Left out", "File"):
                yield from quoted(cell)
    yield from (f"{module}.rs" for module in re.findall(r'module: "(\w+)"', tree.files["oracle/build.rs"]))


def names_in(token):
    """The names that a token in backquotes writes: itself, or what it calls, without fields and arguments."""
    several = re.fullmatch(r"([\w:]+)::\{([\w, ]+)\}", token)
    if several:
        return [f"{several[1]}::{name}" for name in several[2].split(", ")]
    called = re.sub(r" \{[^}]*\}|\([^()]*\)$", "", token).lstrip(".")
    called = re.sub(r"(?<=\w)\.(?=[a-z])", "::", called) if "::" in called else called
    return [called] if NAME.fullmatch(called) and not NO_NAME.fullmatch(called) else []


def crates_of(tree, heading):
    """The crates that a section of docs/PROMISES.md is about."""
    return set(quoted(heading)) & set(tree.crates)


def check_documents(tree):
    """Names in documents; in docs/PROMISES.md those of the section's crates and of what these rest on."""
    names = Names(tree)
    for path, text in tree.documents.items():
        gone = GONE.get(path, "").split()
        for line in lines_of(text):
            for column, cell in line.cells:
                kind, known = names.in_column(line.heading, column) if path == PROMISES else ("name", names.everywhere)
                for name in (name for token in quoted(cell) if not FILE.fullmatch(token) for name in names_in(token)):
                    if name not in known and name not in gone:
                        yield f"{path}:{line.number}", f"no {kind}: `{name}`"


def check_comments(tree):
    """Names in comments: declared, or words of the code beside them."""
    names = Names(tree)
    for path, text in tree.sources.items():
        said = prose(path, text)
        for token in re.finditer(r"`([^`\n]+)`", said):
            for name in names_in(token[1]):
                if not FILE.fullmatch(token[1]) and name not in names.everywhere and name not in words(code(path, text)):
                    yield f"{path}:{line_of(said, token.start())}", f"no name: `{name}`"


def check_c_names(tree):
    """Words that begin with phs_ or PHS_ are those of the header, in backquotes or not; `..` stands for the rest of a word."""
    known = words(code(HEADER, tree.files[HEADER]))
    for path, text in {**tree.documents, **tree.sources}.items():
        said = prose(path, text)
        for found in re.finditer(r"\b((?:phs|PHS)_\w+)\b(\.\.)?", said):
            if found[1] not in known and not (found[2] and any(word.startswith(found[1]) for word in known)):
                yield f"{path}:{line_of(said, found.start())}", f"no {found[0]} in {HEADER}"


def where(tree, path, word, line):
    """The places at which a file that is named in a line may stand."""
    if word.split("/")[0] not in OF_A_CRATE:
        return [word, posixpath.join(posixpath.dirname(path), word)]
    if crate_of(path):
        return [f"crates/{crate_of(path)}/{word}"]
    named = set(quoted(line.text)) & set(tree.crates) | crates_of(tree, line.heading) or set(tree.crates)
    return [f"{path.split('/')[0]}/{word}", *(f"crates/{crate}/{word}" for crate in named)]


def check_files(tree):
    """Files and folders: paths anywhere, in fenced code too, and bare names of files in backquotes."""
    top = {path.split("/")[0] for path in tree.files if "/" in path} | set(OF_A_CRATE)
    bare = {posixpath.basename(path) for path in tree.files} | set(of_the_rust(tree))
    for path, text in {**tree.documents, **tree.sources}.items():
        said = text if path.endswith(".md") else prose(path, text)
        for line, whole in zip(lines_of(said), said.split("\n")):
            for found in PATH.finditer(whole):
                if found[1].split("/")[0] in top and not tree.places & set(where(tree, path, found[1], line)):
                    yield f"{path}:{line.number}", f"no file: {found[1]}"
            for token in quoted(line.text):
                if FILE.fullmatch(token) and token not in bare:
                    yield f"{path}:{line.number}", f"no file: {token}"


def check_whereabouts(tree):
    """A definition that a document names right before a file stands in it."""
    for path, text in tree.documents.items():
        for found in BEFORE_FILE.finditer(text):
            line = lines_of(text)[line_of(text, found.start(2)) - 1]
            files = [tree.files[place] for place in where(tree, path, found[2], line) if place in tree.files]
            for name in quoted(found[1]):
                if not any(name in definitions(file) for file in files):
                    yield f"{path}:{line.number}", f"`{name}` is not in {found[2]}"


def check_tables(tree):
    """A table has a line under its heading and as many cells in each row, and what is in backquotes ends on its line."""
    for path, text in tree.documents.items():
        for is_table, block in itertools.groupby(lines_of(text), lambda line: line.text.startswith("|")):
            head, *rows = block
            if is_table and not (rows and re.fullmatch(r"[|-]+", rows[0].text)):
                yield f"{path}:{head.number}", "rows of a table without a heading"
            for line in [head, *rows]:
                if is_table and line.text.count("|") != head.text.count("|") or line.text.count("`") % 2:
                    yield f"{path}:{line.number}", "more or fewer cells than the table has columns, or an odd number of backquotes"


def check_links(tree):
    """What a document links to, from its own folder."""
    for path, text in tree.documents.items():
        for link in LINK.finditer(text):
            if posixpath.normpath(posixpath.join(posixpath.dirname(path), link[1])) not in tree.places:
                yield f"{path}:{line_of(text, link.start())}", f"a link to {link[1]}, which is not there"


def check_calls(tree):
    """A call that a document writes with its arguments has those of the function."""
    functions = {name: item for item in all_items(tree) if item.signature for name in item.names()}
    for path, text in tree.documents.items():
        for call in re.finditer(r"`([\w:]+::\w+)\(([^().]*)\)`", text):
            item = functions.get(call[1])
            if item and [name for name, _ in item.arguments] != [part for part in call[2].split(", ") if part]:
                yield f"{path}:{line_of(text, call.start())}", f"`{call[1]}` takes {', '.join(name for name, _ in item.arguments)}"
