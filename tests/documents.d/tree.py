"""The files of the repository, and what is read off them: prose and code of a file, lines of a document, crates."""
import functools
import os
import pathlib
import re

NOT_OURS = {".git", ".inc", "out", "target"}  # folders that nobody wrote
LINE_COMMENT = {".antt": re.compile(r"(?:^|\s)--(?=\s|$)"), ".rt": re.compile(r"(?:^|\s)//"), ".rs": re.compile(r"(?:^|\s)//[/!]?")}
HASH_COMMENT = re.compile(r"(?:^|\s)#")
BLOCK_COMMENT = re.compile(r"/\*.*?\*/", re.S)


class Tree:
    """Files by their paths, as text where they are text. Wrong lines are tried on copies."""

    def __init__(self, files):
        self.files = files

    @classmethod
    def at(cls, root):
        files = {}
        for folder, folders, names in os.walk(root):
            folders[:] = sorted(set(folders) - NOT_OURS)
            for name in sorted(names):
                path = pathlib.Path(folder, name)
                files[path.relative_to(root).as_posix()] = as_text(path.read_bytes())
        return cls(files)

    def changed(self, path, text):
        return Tree({**self.files, path: text})

    def like(self, pattern):
        """The texts whose path is of that form."""
        fits = re.compile(pattern).fullmatch
        return {path: text for path, text in self.files.items() if fits(path) and isinstance(text, str)}

    @functools.cached_property
    def documents(self):
        """All but docs/PORT.md, which tells of names that are gone."""
        return self.like(r"(?!docs/PORT\.md$).*\.md")

    @functools.cached_property
    def sources(self):
        """Texts with comments: code, edits, and scripts."""
        scripts = {path: text for path, text in self.like(r"[^.]+|\.ci/run").items() if text.startswith("#!")}
        return {**self.like(r".*\.(antt|rt|rs|h|c|py|awk|toml|edit)"), **scripts}

    @functools.cached_property
    def places(self):
        """All files, and the folders that hold them."""
        folders = {parent.as_posix() for path in self.files for parent in pathlib.PurePosixPath(path).parents}
        return set(self.files) | folders

    @functools.cached_property
    def crates(self):
        """What each crate rests on, by crates.txt."""
        lines = re.findall(r"^(\w+)(?: staticlib)?:(.*)$", self.files["crates.txt"], re.M)
        return {name: set(rests.split()) for name, rests in lines}

    def below(self, names):
        """Crates, with all that they rest on."""
        found = set()
        while names - found:
            found |= names
            names = {below for name in found for below in self.crates.get(name, ())}
        return found

    @functools.cached_property
    def edits(self):
        """The must-fail edits: crate and name of each."""
        return {path: tuple(re.split(r"/must-fail/|\.edit|crates/", path)[1:3]) for path in self.like(r"crates/\w+/must-fail/\w+\.edit")}


def as_text(content):
    try:
        return content.decode()
    except UnicodeDecodeError:
        return content


def line_of(text, offset):
    return text.count("\n", 0, offset) + 1


def crate_of(path):
    """The crate that a file is of, if it is of one."""
    return path.split("/")[1] if path.startswith("crates/") else None


def suffix(path):
    return pathlib.PurePosixPath(path).suffix


@functools.cache
def prose(path, text):
    """A document without its fenced code, or the comments of a source; each stays on its line."""
    if suffix(path) == ".md":
        return re.sub(r"^```.*?^```$", lambda fence: "\n" * fence[0].count("\n"), text, flags=re.S | re.M)
    if suffix(path) in (".h", ".c"):
        return "".join(comment_blocks(text))
    return "\n".join(comment for _, comment in split_lines(path, text))


@functools.cache
def code(path, text):
    """A source without its comments."""
    if suffix(path) in (".h", ".c"):
        return BLOCK_COMMENT.sub("", text)
    return "\n".join(kept for kept, _ in split_lines(path, text))


def split_lines(path, text):
    """The code and the comment of each line."""
    mark = LINE_COMMENT.get(suffix(path), HASH_COMMENT)
    for line in text.split("\n"):
        found = mark.search(line)
        yield (line[:found.start()], line[found.end():]) if found else (line, "")


def comment_blocks(text):
    """The block comments of a text without their stars, and of all else the line ends."""
    at = 0
    for block in BLOCK_COMMENT.finditer(text):
        yield "\n" * text.count("\n", at, block.start())
        yield re.sub(r"^[ /]*\*+/?|\*/", "", block[0], flags=re.M)
        at = block.end()
    yield "\n" * text.count("\n", at)


class Line:
    """A line of a document: its number, the heading above it, and its cells, each with its column's name."""

    def __init__(self, number, text, heading, cells):
        self.number, self.text, self.heading, self.cells = number, text, heading, cells


@functools.cache
def lines_of(text):
    """The lines of a document outside of fenced code. A line that is no row of a table is one cell with no column."""
    found, heading, columns = [], "", None
    for number, line in enumerate(prose("x.md", text).split("\n"), 1):
        if line.startswith("## "):
            heading = line[3:]
        if not line.startswith("|"):
            columns = None
            found.append(Line(number, line, heading, [(None, line)]))
            continue
        cells = [cell.strip() for cell in line.strip("|").split("|")]
        columns = columns or cells
        found.append(Line(number, line, heading, list(zip(columns, cells))))
    return found


def quoted(text):
    """What stands in backquotes."""
    return re.findall(r"`([^`]+)`", text)
