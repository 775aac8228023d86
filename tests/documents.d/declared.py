"""What the sources declare: definitions and theorems of .antt files; functions, types and their parts of .rt and .rs files."""
import functools
import re

from tree import code, crate_of

DEFINITION = re.compile(r"^\s*(?:(?:abbrev|unfoldable|pub|record|data|module)\s+)*([^\s(){}:.]+)(?:\s+[({].*?)?\s+:\s", re.M)
ITEM = re.compile(r'^( *)(pub(?:\(crate\))? )?(?:extern "C" )?(?:const )?(?:unsafe )?(fn|struct|enum|const|static|type|trait|mod) (\w+)')
IMPL = re.compile(r"^impl(?:<([^>]*)>)? (?:([^{]*) for )?(([\w:]+)[^{]*?)\s*\{?$")
PART = re.compile(r"^    (?:pub(?:\(crate\))? )?(\w+)\b")
SOURCE = re.compile(r"(?:crates/)?(\w+)/src/([\w/]+)\.(?:rt|rs)")


@functools.cache
def definitions(text):
    """Definitions, theorems, records, constructors and fields of an .antt file."""
    return frozenset(DEFINITION.findall(code("x.antt", text)))


class Item:
    """A function, a type, or a part of one: its full path, from its crate on, and where it stands."""

    def __init__(self, path, file, line, public=False, owner=None, signature=None, trait=None):
        self.path, self.file, self.line, self.public, self.owner, self.signature = path, file, line, public, owner, signature
        self.name = path[-1]
        # Where its proof stands: a trait's method is told from the type's own by the trait's name behind the type's.
        self.proof = (*path[:-2], trait, path[-1]) if trait else path

    def names(self):
        """The ways to write it: its name behind none or some of what it stands in; a method's behind its type at least."""
        shortest = len(self.path) - (2 if self.owner else 1)
        return {"::".join(self.path[at:]) for at in range(shortest + 1)}

    @functools.cached_property
    def arguments(self):
        """Name and type of each."""
        inside = self.signature[self.signature.index("(") + 1:closing(self.signature)]
        parts = [part.strip() for part in split_outside(inside) if part.strip()]
        return [tuple(part.split(": ", 1)) if ": " in part else (part, "") for part in parts]

    @property
    def answers(self):
        return self.signature[closing(self.signature) + 1:].lstrip().startswith("->")

    @property
    def requires(self):
        return re.search(r"^\s*requires\b", self.signature, re.M) is not None


def closing(signature):
    """Where the bracket of the arguments is closed."""
    depth = 0
    for at, letter in enumerate(signature):
        depth += (letter == "(") - (letter == ")")
        if letter == ")" and depth == 0:
            return at
    raise ValueError(signature)


def split_outside(inside):
    """The parts between commas that stand in no bracket."""
    depth, part = 0, ""
    for letter in inside:
        depth += (letter in "([<") - (letter in ")]>")
        if letter == "," and depth == 0:
            yield part
            part = ""
        else:
            part += letter
    yield part


def signature(lines, at):
    """The lines of a function's head, up to its body."""
    for end in range(at, len(lines)):
        line = lines[end].rstrip()
        if line.strip() == "{" or line.endswith("{") and not re.match(r"\s*(requires|ensures)", line) or line.endswith(";"):
            return "\n".join(lines[at:end + 1])
    return "\n".join(lines[at:])


def implemented(block):
    """How proofs name a trait of a type, as `ScannedAnswer`: without the block's own parameters."""
    own = {parameter.split(":")[0].strip() for parameter in (block[1] or "").split(",")}
    words = [word for part in (block[3], block[2]) for word in re.findall(r"\w+", part) if word not in own]
    return "".join(word[0].upper() + word[1:] for word in words)


@functools.cache
def items(file, text):
    """All that a .rt or .rs file declares. A method of a trait is as public as its type."""
    found = SOURCE.fullmatch(file)
    if not found:
        return []
    modules = () if found[2] in ("lib", "main") else tuple(found[2].split("/"))
    where, owner, trait, parts, listed = (found[1], *modules), None, None, False, []
    lines = code(file, text).split("\n")
    hidden = {item[4] for item in map(ITEM.match, lines) if item and item[3] in ("enum", "struct") and not item[2]}
    for number, line in enumerate(lines, 1):
        item, block = ITEM.match(line), IMPL.match(line)
        if line.startswith("}"):
            owner, trait, parts = None, None, False
        elif block:
            owner = block[4].rpartition("::")[2]
            trait = implemented(block) if block[2] and owner not in hidden else None
        elif item:
            inside = (owner,) if owner and item[1] else ()
            head = signature(lines, number - 1) if item[3] == "fn" else None
            of_trait = trait if inside and head else None
            listed.append(Item((*where, *inside, item[4]), file, number, bool(item[2] or of_trait), owner if inside else None, head, of_trait))
            if item[3] in ("enum", "struct") and line.endswith("{"):
                owner, parts = item[4], True
        elif parts and (part := PART.match(line)):
            listed.append(Item((*where, owner, part[1]), file, number, owner=owner))
    return listed


def all_items(tree):
    return [item for file, text in tree.like(SOURCE.pattern).items() for item in items(file, text)]


def functions(tree, crates):
    """The public functions of these crates that other crates may call as they like: those of no `inner` module."""
    return [item for item in all_items(tree)
            if item.signature and item.public and "inner" not in item.path[:-1] and crate_of(item.file) in crates]
