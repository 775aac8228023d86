"""Rules that are cited stand in docs/RULES.md."""
import re

from tree import line_of, prose

RULES = "docs/RULES.md"
NUMBER = r"(?<![\d.*])(?:[1-9]\d?|\bC)\.\d{1,2}\b(?!\.\d)"
# Documents cite a rule after the word, and further ones in the same sentence.
SENTENCE = re.compile(rf"\b[Rr]ules?\s+\(?{NUMBER}(?:[^.;\n]|\.(?=\d)|\n(?!\n))*")
# In docs/RULES.md and in the comments of crates any such number is a rule's, but for sections of the format document.
OF_THE_FORMAT = re.compile(r"\bsections?\s+[\d.]+\d(?:(?:,|,? and| to)\s+[\d.]+\d)*")


def cited_in(path, said):
    """Offset and number of each rule that is cited, the ends of a range too."""
    if path == RULES or path.startswith("crates/"):
        parts = [(0, OF_THE_FORMAT.sub(lambda found: " " * len(found[0]), said))]
    else:
        parts = [(found.start(), found[0]) for found in SENTENCE.finditer(said)]
    return [(at + number.start(), number[0]) for at, part in parts for number in re.finditer(NUMBER, part)]


def standing(tree):
    """Line and number of each rule."""
    text = tree.files[RULES]
    return [(line_of(text, found.start()), found[1]) for found in re.finditer(r"^\*\*(\w+\.\d+)\*\*", text, re.M)]


def check_cited(tree):
    """Each number that is cited is a rule's."""
    known = {number for _, number in standing(tree)}
    for path, text in {**tree.documents, **tree.sources}.items():
        said = prose(path, text)
        for offset, number in cited_in(path, said):
            if number not in known:
                yield f"{path}:{line_of(said, offset)}", f"rule {number} is cited and does not stand in {RULES}"


def check_in_order(tree):
    """The rules of a section count up from 1."""
    before = ("", 0)
    for line, number in standing(tree):
        section, _, place = number.partition(".")
        due = before[1] + 1 if before[0] == section else 1
        if int(place) != due:
            yield f"{RULES}:{line}", f"rule {number} stands where {section}.{due} is due"
        before = section, int(place)
