"""Each kind of finding is tried: a wrong line goes into a copy of the tree, and just one finding more has to come of it."""
import re

import counts
import names
import promises
import rules

README, PROMISES, VARINT, HEADER = "README.md", "docs/PROMISES.md", "crates/record/src/varint.rt", "include/phsarodil.h"
ROW = "\n## `record`\n\n| Call | Definition | Edits |\n|---|---|---|\n| {} | {} | {} |\n"
EDIT = "# none\nfile: src/varint.rt\nold: {}\nnew: none\n"
METHOD = "\nimpl Cursor {\n    pub fn none(self) -> u64 {\n        0\n    }\n}\n"
OF_A_TRAIT = "\nimpl Answer for Cursor {\n    fn none(self) -> u64 {\n        0\n    }\n}\n"
ASKING = "\npub fn none(x: u64) -> u64\n    requires { x ≡ 0 }\n{\n    x\n}\n"
FOR_C = '\npub extern "C" fn phs_none() -> u64 {\n    0\n}\n'


def replacing(old, new):
    """Changes a text: the first of one thing is another."""
    return lambda text: re.sub(old, new, text, count=1, flags=re.M)


# The check, the file, what is put at its end (or how its text is changed), what the finding says, and of which file, if it is another.
WRONG = [
    (rules.check_cited, README, "\nBy rule 98.7.\n", "rule 98.7"),
    (rules.check_cited, README, "\nBy rules 4.1, 4.2 and\n98.7.\n", "rule 98.7"),
    (rules.check_cited, "docs/RULES.md", "\nAs before (4.2 to 98.7).\n", "rule 98.7"),
    (rules.check_cited, "crates/record/specs/Varint.antt", "\n-- of section 98.6 (2.1 and\n-- 98.7): nothing\n", "rule 98.7"),
    (rules.check_cited, "docs/RULES.md", "\nAs before (C.2, C.98).\n", "rule C.98"),
    (rules.check_cited, HEADER, "\n/* Rule 98.7. */\n", "rule 98.7"),
    (rules.check_in_order, "docs/RULES.md", "\n**C.9** Nothing.\n", "rule C.9 stands where"),
    (names.check_documents, README, "\nSee `no-such-law`.\n", "no name: `no-such-law`"),
    (names.check_documents, README, "\nSee `Entry::no_such`.\n", "no name: `Entry::no_such`"),
    (names.check_documents, README, "\nSee `oneByte`.\n", "no name: `oneByte`"),
    (names.check_documents, PROMISES, ROW.format("`read_varint`", "`varint_at`", "`overlap_lost`"),
     "no edit of this section's crates: `overlap_lost`"),
    (names.check_documents, PROMISES, ROW.format("`read_varint`", "`often_short`", "none"),
     "no definition of this section's crates: `often_short`"),
    (names.check_documents, PROMISES, ROW.format("`varint_at`", "`varint_at`", "none"),
     "no function of this section's crates: `varint_at`"),
    (names.check_documents, PROMISES, ROW.format("`read_varint`", "`scan_from`", "none"),
     "no definition of this section's crates: `scan_from`"),
    (names.check_comments, "crates/record/specs/Varint.antt", "\n-- as `noSuchName` does\n", "no name: `noSuchName`"),
    (names.check_comments, VARINT, "\n// as `record::varint::no_such` does\n", "no name: `record::varint::no_such`"),
    (names.check_c_names, README, "\nCall phs_none first.\n", "no phs_none"),
    (names.check_c_names, README, "\nCall phs_none_.. first.\n", "no phs_none_.."),
    (names.check_c_names, "wrapper/src/door.rs", "\n// as PHS_NOTHING says\n", "no PHS_NOTHING"),
    (names.check_files, README, "\nSee tests/no-such.\n", "no file: tests/no-such"),
    (names.check_files, README, "\nSee `NoSuch.antt`.\n", "no file: NoSuch.antt"),
    (names.check_files, PROMISES, "\n## `record`\n\nSee `specs/Scan.antt`.\n", "no file: specs/Scan.antt"),
    (names.check_files, VARINT, "\n// See specs/Scan.antt.\n", "no file: specs/Scan.antt"),
    (names.check_links, "docs/LOOSE.md", "\n[here](docs/RULES.md)\n", "a link to docs/RULES.md"),
    (names.check_calls, README, "\n`record::record::body_length(bytes)`\n", "takes kind"),
    (names.check_whereabouts, PROMISES, "\n## `record`\n\n`varint_at`, `specs/Value.antt`\n", "`varint_at` is not in specs/Value.antt"),
    (names.check_tables, README, "\n| a | b |\n", "rows of a table without a heading"),
    (names.check_tables, README, "\n| a | b |\n|---|---|\n| c |\n", "fewer cells"),
    (names.check_tables, README, "\nAn open ` here.\n", "an odd number of backquotes"),
    (promises.check_edits_named, "crates/record/must-fail/not_named.edit", EDIT.format("none"), "the edit is not named"),
    (promises.check_edits_apply, "crates/record/must-fail/not_there.edit", EDIT.format("no such text"), "stands 0 times"),
    (promises.check_edits_apply, "crates/record/must-fail/not_once.edit", EDIT.format("fn "), "times in crates/record/src/varint.rt"),
    (promises.check_requires, VARINT, ASKING, "`none` has a requires"),
    (promises.check_answers_fixed, VARINT, METHOD, "`Cursor::none`: no theorem"),
    (promises.check_answers_fixed, VARINT, OF_A_TRAIT, "`Cursor::none`: no theorem"),
    (promises.check_answers_fixed, "crates/scan/proofs/Unique.antt", replacing(r"scanned-number\.Post", "scanned-written.Post"),
     "`Scanned::number`: no theorem", "crates/scan/src/schema_sig.rt"),
    (promises.check_answers_fixed, "crates/record/proofs/Unique.antt", replacing(r": Fixes cursor-new", ": (h : 0 ≡ 1) → Fixes cursor-new"),
     "`Cursor::new`: no theorem", "crates/record/src/varint.rt"),
    (promises.check_answers_fixed, "crates/sheet/proofs/Unique.antt", replacing(r"Fixes \(answer-number", "Fixes (answer-written"),
     "`Result::number`: no theorem", "crates/sheet/src/answer.rt"),
    (promises.check_answers_fixed, "crates/record/proofs/Unique.antt", replacing(r"s\. r\.now\)", "s. r.len)"),
     "`Entry::view`: no theorem", "crates/record/src/entry.rt"),
    (promises.check_lists_fixed, VARINT, "\npub fn none(list: &mut [u64]) {\n}\n", "fixes `list` at exit"),
    (promises.check_lists_fixed, "crates/scan/proofs/Unique.antt", replacing(r"s(\.1){4}\.0\.now", "s.0.now"),
     "fixes `rows` at exit", "crates/scan/src/schema_sig.rt"),
    (promises.check_promised, VARINT, METHOD, "`Cursor::none` is not named"),
    (promises.check_promised, VARINT, OF_A_TRAIT, "`Cursor::none` is not named"),
    (promises.check_archive, "crates/phsarodil_c/src/version.rt", FOR_C, "`phs_none` is no call"),
    (promises.check_archive, "crates/phsarodil_c/src/learned.rt", replacing("learned_filling region", "learned_filling types"),
     "`phs_carve_unallocated` is no call"),
    (promises.check_archive, "crates/phsarodil_c/src/version.rt", replacing("pub extern", "extern"), "`phs_version` is not in the archive",
     "crates/phsarodil/src/version.rt"),
    (promises.check_header, HEADER, "\nuint64_t phs_none(void);\n", "`phs_none` is no function"),
    (promises.check_header, "crates/phsarodil/src/version.rt", FOR_C, "`phs_none` is not declared"),
    (counts.check_modules, "crates/page/must-fail/one_more.edit", EDIT, "edits, and `page` have", PROMISES),
    (counts.check_modules, "docs/DIFFERENCES.md", replacing(r"^(\| `body_length` \| [\d,]+) \| [\d,]+", r"\1 | 1"),
     "the cases of the table of modules", PROMISES),
    (counts.check_crates, "crates.txt", "none:\n", "there is no crate none"),
    (counts.check_crates, "crates.txt", replacing(r"^search:.*\n", ""), "the crate search is missing"),
    (counts.check_crates, README, "\n| Crate | Holds |\n|---|---|\n| `none` | |\n", "there is no crate none"),
    (counts.check_refusals, HEADER, replacing("PHS_NO_ROOM = 9", "PHS_NO_ROOM = 7"), "refusal NoRoom is 7 here"),
]


def with_number(pattern, new):
    """Changes a text: the number that a pattern finds first is another."""
    def change(text):
        found = re.search(pattern, text)
        return text[:found.start(1)] + new + text[found.end(1):]
    return change


def all_wrong(tree):
    """The lines above, and each number that a document states."""
    yield from WRONG
    for files, pattern, what in counts.COUNTS:
        for path in [path for path, text in tree.like(files).items() if re.search(pattern, text)]:
            yield counts.check_counts, path, with_number(pattern, "1"), what
            yield counts.check_counts, path, with_number(pattern, "?"), f"nothing here says how many: {what}", files


def failed(tree, checks):
    """How many wrong lines were tried, and what was not found as it should be."""
    lines = list(all_wrong(tree))
    as_it_is = {check: set(check(tree)) for check in checks}
    wrong = [("tests/documents", f"{check.__name__} is not tried") for check in checks if check not in {check for check, *_ in lines}]
    for check, path, line, due, *of in lines:
        text = tree.files.get(path, "")
        changed = tree.changed(path, line(text) if callable(line) else text + line)
        more = set(check(changed)) - as_it_is[check]
        if [place.rpartition(":")[0] for place, what in more if due in what] != (of or [path]) or len(more) != 1:
            wrong.append((path, f"{check.__name__}, {due!r}: {more or 'nothing'} was found"))
    return len(lines), wrong
