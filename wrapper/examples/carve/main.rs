//! carve [-a] [-g] [-w] FILE HINTS [PAGE]: prints the deleted rows of a table that are left in the free space of FILE's pages.
//! It goes page by page and holds one page, so a file may be of any size. HINTS has a letter for each column, N for an INTEGER
//! PRIMARY KEY, which a record stores as NULL; or it is the table's CREATE TABLE statement. PAGE is the page size where the file's
//! header does not name it.
//!
//! HINTS that hold a '(' are read as a statement, and the letters that come of it are said on standard error. Their number is to be that
//! of the columns: commas in brackets, quotes and comments make hints too many. Only a key whose name has INTEGER PRIMARY KEY right behind
//! it gets N; where it is 'id INTEGER NOT NULL PRIMARY KEY' or 'PRIMARY KEY(id)', give the letters. The statement is what
//! `sqlite3 copy.db "SELECT sql FROM sqlite_schema WHERE name = 'readings'"` prints; a copy is asked for it, since sqlite3 writes the log
//! of a tablet that it opens into it. What its .schema prints has the table's indexes and triggers, too, and hints may come of these.
//!
//! SQLite overwrites the first four bytes of a freed cell. What is left of it in a freed block is found as a guess, a row whose header's
//! length is made up; in the gap that is so where the length is gone. -g brings guesses; without it there are whole records of the gap
//! and whole cells of freed blocks.
//!
//! In a small table the fourth byte is the type of the first column. A key has no body, so the hints behind it bring the row back, and
//! -g looks with these, too. Any other first column takes the length of its body with it: hints from the second column on would read
//! every value from the wrong place, and are not used.
//!
//! A row is printed if its confidence is at least 0.85, it is not all NULL, and it stands where a cell can: behind its length and
//! its row id, or behind the link that overwrote these. Such links are left in freed blocks, also in joined ones, and in the gap of
//! a page from whose end rows were deleted. -a prints the rest, of which most are none. A padded row has a number in its header that
//! takes more bytes than it needs: SQLite writes none so. -w scans whole pages instead of their free space: that is the call for a
//! table that was cleared, and it lists rows that are not deleted, too. The free space may hold old copies of such rows as well,
//! where SQLite moved them.
//!
//! examples/c/carve.c at the repository's top prints the same, to the byte.

mod places;

use phsarodil::{
    parse_cells_from_freeblock, scan_single_page_gap, Hint, Rebuilding, Record, Refusal, Scan,
    LARGEST_STATEMENT, MOST_COLUMNS,
};
use places::{Page, LINK, TABLE_LEAF};
use std::ffi::{OsStr, OsString};
use std::fs::File;
use std::io::{self, BufWriter, Read, StdoutLock, Write};
use std::ops::Range;
use std::path::PathBuf;
use std::process::ExitCode;

const USAGE: &str = "usage: carve [-a] [-g] [-w] FILE HINTS [PAGE]
Prints the deleted rows of a table that are left in the free space of FILE's pages.
HINTS has a letter for each column: I integer, R real, T text, B blob, N null, A any;
or a digit, its code from 0 to 5. An INTEGER PRIMARY KEY has N. A REAL column that may hold whole numbers has A:
they are stored as integers.
Or HINTS is the table's CREATE TABLE statement: what holds a ( is read as one, and carve says which letters it took.
Compare their number with the columns: commas in brackets, quotes and comments make hints too many. Only a key whose
name has INTEGER PRIMARY KEY right behind it gets N. To get the statement ask a copy, since sqlite3 writes the log of
what it opens into it: sqlite3 copy.db \"SELECT sql FROM sqlite_schema WHERE name = 'readings'\"
PAGE is the page size, if it is not to be the one that the file's header names.
A row that is padded has a number in its header that takes more bytes than it needs: SQLite writes none so.
A guess is a row whose start was overwritten when it was deleted: its header's length is made up, and it may be none.
-a, --all      all that reads as a row: most are none
-g, --guesses  guesses, too
-w, --whole    whole pages, for a table that was cleared: rows that are not deleted are listed, too";

/// In the order of the hint codes.
const LETTERS: &str = "IRTBNA";

/// Rows below it are printed only if all are asked for.
const KEPT: f32 = 0.85;

/// A whole cell from there on has its bytes for itself, printed or not: it may stand in what is left of an older row.
const STANDS: f32 = 0.5;

/// Of the file format.
const SMALLEST_PAGE: usize = 512;
const LARGEST_PAGE: usize = 65_536;
const FILE_HEADER: usize = 100;

/// What is asked for.
struct Job {
    name: PathBuf,
    hints: Vec<Hint>,
    /// The page size that was given.
    size: Option<usize>,
    all: bool,
    whole: bool,
    rebuilding: Rebuilding,
}

fn main() -> ExitCode {
    let job = match Job::of_words(std::env::args_os().skip(1)) {
        Ok(job) => job,
        Err(why) => {
            eprintln!("{why}");
            return ExitCode::from(2);
        }
    };
    match carve_file(&job) {
        Ok(true) => ExitCode::SUCCESS,
        Ok(false) => ExitCode::FAILURE,
        Err(why) => {
            eprintln!("carve: {why}");
            ExitCode::FAILURE
        }
    }
}

impl Job {
    fn of_words(words: impl Iterator<Item = OsString>) -> Result<Job, String> {
        let (mut all, mut whole, mut rest) = (false, false, Vec::new());
        let mut rebuilding = Rebuilding::default();
        for word in words {
            match word.as_encoded_bytes() {
                b"-a" | b"--all" => all = true,
                b"-g" | b"--guesses" => rebuilding = Rebuilding::Exact,
                b"-w" | b"--whole" => whole = true,
                [b'-', ..] => return Err(USAGE.into()),
                _ => rest.push(word),
            }
        }
        let (name, hints, size) = match &rest[..] {
            [name, hints] => (name, hints, None),
            [name, hints, word] => (name, hints, Some(page_size(&word.to_string_lossy())?)),
            _ => return Err(USAGE.into()),
        };
        Ok(Job {
            name: name.into(),
            hints: read_hints(hints)?,
            size,
            all,
            whole,
            rebuilding,
        })
    }

    fn guesses(&self) -> bool {
        self.rebuilding != Rebuilding::NoGuesses
    }

    fn has_key(&self) -> bool {
        self.hints[0] == Hint::Null && self.hints.len() > 1
    }
}

/// The hints of a word: letters, or a statement, since no hint is a '('.
fn read_hints(word: &OsStr) -> Result<Vec<Hint>, String> {
    let bytes = word.as_encoded_bytes();
    match bytes.contains(&b'(') {
        true => read_statement(bytes),
        false => read_letters(word),
    }
}

fn read_letters(word: &OsStr) -> Result<Vec<Hint>, String> {
    let count = word.len();
    if !(1..=MOST_COLUMNS).contains(&count) {
        return Err(format!(
            "carve: give 1 to {MOST_COLUMNS} hints, not {count}"
        ));
    }
    let letters = word.to_string_lossy();
    let hints: Result<_, _> = letters.chars().map(|c| c.to_string().parse()).collect();
    hints.map_err(|_| {
        format!("carve: hints are letters of {LETTERS} or digits from 0 to 5, not '{letters}'")
    })
}

/// Why a statement gives no hints. There is room for all that it may give, so that is not the reason.
fn refuse_statement(refusal: Refusal) -> String {
    let why = match refusal {
        Refusal::TooLarge => format!("it has more than {LARGEST_STATEMENT} bytes"),
        Refusal::NoColumnList => "no ')' stands behind its first '('".into(),
        _ => format!("it lists no column, or more than {MOST_COLUMNS}"),
    };
    format!("carve: the statement gives no hints: {why}")
}

/// Whether more than blanks stands behind the first ';', as the indexes of a table do in what .schema prints.
fn goes_on(statement: &[u8]) -> bool {
    let mut behind = statement.iter().skip_while(|&&b| b != b';').skip(1);
    behind.any(|b| !matches!(b, 9..=13 | b' '))
}

/// The hints of a CREATE TABLE statement; says which they are.
fn read_statement(statement: &[u8]) -> Result<Vec<Hint>, String> {
    let hints = Hint::of_statement_by_format(statement).map_err(refuse_statement)?;
    let letter = |&hint: &Hint| char::from(LETTERS.as_bytes()[hint as usize]);
    let letters: String = hints.iter().map(letter).collect();
    eprintln!("carve: hints {letters}");
    if goes_on(statement) {
        eprintln!(
            "carve: more stands behind a ';' of the statement, and hints may come of it: \
             give the table's alone"
        );
    }
    Ok(hints)
}

fn is_page_size(size: usize) -> bool {
    (SMALLEST_PAGE..=LARGEST_PAGE).contains(&size) && size.is_power_of_two()
}

/// The page size that a word names.
fn page_size(word: &str) -> Result<usize, String> {
    let digits = word.bytes().all(|b| b.is_ascii_digit());
    let size = word
        .parse()
        .ok()
        .filter(|&size| digits && is_page_size(size));
    size.ok_or_else(|| {
        format!(
            "carve: a page size is a power of two from {SMALLEST_PAGE} to {LARGEST_PAGE}, not '{word}'"
        )
    })
}

/// Carves the file, one page after the other; answers whether every page was.
fn carve_file(job: &Job) -> Result<bool, String> {
    let name = job.name.display();
    let no_file = |why: io::Error| {
        let why = why.to_string();
        format!("{name}: {}", why.split(" (os error").next().unwrap_or(&why))
    };
    let file = File::open(&job.name).map_err(no_file)?;
    let mut bytes = Vec::new();
    read_page(&file, &mut bytes, SMALLEST_PAGE).map_err(no_file)?;
    let size = find_page_size(job, &bytes)?;
    let mut carving = Carving::new(job, size)?;
    let (mut base, mut all_carved) = (0, true);
    loop {
        read_page(&file, &mut bytes, size).map_err(no_file)?;
        let header = match base == 0 && is_database(&bytes) {
            true => FILE_HEADER,
            false => 0,
        };
        match carving.carve_page(&mut Page::new(&bytes, base, header)) {
            Ok(()) => (),
            Err(Trouble::Output(why)) => return Err(why),
            Err(Trouble::Refused(refusal)) => {
                all_carved = false;
                eprintln!("carve: {name}: page {}: {refusal}", base / size as u64 + 1);
            }
        }
        if bytes.len() < size {
            break;
        }
        base += size as u64;
        bytes.clear();
    }
    carving.end()?;
    if !job.guesses() && !job.whole {
        eprintln!("carve: no guesses were made; -g brings back rows whose start was overwritten");
    }
    Ok(all_carved)
}

/// Reads on until the page has `size` bytes or the file ends.
fn read_page(file: &File, page: &mut Vec<u8>, size: usize) -> io::Result<()> {
    let left = size - page.len();
    file.take(left as u64).read_to_end(page).map(|_| ())
}

/// Whether the file's first page is a database's.
fn is_database(page: &[u8]) -> bool {
    page.len() >= 18 && page.starts_with(b"SQLite format 3\0")
}

/// The page size: the given one, with a complaint where the file's header names another or there is none, or else the header's.
fn find_page_size(job: &Job, page: &[u8]) -> Result<usize, String> {
    let name = job.name.display();
    if !is_database(page) {
        let why = format!("{name}: no database: it does not begin with 'SQLite format 3'");
        let size = job.size.ok_or_else(|| format!("{why}; name a page size"))?;
        eprintln!("carve: {why}");
        return Ok(size);
    }
    let own = match usize::from(page[16]) << 8 | usize::from(page[17]) {
        1 => LARGEST_PAGE,
        other => other,
    };
    match job.size {
        Some(size) => {
            if own != size {
                eprintln!("carve: {name}: its pages have {own} bytes, not {size}");
            }
            Ok(size)
        }
        None if is_page_size(own) => Ok(own),
        None => Err(format!(
            "{name}: its header names no page size, but {own}; name one"
        )),
    }
}

/// Why a page was not carved to its end.
enum Trouble {
    Refused(Refusal),
    Output(String),
}

impl From<Refusal> for Trouble {
    fn from(refusal: Refusal) -> Trouble {
        Trouble::Refused(refusal)
    }
}

/// A file that is being carved.
struct Carving<'j> {
    job: &'j Job,
    out: BufWriter<StdoutLock<'static>>,
    size: usize,
    rows: u64,
    left_out: u64,
}

fn not_written(_: io::Error) -> String {
    "the rows cannot be written".into()
}

impl Carving<'_> {
    fn new(job: &Job, size: usize) -> Result<Carving<'_>, String> {
        let mut out = BufWriter::new(io::stdout().lock());
        writeln!(out, "page offset confidence padded id values").map_err(not_written)?;
        Ok(Carving {
            job,
            out,
            size,
            rows: 0,
            left_out: 0,
        })
    }

    fn end(mut self) -> Result<(), String> {
        let (rows, left_out) = (self.rows, self.left_out);
        writeln!(self.out, "rows {rows} left out {left_out}").map_err(not_written)?;
        self.out.flush().map_err(not_written)
    }

    fn carve_page(&mut self, page: &mut Page) -> Result<(), Trouble> {
        if self.job.whole {
            return self.scan(page, 0, page.bytes.len());
        }
        if page.bytes.get(page.header) != Some(&TABLE_LEAF) {
            return Ok(());
        }
        page.find_blocks();
        let gap = page.gap();
        if let Some((start, end)) = gap {
            self.scan(page, start, end)?;
        }
        self.carve_blocks(page, 0)?;
        // The hints behind the key and the links in the gap are for guesses.
        if !self.job.guesses() {
            return Ok(());
        }
        if self.job.has_key() {
            self.carve_blocks(page, 1)?;
        }
        self.carve_gap(page, gap.unwrap_or((0, 0)))
    }

    /// Prints the rows from `start` on that end before `end`. The scan goes on behind a row that is kept, and inside of one that is
    /// not: what is none hides nothing.
    fn scan(&mut self, page: &mut Page, mut start: usize, end: usize) -> Result<(), Trouble> {
        let from = Scan::new(&page.bytes[..end], &self.job.hints)
            .base(page.base)
            .room(1);
        while let Some(mut record) = from.clone().start(start).rows()?.next() {
            let head = page.cell_head(&mut record);
            let kept = self.take(page, &record, 0, 0, head)?;
            start = match kept {
                true => page.end_of(&record),
                false => page.start_of(&record) + 1,
            };
        }
        Ok(())
    }

    /// Prints the rows in the freed blocks, by the hints behind the first `skip` ones.
    fn carve_blocks(&mut self, page: &mut Page, skip: usize) -> Result<(), Trouble> {
        let hints = &self.job.hints[skip..];
        let space = scan_single_page_gap(page.bytes, page.header, page.base, hints);
        for mut record in space.rebuilding(self.job.rebuilding).rows()? {
            // The others are the gap's.
            if page.is_in_block(&record) {
                let head = page.freed_head(&mut record, skip);
                self.take(page, &record, 0, skip, head)?;
            }
        }
        Ok(())
    }

    /// Prints the rows of freed cells in the gap. Only what links say they are of is lent: zeros would read as rows.
    fn carve_gap(&mut self, page: &mut Page, gap: (usize, usize)) -> Result<(), Trouble> {
        let ways = if self.job.has_key() { 2 } else { 1 };
        for stretch in page.stretches(gap) {
            for skip in 0..ways {
                self.carve_stretch(page, gap, stretch.clone(), skip)?;
            }
        }
        Ok(())
    }

    /// Prints the rows of freed cells of a stretch of the gap, by the hints behind the first `skip` ones. SQLite fills the gap from its
    /// end, over the ends of older rows, so the last row goes first.
    fn carve_stretch(
        &mut self,
        page: &mut Page,
        gap: (usize, usize),
        stretch: Range<usize>,
        skip: usize,
    ) -> Result<(), Trouble> {
        let start = stretch.start;
        let (base, hints) = (page.base + start as u64, &self.job.hints[skip..]);
        let block = parse_cells_from_freeblock(&page.bytes[stretch], base, hints);
        let freed: Vec<Record> = block
            .rebuilding(self.job.rebuilding)
            .rows()?
            .filter(|record| page.is_freed_in_gap(record, gap, skip))
            .collect();
        for record in freed.iter().rev() {
            self.take(page, record, start, skip, LINK)?;
        }
        Ok(())
    }

    /// Prints a row if it is to be printed, and answers whether it is kept: it is likely, and has a `head`, which is the bytes of its
    /// cell before it, or 0 where no cell can stand. `lent` is where the bytes start that it was found in.
    fn take(
        &mut self,
        page: &mut Page,
        record: &Record,
        lent: usize,
        skip: usize,
        head: usize,
    ) -> Result<bool, Trouble> {
        // The first column behind the key.
        let first = usize::from(self.job.has_key()) - skip;
        let values = lent + record.entries[first].start as usize;
        let seen = page.seen[values];
        let says = record.entries.iter().any(|entry| entry.kind != 0);
        let likely = record.row.confidence >= KEPT && says;
        let kept = !seen && head > 0 && likely && page.is_free(record, head);
        if kept || head > 0 && record.row.id.is_some() && record.row.confidence >= STANDS {
            page.take(record, head);
        }
        if kept {
            page.seen[values] = true;
            page.begin_behind(record);
        }
        if !kept && (seen || !self.job.all) {
            self.left_out += u64::from(!seen);
            return Ok(false);
        }
        self.rows += 1;
        self.print(page, record, skip)?;
        Ok(kept)
    }

    fn print(&mut self, page: &Page, record: &Record, skip: usize) -> Result<(), Trouble> {
        let row = &record.row;
        let values: Vec<String> = std::iter::repeat_n("NULL".to_string(), skip)
            .chain(record.values()?.iter().map(|value| value.to_string()))
            .collect();
        writeln!(
            self.out,
            "{} {} {:.3} {} {} {}",
            page.base / self.size as u64 + 1,
            row.offset,
            row.confidence,
            if row.padded { "yes" } else { "no" },
            row.id.map_or("-".to_string(), |id| id.to_string()),
            values.join(" | ")
        )
        .map_err(|why| Trouble::Output(not_written(why)))
    }
}
