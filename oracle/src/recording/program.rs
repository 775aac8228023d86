//! What is recorded for one program: its cases, what it is to print of them, and a list of them to look a case up in.

use super::{file, line};
use crate::case::{Answer, Case};
use crate::text;
use std::{fs, io, path::Path};

#[derive(Default)]
pub struct Program {
    cases: Vec<u8>,
    stdout: String,
    list: String,
    /// How many cases and headings stand in the file.
    places: usize,
    headings: usize,
    with_the_rust: usize,
    /// A heading that no case has come behind yet.
    heading: Option<String>,
}

impl Program {
    /// It is written before the next case, if there is one before the next heading.
    pub fn head(&mut self, name: &str) {
        self.heading = Some(name.to_string());
    }

    /// Where the name is empty the case goes by its place.
    pub fn put(&mut self, name: &str, case: &Case, answer: &Answer, rust: bool) {
        if let Some(heading) = self.heading.take() {
            self.headings += 1;
            self.count(&heading);
            file::put_heading(&mut self.cases, &heading);
            self.stdout.push_str(&line::heading(&heading));
        }
        self.with_the_rust += usize::from(rust);
        self.count(&text::line(case));
        file::put_case(&mut self.cases, name, case, rust);
        let name = if name.is_empty() { &format!("case {}", self.places) } else { name };
        self.stdout.push_str(&line::line(name, case, answer, rust));
    }

    fn count(&mut self, listed: &str) {
        self.places += 1;
        self.list.push_str(&format!("{} {listed}\n", self.places));
    }

    pub fn write(&self, folder: &Path) -> io::Result<()> {
        fs::create_dir_all(folder)?;
        fs::write(folder.join("cases.bin"), &self.cases)?;
        fs::write(folder.join("stdout"), &self.stdout)?;
        fs::write(folder.join("cases.txt"), &self.list)
    }

    pub fn summary(&self) -> String {
        let cases = self.places - self.headings;
        let bytes = (self.cases.len(), self.stdout.len());
        let rust = self.with_the_rust;
        format!("{cases} cases, {rust} of them with the Rust's answer, in {} bytes, and {} of output", bytes.0, bytes.1)
    }
}

#[cfg(test)]
mod tests {
    use super::*;
    use crate::calls::BODY_LENGTH;

    #[test]
    fn headings_count_as_places_and_come_with_their_cases() {
        let mut program = Program::default();
        let case = Case::new(BODY_LENGTH, &[7], &[], &[]);
        let answer = Answer::new(0, vec![1, 8], Vec::new());
        program.head("without cases");
        program.head("lengths");
        program.put("of a real", &case, &answer, true);
        program.put("", &case, &answer, false);
        program.head("without cases");
        let due = "\nlengths\nRust  of a real: answers 0, out 1 8\nrules case 3: answers 0, out 1 8\n";
        assert_eq!(program.stdout, due);
        assert_eq!(program.list, "1 lengths\n2 body_length n=7 s= l=\n3 body_length n=7 s= l=\n");
        assert_eq!(program.cases.len(), 3 * 160 + 7 + 9);
    }
}
