//! A case as one line, to be printed and given back: `scan_region n=0,0 s=0301172a68,0002 l=9,8`. Bytes are in
//! hexadecimal; a run of equal bytes is written once with its length, as `(00x65530)`. Slices of words, where a call
//! has them, are written `w=2,3/1x2`, the second of them with two words that are 1.

use crate::calls::CALLS;
use crate::case::Case;

const SHORTEST_RUN: usize = 8;

pub fn line(case: &Case) -> String {
    let call = &CALLS[case.call as usize - 1];
    let slices: Vec<String> = case.slices.iter().map(|s| hex(s)).collect();
    let words: Vec<String> = case.words.iter().map(|w| runs(w)).collect();
    let words = if words.is_empty() { String::new() } else { format!(" w={}", words.join("/")) };
    format!("{} n={} s={}{words} l={}", call.name, joined(&case.numbers), slices.join(","), joined(&case.lists))
}

fn joined<T: ToString>(values: &[T]) -> String {
    values.iter().map(T::to_string).collect::<Vec<_>>().join(",")
}

fn runs(words: &[u64]) -> String {
    let run = |run: &[u64]| if run.len() == 1 { run[0].to_string() } else { format!("{}x{}", run[0], run.len()) };
    words.chunk_by(|a, b| a == b).map(run).collect::<Vec<_>>().join(",")
}

fn hex(bytes: &[u8]) -> String {
    let mut text = String::new();
    for run in bytes.chunk_by(|a, b| a == b) {
        if run.len() >= SHORTEST_RUN {
            text.push_str(&format!("({:02x}x{})", run[0], run.len()));
        } else {
            run.iter().for_each(|b| text.push_str(&format!("{b:02x}")));
        }
    }
    text
}

pub fn parse(line: &str) -> Option<Case> {
    let mut words = line.split_whitespace();
    let name = words.next()?;
    let at = CALLS.iter().position(|c| c.name == name)?;
    let mut case = Case { call: at as u8 + 1, ..Case::default() };
    for word in words {
        let (key, value) = word.split_once('=')?;
        match key {
            "n" => case.numbers = numbers(value)?,
            "s" => case.slices = slices(value, CALLS[at].slices)?,
            "w" => case.words = value.split('/').map(words_of).collect::<Option<_>>()?,
            "l" => case.lists = numbers(value)?.iter().map(|&n| n as usize).collect(),
            _ => return None,
        }
    }
    CALLS[at].takes(&case).then_some(case)
}

fn numbers(text: &str) -> Option<Vec<u64>> {
    let parts = text.split(',').filter(|p| !p.is_empty());
    parts.map(|p| p.parse().ok()).collect()
}

fn words_of(text: &str) -> Option<Vec<u64>> {
    let mut words = Vec::new();
    for run in text.split(',').filter(|p| !p.is_empty()) {
        let (word, count) = run.split_once('x').unwrap_or((run, "1"));
        words.resize(words.len() + count.parse::<usize>().ok()?, word.parse().ok()?);
    }
    Some(words)
}

fn slices(text: &str, count: usize) -> Option<Vec<Vec<u8>>> {
    if count == 0 {
        return Some(Vec::new());
    }
    text.split(',').map(unhex).collect()
}

fn unhex(text: &str) -> Option<Vec<u8>> {
    let mut bytes = Vec::new();
    let mut rest = text;
    while !rest.is_empty() {
        if let Some(run) = rest.strip_prefix('(') {
            let (inside, after) = run.split_once(')')?;
            let (byte, count) = inside.split_once('x')?;
            let byte = u8::from_str_radix(byte, 16).ok()?;
            bytes.resize(bytes.len() + count.parse::<usize>().ok()?, byte);
            rest = after;
        } else {
            bytes.push(u8::from_str_radix(rest.get(..2)?, 16).ok()?);
            rest = &rest[2..];
        }
    }
    Some(bytes)
}

#[cfg(test)]
mod tests {
    use super::*;

    #[test]
    fn a_line_comes_back_as_its_case() {
        let mut region = vec![3, 1, 0x17];
        region.resize(70, 0);
        let case = Case::new(8, &[5, u64::MAX], &[&region, &[]], &[8, 0]);
        assert_eq!(parse(&line(&case)), Some(case));
        let case = Case::new(2, &[7], &[], &[]);
        assert_eq!(parse(&line(&case)), Some(case));
        let case = Case::new(13, &[512], &[&[], &[2]], &[1, 1, 8, 4]).with_words(&[&[2, 3, 3, 3], &[]]);
        assert_eq!(parse(&line(&case)), Some(case));
        assert_eq!(parse("scan_region n=1 s=00 l="), None);
    }
}
