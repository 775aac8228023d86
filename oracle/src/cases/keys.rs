//! Statements that the reading by the format tells apart: keys and what is nearly one, and pieces that begin as constraints do. Each
//! goes both ways.

use super::statements::{mixed, put, table, with_byte, BLANKS};
use crate::random::Random;
use crate::runner::Sink;

const KEY: [&str; 4] = ["INTEGER", "PRIMARY", "KEY", "DESC"];
const CONSTRAINTS: [&str; 5] = ["PRIMARY", "UNIQUE", "CHECK", "FOREIGN", "CONSTRAINT"];

/// What may stand behind KEY, and between any two words.
const BEHIND: [&str; 22] = [
    "",
    "DESC",
    "ASC",
    "AUTOINCREMENT",
    "DESCENDING",
    "desc",
    "DeSc",
    "DES",
    "ESC",
    "XDESC",
    "DESC)",
    "(DESC",
    "(DESC)",
    "DESC(a)",
    "ASC DESC",
    "DESC ASC",
    "NOT NULL",
    "NOT NULL DESC",
    "DESC NOT NULL",
    "AUTOINCREMENT DESC",
    "ON CONFLICT FAIL",
    "CHECK (a > 0)",
];

/// Pieces of a statement with keys and constraints in any order.
const PIECES: [&str; 6] =
    ["a TEXT", "k INTEGER PRIMARY KEY", "k INTEGER PRIMARY KEY DESC", "CHECK (a)", "check_day", ""];

pub fn all(sink: &mut dyn Sink, random: &mut Random, count: usize) {
    fixed(sink);
    for _ in 0..count {
        let pieces: Vec<String> = (0..1 + random.below(5)).map(|_| piece(random)).collect();
        table(sink, &pieces.join(","));
    }
}

pub fn fixed(sink: &mut dyn Sink) {
    key_words(sink);
    between(sink);
    blanks(sink);
    first_words(sink);
    first_bytes(sink);
    orders(sink);
}

/// A word as it is, in other cases, and with a byte less or more at either end.
fn forms(word: &str) -> [String; 7] {
    let [without_first, without_last] = [&word[1..], &word[..word.len() - 1]].map(String::from);
    let [before, behind] = [format!("X{word}"), format!("{word}X")];
    [word.to_string(), word.to_lowercase(), mixed(word), without_first, without_last, before, behind]
}

/// Every form of each of the four words with every form of the others, and without the last.
fn key_words(sink: &mut dyn Sink) {
    let [kinds, primaries, keys, orders] = KEY.map(forms);
    for kind in &kinds {
        for primary in &primaries {
            for key in &keys {
                table(sink, &format!("b TEXT, a {kind} {primary} {key}"));
                for order in &orders {
                    table(sink, &format!("a {kind} {primary} {key} {order}, b TEXT"));
                }
            }
        }
    }
}

/// Words behind KEY, and the same between any two words, also where that takes the place of one.
fn between(sink: &mut dyn Sink) {
    let others =
        ["NULL", "CONSTRAINT k", "x", "(8)", "UNSIGNED", "DEFAULT 1", "INTEGER", "PRIMARY", "KEY", "INT", "TEXT"];
    for word in BEHIND.iter().chain(&others) {
        let words = ["a", "INTEGER", "PRIMARY", "KEY", "DESC"];
        for at in 0..=words.len() {
            for taken in 0..=usize::from(at < words.len()) {
                let (before, behind) = (words[..at].join(" "), words[at + taken..].join(" "));
                table(sink, &format!("{before} {word} {behind}, b TEXT"));
            }
        }
        table(sink, &format!("a INTEGER PRIMARY KEY {word}, b TEXT"));
        table(sink, &format!("b TEXT, a INTEGER PRIMARY KEY {word}"));
    }
}

/// Blanks of every kind and number between the words of a key, before and behind it; and every other byte there.
fn blanks(sink: &mut dyn Sink) {
    for blank in BLANKS.into_iter().chain(["", "\n\n\t", "\r\n", "\u{b} \u{c}"]) {
        for at in 0..6 {
            let mut blanks = ["", " ", " ", " ", " ", ""];
            blanks[at] = blank;
            let [a, b, c, d, e, f] = blanks;
            table(sink, &format!("{a}a{b}INTEGER{c}PRIMARY{d}KEY{e}DESC{f}, b TEXT"));
        }
        table(sink, &["a", "INTEGER", "PRIMARY", "KEY", ""].join(blank));
    }
    for byte in 0..=255 {
        for columns in [
            &b"?a INTEGER PRIMARY KEY"[..],
            b"a?INTEGER PRIMARY KEY",
            b"a INTEGER?PRIMARY KEY",
            b"a INTEGER PRIMARY?KEY",
            b"a INTEGER PRIMARY KEY?",
            b"a INTEGER PRIMARY KEY?DESC",
            b"a INTEGER PRIMARY KEY DESC?",
            b"a INTEGER ?PRIMARY KEY",
            b"a INTEGER? PRIMARY KEY",
        ] {
            with_byte(sink, columns, byte);
        }
    }
}

/// Each constraint's word in every form, before what may and may not end it, behind brackets and quotes, and as a name.
fn first_words(sink: &mut dyn Sink) {
    for word in CONSTRAINTS.iter().chain(&["KEY", "INTEGER"]) {
        for form in forms(word) {
            for piece in [
                form.to_string(),
                format!("{form} (a)"),
                format!("{form}(a)"),
                format!("{form})"),
                format!("{form}()INT"),
                format!("{form}_day INT"),
                format!("{form} INT"),
                format!("{form} KEY(a)"),
                format!("\"{form}\" INT"),
                format!("({form}(a)"),
                format!("({form}) INT"),
                format!("( {form} INT"),
                format!("){form} INT"),
                format!("{form} INTEGER PRIMARY KEY"),
                format!("a {form} INTEGER PRIMARY KEY"),
            ] {
                table(sink, &format!("{piece}, b TEXT"));
                table(sink, &format!("b TEXT, {piece}"));
            }
        }
    }
}

/// Every byte behind a constraint's word and before it: which of them end it.
fn first_bytes(sink: &mut dyn Sink) {
    for word in CONSTRAINTS {
        for byte in 0..=255 {
            for piece in ["W?a", "W? INT", "?W a", "W?", "W?a INTEGER PRIMARY KEY"] {
                with_byte(sink, format!("{}, b INT", piece.replace('W', word)).as_bytes(), byte);
            }
        }
    }
}

/// A key first, in the middle, last, and several; with constraints before, between and behind, and with room for none to all.
fn orders(sink: &mut dyn Sink) {
    for a in PIECES {
        for b in PIECES {
            for c in PIECES {
                table(sink, &format!("{a},{b},{c}"));
            }
            for room in 0..3 {
                put(sink, format!("t({a}, {b})").as_bytes(), room);
            }
        }
    }
}

/// Words of keys and constraints in about their order, some of them in another form, with any blanks between.
fn piece(random: &mut Random) -> String {
    let mut text = String::from(random.pick(&["", "", " ", "(", "\n"]));
    let name = random.pick(&["a", "note", "KEY", "check_day", "CHECK", "PRIMARY", "UNIQUE", "FOREIGN", "CONSTRAINT"]);
    for word in [name, "INTEGER", "PRIMARY", "KEY", random.pick(&BEHIND)] {
        if random.once_in(8) {
            continue;
        }
        if random.once_in(12) {
            text.push_str(random.pick(&["NOT NULL", "(a)", "INT", "x"]));
            text.push_str(random.pick(&BLANKS));
        }
        if !word.is_empty() && random.once_in(4) {
            text.push_str(&forms(word)[random.below(7)]);
        } else {
            text.push_str(word);
        }
        text.push_str(random.pick(&BLANKS));
        if random.once_in(24) {
            text.push_str(random.pick(&["(", ")", "(a)", "\u{1f}", "\u{a0}"]));
        }
    }
    text
}
