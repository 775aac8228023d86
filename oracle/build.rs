//! Opens up the given Rust into OUT_DIR: each file becomes a module, and what is private becomes public. Every change
//! is counted, and a count that is not the one written here fails the build, so that a changed text is noticed.

use std::env;
use std::fs;
use std::path::{Path, PathBuf};

/// One file of the given Rust.
struct Part {
    module: &'static str,
    /// The one function that is kept of the file, where the rest is not needed and leans on files not given.
    only: Option<&'static str>,
    /// Functions and structs that are made public.
    opened: usize,
    /// Fields that are made public, as they stand at the start of their line.
    fields: &'static [&'static str],
}

/// The files in use. A later call adds its file here and its calls in src/calls.rs.
const PARTS: &[Part] = &[
    Part { module: "varint", only: None, opened: 0, fields: &[] },
    Part { module: "record", only: None, opened: 0, fields: &[] },
    Part { module: "schema_sig", only: None, opened: 1, fields: &[] },
    Part { module: "context", only: None, opened: 0, fields: &[] },
    Part { module: "btree", only: Some("get_page_data"), opened: 1, fields: &[] },
    Part { module: "freeblock", only: None, opened: 5, fields: &["page_offset: usize", "data: Vec<u8>"] },
    Part { module: "gap", only: None, opened: 3, fields: &[] },
    Part { module: "carver", only: None, opened: 3, fields: &[] },
    Part { module: "unalloc", only: None, opened: 3, fields: &["patterns: Vec<ColumnPattern>"] },
];

const PRIVATE: [&str; 3] = ["fn ", "pub(crate) fn ", "struct "];

fn main() {
    println!("cargo:rerun-if-env-changed=PHSARODIL_RUST");
    println!("cargo:rerun-if-changed=build.rs");
    let folder = sources();
    let mut all = String::new();
    for part in PARTS {
        let path = folder.join(format!("{}.rs", part.module));
        println!("cargo:rerun-if-changed={}", path.display());
        let text = fs::read_to_string(&path)
            .unwrap_or_else(|e| panic!("{}: {e}; name a folder in PHSARODIL_RUST", path.display()));
        let kept = part.only.map_or(text.clone(), |name| function(&text, name));
        all.push_str(&module(part, &kept));
    }
    let out = PathBuf::from(env::var("OUT_DIR").expect("cargo sets OUT_DIR"));
    fs::write(out.join("given.rs"), all).expect("OUT_DIR can be written");
}

/// The folder that holds the files: under the one that PHSARODIL_RUST names, or beside this repository.
fn sources() -> PathBuf {
    let root = match env::var_os("PHSARODIL_RUST") {
        Some(folder) => PathBuf::from(folder),
        None => Path::new(env!("CARGO_MANIFEST_DIR")).join("../../shared/docs/src"),
    };
    let inside = root.join("crates/chat4n6-sqlite-forensics/src");
    if inside.is_dir() {
        inside
    } else {
        root
    }
}

fn module(part: &Part, text: &str) -> String {
    let mut opened = 0;
    let mut fields = 0;
    let mut body = String::new();
    for line in text.lines() {
        let bare = line.trim_start();
        let indent = &line[..line.len() - bare.len()];
        let open = if let Some(rest) = made_public(bare) {
            opened += 1;
            format!("pub {rest}")
        } else if part.fields.iter().any(|f| bare.starts_with(f)) {
            fields += 1;
            format!("pub {bare}")
        } else {
            bare.to_string()
        };
        body.push_str(indent);
        body.push_str(&open);
        body.push('\n');
    }
    assert_eq!(opened, part.opened, "{}: items made public", part.module);
    assert_eq!(fields, part.fields.len(), "{}: fields made public", part.module);
    format!("#[allow(clippy::all, dead_code)]\npub mod {} {{\n{body}}}\n", part.module)
}

/// The text of one function, up to the bracket at the start of a line that ends it.
fn function(text: &str, name: &str) -> String {
    let head = format!("fn {name}(");
    let mut lines = text.lines().skip_while(|line| !line.contains(&head));
    let mut kept = String::new();
    for line in lines.by_ref() {
        kept.push_str(line);
        kept.push('\n');
        if line == "}" {
            return kept;
        }
    }
    panic!("no function {name}");
}

/// The line without its privacy, if it begins a private function or struct.
fn made_public(bare: &str) -> Option<&str> {
    PRIVATE.iter().any(|p| bare.starts_with(p)).then(|| bare.strip_prefix("pub(crate) ").unwrap_or(bare))
}
