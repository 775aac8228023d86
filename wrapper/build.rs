//! Links libphsarodil.a: from the folder that PHSARODIL_LIB names, or else from where tools/archive writes it.

use std::path::PathBuf;
use std::{env, process};

fn main() {
    println!("cargo:rerun-if-env-changed=PHSARODIL_LIB");
    let folder = match env::var_os("PHSARODIL_LIB") {
        Some(named) => PathBuf::from(named),
        None => PathBuf::from(env::var_os("CARGO_MANIFEST_DIR").expect("cargo sets it"))
            .join("../target/staticlib"),
    };
    let archive = folder.join("libphsarodil.a");
    println!("cargo:rerun-if-changed={}", archive.display());

    let target = env::var("CARGO_CFG_TARGET_ARCH").unwrap_or_default();
    if target != "x86_64" {
        fail(&format!(
            "the archive is for x86_64 and does not link into a program for {target}"
        ));
    }
    if !archive.is_file() {
        fail(&format!(
            "{} is not there. Make it with tools/archive at the repository's top,\n\
             or set PHSARODIL_LIB to the folder that holds libphsarodil.a",
            archive.display()
        ));
    }
    println!("cargo:rustc-link-search=native={}", folder.display());
    println!("cargo:rustc-link-lib=static=phsarodil");
}

fn fail(why: &str) -> ! {
    eprintln!("phsarodil: {why}");
    process::exit(1)
}
