//! Links the library of the folder PLEVANDOR_LIBRARY, and makes constants of the numbers in its header: so what is
//! compared is the library by its own header.

use std::path::{Path, PathBuf};
use std::{env, fs};

/// The name without its first word and the number, of a line of the header that gives one.
fn constant(line: &str) -> Option<(&str, u64)> {
    let line = line.trim_start();
    let (name, rest) = match line.strip_prefix("#define ") {
        Some(line) => line.split_once(' ')?,
        None => line.split_once(" = ")?,
    };
    let end = rest.find(|c: char| !c.is_ascii_digit()).unwrap_or(rest.len());
    Some((name.strip_prefix("PLEVANDOR_")?, rest[..end].parse().ok()?))
}

fn constants(header: &Path) -> String {
    let text = fs::read_to_string(header).unwrap_or_else(|error| panic!("{}: {error}", header.display()));
    text.lines().filter_map(constant).map(|(name, number)| format!("pub const {name}: u64 = {number};\n")).collect()
}

fn main() {
    println!("cargo:rerun-if-env-changed=PLEVANDOR_LIBRARY");
    let folder = env::var("PLEVANDOR_LIBRARY").expect("PLEVANDOR_LIBRARY names the folder that bin/library wrote");
    let folder = fs::canonicalize(&folder).unwrap_or_else(|error| panic!("{folder}: {error}"));
    let (archive, header) = (folder.join("libplevandor.a"), folder.join("plevandor.h"));
    println!("cargo:rerun-if-changed={}", archive.display());
    println!("cargo:rerun-if-changed={}", header.display());
    println!("cargo:rustc-link-search=native={}", folder.display());
    println!("cargo:rustc-link-lib=static=plevandor");
    let out = PathBuf::from(env::var("OUT_DIR").expect("cargo gives it"));
    fs::write(out.join("header.rs"), constants(&header)).expect("cargo's folder can be written");
}
