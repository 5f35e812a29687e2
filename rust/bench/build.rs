//! Writes the proved crates' code as plain Rust, for a measure of what its form
//! costs apart from the proof: contracts are left out, nothing else changes.

use std::path::Path;
use std::{env, fs};

/// The crates that a run and a drain go through.
const CRATES: [&str; 15] = [
    "refusals", "sets", "sheet", "lists", "wires", "tables", "boxes", "rows", "board", "mail",
    "turn", "sends", "pass", "turns", "hub",
];

/// Begins a line that is the prover's or the compiler's of Rattle alone.
const GHOSTS: [&str; 4] = ["ghost ", "#![tactic(", "#[tactic(", "#[derive("];

/// Begins a clause of a contract or a ghost member, which ends with the brace
/// that closes it.
const CLAUSES: [&str; 4] = ["requires ", "ensures ", "ghost ", "pub ghost "];

/// The lines of a crate without those.
fn code(text: &str) -> Vec<&str> {
    let mut open = 0;
    let mut code = Vec::new();
    for line in text.lines() {
        let begins = |words: &[&str]| words.iter().any(|word| line.trim().starts_with(word));
        if open == 0 && begins(&GHOSTS) {
            continue;
        }
        if open > 0 || begins(&CLAUSES) {
            open = open + line.matches('{').count() - line.matches('}').count();
        } else {
            code.push(line);
        }
    }
    code
}

/// One line of a crate in plain Rust: its structs and enums are copied as they
/// are passed, and other crates stand beside it as modules, which `above` leads
/// to.
fn plain(line: &str, above: &str) -> String {
    let mut line = line.replace("std::num::wrapping_add_u32(", "u32::wrapping_add(");
    let begins = |words: [&str; 2]| words.iter().any(|word| line.starts_with(word));
    if begins(["pub struct ", "struct "]) {
        line.insert_str(0, "#[derive(Clone, Copy)]\n");
    } else if begins(["pub enum ", "enum "]) {
        line.insert_str(0, "#[derive(Clone, Copy, PartialEq, Eq)]\n");
    }
    for name in CRATES {
        let path = format!("{name}::");
        let mut done = String::new();
        let mut rest = line.as_str();
        while let Some(at) = rest.find(&path) {
            let (before, found) = rest.split_at(at);
            let starts_word = !before.ends_with(|c: char| c.is_alphanumeric() || c == '_');
            done += before;
            done += if starts_word { above } else { "" };
            done += &path;
            rest = &found[path.len()..];
        }
        line = done + rest;
    }
    line
}

/// A file of a crate in plain Rust, with the modules that it names in it.
fn file(folder: &Path, name: &str, above: &str) -> String {
    let source = folder.join(format!("{name}.rt"));
    println!("cargo::rerun-if-changed={}", source.display());
    let text = fs::read_to_string(&source).expect("a crate's code");
    let mut all = String::new();
    for line in code(&text) {
        let declared = line
            .trim_start_matches("pub ")
            .strip_prefix("mod ")
            .and_then(|rest| rest.strip_suffix(';'));
        all += &match declared {
            Some(module) => {
                let inner = file(folder, module, &format!("super::{above}"));
                format!("{} {{\n{inner}}}", line.trim_end_matches(';'))
            }
            None => plain(line, above),
        };
        all.push('\n');
    }
    all
}

fn main() {
    let package = env::var("CARGO_MANIFEST_DIR").expect("cargo says where the package stands");
    let out = env::var("OUT_DIR").expect("cargo says where to write");
    let mut all = String::new();
    let mut in_place = String::new();
    for name in CRATES {
        let folder = Path::new(&package).join(format!("../../crates/{name}/src"));
        let module = format!("pub mod {name} {{\n{}\n}}\n", file(&folder, "lib", "super::"));
        all += &module;
        in_place += &if name == "rows" {
            format!(
                "#[path = {:?}]\npub mod rows;\n",
                format!("{package}/src/rows_in_place.rs")
            )
        } else {
            module
        };
    }
    fs::write(Path::new(&out).join("plain.rs"), all).expect("written");
    fs::write(Path::new(&out).join("in_place.rs"), in_place).expect("written");
}
