//! The printing program beside the independent one: the text, byte for byte.

use std::fs;
use std::io::Write;
use std::path::{Path, PathBuf};
use std::process::{Command, Stdio};

use compare::{Chance, Hub, after_others, damage};

/// A path of the repository.
fn top(path: &str) -> PathBuf {
    Path::new(env!("CARGO_MANIFEST_DIR"))
        .join("../..")
        .join(path)
}

/// What the proved program prints for an input.
fn printed(input: &[u8]) -> String {
    let program = top("crates/derowlas/out/derowlas");
    let mut child = Command::new(&program)
        .stdin(Stdio::piped())
        .stdout(Stdio::piped())
        .spawn()
        .unwrap_or_else(|error| {
            panic!(
                "{}: {error}; `bin/routes` builds it",
                program.display()
            )
        });
    let mut stdin = child.stdin.take().expect("a pipe");
    stdin
        .write_all(input)
        .expect("the program reads to the end");
    drop(stdin);
    let output = child.wait_with_output().expect("the program ends");
    assert!(output.status.success(), "{}", output.status);
    String::from_utf8(output.stdout).expect("text")
}

fn same(input: &[u8]) -> String {
    let text = printed(input);
    assert_eq!(text, independent::routes(input), "on the input {input:?}");
    text
}

#[test]
fn sheets_by_chance() {
    let mut chance = Chance::new();
    let (mut routes, mut refusals) = (0, 0);
    for case in 0..1000 {
        let hub = Hub::by_chance(&mut chance);
        let sheet = if case % 2 == 0 {
            hub.sheet()
        } else {
            damage(hub, &mut chance)
        };
        let sheet = after_others(sheet, &mut chance);
        if same(&sheet).starts_with("refused ") {
            refusals += 1;
        } else {
            routes += 1;
        }
    }
    println!("printed: {routes} routes, {refusals} refusals");
    assert!(routes >= 250 && refusals >= 250);
}

/// Nothing, a byte, and inputs much longer than a sheet: only the end counts.
#[test]
fn any_length() {
    for length in [0, 1, 3, 243, 244, 245, 65_536, 1_000_003] {
        let mut input = vec![7; length];
        same(&input);
        input.extend(Hub::mesh(16).sheet());
        assert!(same(&input).starts_with("boxes 16 links 120 "));
    }
}

/// Each sample prints its file, by both programs.
#[test]
fn samples() {
    let mut tried = 0;
    for entry in fs::read_dir(top("samples")).expect("the samples") {
        let path = entry.expect("a sample").path();
        if path.extension().is_some_and(|kind| kind == "sheet") {
            let sheet = fs::read(&path).expect("a sheet");
            let text = fs::read_to_string(path.with_extension("txt")).expect("its text");
            assert_eq!(same(&sheet), text, "{}", path.display());
            tried += 1;
        }
    }
    assert!(tried >= 12);
}
