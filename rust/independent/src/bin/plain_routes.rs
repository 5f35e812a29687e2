//! The printing program of document 01, unproved: reads a sheet from standard
//! input and prints the routes of every box, or the refusal.

use std::io::{self, Read, Write};
use std::process::ExitCode;

use independent::{KEPT, routes};

/// Reads to the end and keeps only the last bytes, however long the input is.
fn last_bytes(mut input: impl Read) -> io::Result<Vec<u8>> {
    let mut kept = Vec::new();
    let mut chunk = [0; 4096];
    loop {
        match input.read(&mut chunk) {
            Ok(0) => return Ok(kept),
            Ok(length) => {
                kept.extend_from_slice(&chunk[..length]);
                kept.drain(..kept.len().saturating_sub(KEPT));
            }
            Err(error) if error.kind() == io::ErrorKind::Interrupted => {}
            Err(error) => return Err(error),
        }
    }
}

fn main() -> ExitCode {
    let printed = last_bytes(io::stdin().lock())
        .and_then(|sheet| io::stdout().lock().write_all(routes(&sheet).as_bytes()));
    match printed {
        Ok(()) => ExitCode::SUCCESS,
        Err(error) => {
            eprintln!("plain_routes: {error}");
            ExitCode::FAILURE
        }
    }
}
