//! Prints the chart room sheet of a set: reads the set's file from standard input. A file that is refused, or a
//! set that does not fit a sheet, is a message, and the status is 1. Prints what sheet.c does.
use segment_cache::{Arena, FileNeeds, Refusal, Set};
use std::io::{Read, Write, stdin, stdout};
use std::process::ExitCode;

fn sheet(file: &[u8]) -> Result<String, Refusal> {
    let mut arena = Arena::new(FileNeeds::of(file)?.arena);
    let set = Set::from_file(&mut arena, file)?;
    set.sheet(&arena)
}

fn run() -> Result<(), Box<dyn std::error::Error>> {
    let mut file = Vec::new();
    stdin().read_to_end(&mut file)?;
    stdout().write_all(sheet(&file)?.as_bytes())?;
    Ok(())
}

fn main() -> ExitCode {
    match run() {
        Ok(()) => ExitCode::SUCCESS,
        Err(error) => {
            eprintln!("sheet: {error}");
            ExitCode::FAILURE
        }
    }
}
