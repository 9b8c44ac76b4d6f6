//! A log over `pagedd`: `cargo run --example log FOLDER [RECORD ..]`
//!
//! Appends the records of the command line to the log in FOLDER, commits them, and prints all
//! records of the log, with the place of each. FOLDER is made if it is missing. The program is
//! found by the variable `PAGEDD`, or in `PATH`.

use std::process::ExitCode;

use paged::{ErrorKind, Log, Result};

fn run(folder: &str, records: &[String]) -> Result<()> {
    let mut log = Log::open(folder)?;
    if let Err(error) = log.append_records_sync(records) {
        eprintln!(
            "log: these records aren't known to be durable; the first {} were appended",
            error.taken()
        );
        return Err(error);
    }
    let mut found = log.records();
    while let Some(record) = found.next() {
        match record {
            Ok(record) => println!("{} {}", record.place, String::from_utf8_lossy(&record.data)),
            Err(error) if error.kind() == ErrorKind::Damaged => {
                eprintln!("log: {} bytes are damaged", found.pass_damage()?.bytes);
            }
            Err(error) => return Err(error),
        }
    }
    log.close()
}

fn main() -> ExitCode {
    let words: Vec<String> = std::env::args().skip(1).collect();
    let Some((folder, records)) = words.split_first() else {
        eprintln!("usage: log FOLDER [RECORD ..]");
        return ExitCode::from(2);
    };
    match run(folder, records) {
        Ok(()) => ExitCode::SUCCESS,
        Err(error) => {
            eprintln!("log: {error}");
            ExitCode::FAILURE
        }
    }
}
