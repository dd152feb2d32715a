//! `oracle calls < list` answers a call list; `oracle listing < file` lists a segment file, and
//! `oracle original < file` one without a bad record, by the original's methods alone.

use oracle::{calls, listing, Oracle};
use std::io::{self, Read, Write};
use std::process::ExitCode;

fn main() -> ExitCode {
    match run(std::env::args().nth(1).as_deref()) {
        Ok(()) => ExitCode::SUCCESS,
        Err(why) => {
            eprintln!("{why}");
            ExitCode::FAILURE
        }
    }
}

fn run(command: Option<&str>) -> Result<(), String> {
    let mut bytes = Vec::new();
    let mut read = || {
        let read = io::stdin().read_to_end(&mut bytes);
        read.map_err(|why| format!("cannot read: {why}"))
    };
    let mut oracle = Oracle::default();
    let printed = match command {
        Some("calls") => {
            read()?;
            let text = String::from_utf8(bytes).map_err(|_| "the list is no text")?;
            calls::run(&text, &mut oracle)?
        }
        Some("listing") => {
            read()?;
            listing::listing(&bytes, &mut oracle)
        }
        Some("original") => {
            read()?;
            listing::original_listing(&bytes)
        }
        _ => {
            let usage = "oracle calls < list | oracle listing < file | oracle original < file";
            return Err(usage.to_string());
        }
    };
    let written = io::stdout().write_all(printed.as_bytes());
    written.map_err(|why| format!("cannot write: {why}"))
}
