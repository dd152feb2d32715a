//! File to listing: the program `listing` beside the oracle's, which lists by the original's methods
//! alone, both as processes.
//!
//! A process's time is from its start until it has ended and all that it printed is read. The small
//! file comes by a pipe; the large one, a map over and over, is a file on standard input.

use crate::median;
use std::fs::{self, File};
use std::io::{self, Write};
use std::path::{Path, PathBuf};
use std::process::{Command, Stdio};
use std::thread;
use std::time::{Duration, Instant};

/// How often each program is run on a small file, and on the large one of about so many bytes.
const SMALL_RUNS: usize = 101;
const LARGE_RUNS: usize = 3;
const LARGE_BYTES: usize = 100_000_000;

/// A program with its arguments.
struct Program {
    path: PathBuf,
    arguments: &'static [&'static str],
}

/// What a program is given on standard input.
enum Input<'a> {
    Bytes(&'a [u8]),
    File(&'a Path),
}

/// Measures both programs on the files.
pub fn measure(files: &[(&str, Vec<u8>)]) {
    let root = Path::new(env!("CARGO_MANIFEST_DIR")).join("..");
    let listing = Program {
        path: root.join("crates/listing/out/listing"),
        arguments: &[],
    };
    let original = Program {
        path: root.join("oracle/target/release/oracle"),
        arguments: &["original"],
    };
    println!("\nfile to listing, as processes");
    for (program, build) in [
        (&listing, "`rt run` in crates/listing"),
        (&original, "`cargo build --release` in oracle"),
    ] {
        if !program.path.exists() {
            println!("left out: {} makes {}", build, program.path.display());
            return;
        }
    }
    println!(
        "input          size           library    original   ratio: library's time / original's"
    );
    for (name, bytes) in files {
        if let Err(why) = measure_file(name, bytes, [&listing, &original]) {
            println!("{name}: {why}");
        }
    }
}

fn measure_file(name: &str, bytes: &[u8], programs: [&Program; 2]) -> io::Result<()> {
    let mut times = [Vec::new(), Vec::new()];
    for _ in 0..SMALL_RUNS {
        let mut printed = Vec::new();
        for (program, times) in programs.iter().zip(&mut times) {
            let (time, text) = run(program, &Input::Bytes(bytes))?;
            times.push(time);
            printed.push(text);
        }
        assert_eq!(printed[0], printed[1], "listing of {name}");
    }
    let [library, original] = times.map(median);
    let ratio = library / original;
    println!(
        "{name:<13} one map     {library:>10.1}  {original:>10.1}  {ratio:>6.2}  microseconds"
    );

    let path = std::env::temp_dir().join(format!("tukmiheb-benchmark-{}", std::process::id()));
    let copies = LARGE_BYTES / bytes.len();
    fs::write(&path, bytes.repeat(copies))?;
    let rates = rates(&path, copies * bytes.len(), programs);
    fs::remove_file(&path)?;
    let [library, original] = rates?;
    let ratio = original / library;
    println!("{name:<13} {copies:>5} maps  {library:>10.1}  {original:>10.1}  {ratio:>6.2}  MB/s");
    Ok(())
}

/// How many megabytes a second each program reads.
fn rates(path: &Path, size: usize, programs: [&Program; 2]) -> io::Result<[f64; 2]> {
    let mut times = [Vec::new(), Vec::new()];
    for _ in 0..LARGE_RUNS {
        for (program, times) in programs.iter().zip(&mut times) {
            times.push(run(program, &Input::File(path))?.0);
        }
    }
    Ok(times.map(|times| size as f64 / median(times)))
}

/// Runs a program on an input; how long it took, and what it printed.
fn run(program: &Program, input: &Input) -> io::Result<(Duration, Vec<u8>)> {
    let stdin = match input {
        Input::Bytes(_) => Stdio::piped(),
        Input::File(path) => File::open(path)?.into(),
    };
    let start = Instant::now();
    let mut command = Command::new(&program.path);
    let command = command.args(program.arguments);
    let mut child = command.stdin(stdin).stdout(Stdio::piped()).spawn()?;
    let pipe = child.stdin.take();
    let output = thread::scope(|threads| {
        if let (Some(mut pipe), Input::Bytes(bytes)) = (pipe, input) {
            threads.spawn(move || pipe.write_all(bytes));
        }
        child.wait_with_output()
    })?;
    let time = start.elapsed();
    assert!(output.status.success(), "{}", program.path.display());
    Ok((time, output.stdout))
}
