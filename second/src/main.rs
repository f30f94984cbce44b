// main.rs: the second program's modes.

// Remainders are written as the papers write them.
#![allow(clippy::manual_is_multiple_of)]

mod audio;
mod big;
mod container;
#[cfg(test)]
mod directions;
mod exact;
mod feed;
#[cfg(test)]
mod figures;
mod float;
mod formats;
mod inspect;
mod judging;
#[cfg(test)]
mod judging_tests;
mod make;
mod packet;
mod receiver;
#[cfg(test)]
mod receiver_tests;
mod recording;
#[cfg(test)]
mod recording_tests;
mod session;
mod transport;
#[cfg(test)]
mod transport_tests;
#[cfg(test)]
mod two_rules;
mod video;

use std::io::{self, BufReader, BufWriter, Read, Write};
use std::path::Path;
use std::process::ExitCode;

const HELP: &str = "\
second                  reads a feed from standard input and prints what `card` must print
second inspect          reads up to 300 bytes of standard input as a container and prints one line
second mend             reads up to 65,537 bytes of standard input as a recording and prints what `mend` must print
second receive          reads records from standard input and prints what `receive` must print
second judge [FILE]     reads standard input, or the file, as packets' fields and prints what `judge` must print
second exact            reads a feed and holds every audio bit and filter value to the exact filters
second make KIND SEED   writes a random feed; the same KIND and SEED always give the same bytes
second kinds            prints the names of the kinds
second help             prints this
";

fn run_feed() -> io::Result<ExitCode> {
    let mut output = BufWriter::new(io::stdout().lock());
    feed::run(&mut BufReader::new(io::stdin().lock()), &mut output, false)?;
    output.flush()?;
    Ok(ExitCode::SUCCESS)
}

fn run_inspect() -> io::Result<ExitCode> {
    let mut bytes = Vec::new();
    io::stdin().lock().take(inspect::MOST_INPUT as u64).read_to_end(&mut bytes)?;
    println!("{}", inspect::line(&bytes));
    Ok(ExitCode::SUCCESS)
}

fn run_mend() -> io::Result<ExitCode> {
    print!("{}", recording::report_on(io::stdin().lock())?);
    Ok(ExitCode::SUCCESS)
}

fn run_receive() -> io::Result<ExitCode> {
    let mut output = BufWriter::new(io::stdout().lock());
    receiver::run(&mut BufReader::new(io::stdin().lock()), &mut output)?;
    output.flush()?;
    Ok(ExitCode::SUCCESS)
}

/// What cannot be opened or read is said on standard error; the exit status is 0 in each case (FEED).
fn run_judge(names: &[&str]) -> io::Result<ExitCode> {
    let (report, name) = match names {
        [] => (judging::report_on(None), "standard input"),
        [name] => (judging::report_on(Some(Path::new(name))), *name),
        _ => {
            eprintln!("judge: one file at the most");
            return Ok(ExitCode::SUCCESS);
        }
    };
    match report {
        Ok(lines) => print!("{lines}"),
        Err(fault) => eprintln!("judge: {name}: {}", fault.to_string().split(" (os error").next().unwrap_or_default()),
    }
    Ok(ExitCode::SUCCESS)
}

fn run_exact() -> io::Result<ExitCode> {
    let desk = feed::run(&mut BufReader::new(io::stdin().lock()), &mut io::sink(), true)?;
    let tally = desk.exact.unwrap_or_default();
    let exact::Tally { samples, ones, zeros, open } = tally;
    if let Some(fault) = desk.fault {
        println!("exact: {fault}");
        return Ok(ExitCode::FAILURE);
    }
    println!("exact: {samples} samples within bounds, bits settled as 1 {ones}, as 0 {zeros}, left open {open}");
    Ok(ExitCode::SUCCESS)
}

fn run_make(kind: &str, seed: &str) -> io::Result<ExitCode> {
    let feed = seed.parse().ok().and_then(|seed| make::feed(kind, seed));
    match feed {
        Some(feed) => {
            io::stdout().lock().write_all(&feed)?;
            Ok(ExitCode::SUCCESS)
        }
        None => usage(),
    }
}

fn usage() -> io::Result<ExitCode> {
    eprint!("{HELP}\nThe kinds:\n{}", make::help());
    Ok(ExitCode::from(2))
}

fn main() -> io::Result<ExitCode> {
    let arguments: Vec<String> = std::env::args().skip(1).collect();
    let words: Vec<&str> = arguments.iter().map(String::as_str).collect();
    match words[..] {
        [] => run_feed(),
        ["inspect"] => run_inspect(),
        ["mend"] => run_mend(),
        ["receive"] => run_receive(),
        ["judge", ref names @ ..] => run_judge(names),
        ["exact"] => run_exact(),
        ["make", kind, seed] => run_make(kind, seed),
        ["kinds"] => {
            make::KINDS.iter().for_each(|kind| println!("{}", kind.name));
            Ok(ExitCode::SUCCESS)
        }
        ["help"] => {
            print!("{HELP}\nThe kinds:\n{}", make::help());
            Ok(ExitCode::SUCCESS)
        }
        _ => usage(),
    }
}
