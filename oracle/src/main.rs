//! Reads cases on standard input, one to a line, and prints the text's outcome of each; `--paper` answers by document 01's steps instead.
//! `--family SEED` prints the cases of a seed.

use std::io::{self, BufRead, BufWriter, Write};
use std::process::ExitCode;

use oracle::call::Calls;
use oracle::line::{case_line, outcome_line, parse_case};
use oracle::{by_value, cases, floored, packed, paper::Paper, teaching, text::Text};

fn main() -> ExitCode {
    let words: Vec<String> = std::env::args().skip(1).collect();
    let words: Vec<&str> = words.iter().map(String::as_str).collect();
    let done = match words[..] {
        [] => answer(&Text),
        ["--paper"] => answer(&Paper),
        ["--family", seed] => print_family(seed),
        _ => Err("usage: oracle [--paper] < CASES, or oracle --family SEED".into()),
    };
    match done {
        Ok(()) => ExitCode::SUCCESS,
        Err(e) => {
            eprintln!("{e}");
            ExitCode::FAILURE
        }
    }
}

fn answer(calls: &dyn Calls) -> Result<(), Box<dyn std::error::Error>> {
    let mut out = BufWriter::new(io::stdout().lock());
    for (at, line) in io::stdin().lock().lines().enumerate() {
        let case = parse_case(&line?).map_err(|e| format!("line {}: {e}", at + 1))?;
        writeln!(out, "{}", outcome_line(&case, &case.outcome(calls)))?;
    }
    Ok(out.flush()?)
}

fn print_family(seed: &str) -> Result<(), Box<dyn std::error::Error>> {
    let mut out = BufWriter::new(io::stdout().lock());
    let seed = seed.parse()?;
    let parts = [cases::family(seed).cases, cases::solves(seed), cases::twins(seed), cases::benches(seed), cases::lists(seed)];
    for case in parts.iter().flatten() {
        let beside =
            packed::beside(case).into_iter().chain(floored::beside(case)).chain(teaching::beside(case)).chain(by_value::beside(case));
        for case in [case.clone()].into_iter().chain(beside) {
            writeln!(out, "{}", case_line(&case))?;
        }
    }
    for case in cases::floored(seed).iter().chain(&cases::taught(seed)).chain(&cases::held(seed)).chain(&cases::trays(seed)) {
        writeln!(out, "{}", case_line(case))?;
    }
    let (chain, floor) = cases::floored_chain(seed);
    let floored_batches = floored::floored_batches(&Text, &chain, floor);
    for (batch, _) in packed::packed_batches(&Text, &cases::packed_chain(seed)).iter().chain(&floored_batches) {
        writeln!(out, "{}", case_line(batch))?;
    }
    Ok(out.flush()?)
}
