//! tray [--seconds S] [--only WORD] [--orders N,N,..]: how many times the tray's time others take for the same systems, for each kind of matrix and
//! order, in numbers and as a plot over the orders.
//!
//! The others are the Rust text, a new factor and a solve for each item in a loop, and the port's own two calls in a loop. All three take their turns on
//! the same systems, none always first; a ratio is the median of those of the turns. Above 1 the tray is faster.

mod clock;
mod measure;
mod plot;
mod port_tray;
mod work;

use std::process::ExitCode;

use measure::Ratios;
use work::{KINDS, Kind};

const ORDERS: [usize; 16] = [1, 2, 3, 4, 5, 6, 8, 10, 12, 16, 20, 24, 32, 40, 48, 64];

fn main() -> ExitCode {
    match options() {
        Some(options) => {
            run(&options);
            ExitCode::SUCCESS
        }
        None => {
            eprintln!("usage: tray [--seconds S] [--only WORD] [--orders N,N,..], orders from 1 to 64");
            ExitCode::FAILURE
        }
    }
}

struct Options {
    /// For each kind and order, about.
    seconds: f64,
    only: String,
    orders: Vec<usize>,
}

fn options() -> Option<Options> {
    let mut out = Options { seconds: 1.0, only: String::new(), orders: ORDERS.to_vec() };
    let mut words = std::env::args().skip(1);
    while let Some(word) = words.next() {
        let value = words.next()?;
        match word.as_str() {
            "--seconds" => out.seconds = value.parse().ok()?,
            "--only" => out.only = value,
            "--orders" => out.orders = value.split(',').map(order).collect::<Option<_>>()?,
            _ => return None,
        }
    }
    Some(out)
}

fn order(word: &str) -> Option<usize> {
    word.parse().ok().filter(|n| (1..=64).contains(n))
}

fn run(options: &Options) {
    println!(
        "their time over the tray's, medians of turns: above 1 the tray is faster (nanoseconds an item: text's loop, two calls, tray; turns)"
    );
    for kind in KINDS.iter().filter(|kind| kind.name.contains(&options.only)) {
        run_kind(kind, options);
    }
}

fn run_kind(kind: &Kind, options: &Options) {
    println!("\n{}", kind.name);
    println!("  order  text's loop  two calls");
    let mut rows = vec![];
    for &n in &options.orders {
        let row = measure::measure(&mut work::Ways::new(kind, n), options.seconds);
        let Ratios { text, calls, times: [of_text, of_calls, of_tray], turns } = row;
        println!("  {n:>5}  {text:>11.2}  {calls:>9.2}   ({of_text:.0}, {of_calls:.0}, {of_tray:.0}; {turns})");
        rows.push((n, text, calls));
    }
    println!();
    plot::print(&rows);
}
