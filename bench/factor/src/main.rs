//! factor [--seconds S] [--only WORD] [--orders N,N,..]: how many times the text's time the port takes less, for each call and order.
//! What the text does not have is measured against what its line names.
//!
//! Both run in turn on the same matrices, many to a turn at small orders; the ratio is that of the two medians. A ratio above 1 says that the
//! port is faster. Copies of the given matrices are made before the clock starts. What the text allocates for its result is part of its time.

mod handheld;
mod measure;
mod plain;
mod work;

use std::process::ExitCode;

use measure::Pair;
use work::{OF_ORDER_3, WORKS};

const ORDERS: [usize; 8] = [3, 8, 16, 60, 128, 256, 512, 1024];

fn main() -> ExitCode {
    match options() {
        Some(options) => {
            run(&options);
            ExitCode::SUCCESS
        }
        None => {
            eprintln!("usage: factor [--seconds S] [--only WORD] [--orders N,N,..]");
            ExitCode::FAILURE
        }
    }
}

struct Options {
    /// For each call and order, about.
    seconds: f64,
    only: String,
    orders: Vec<usize>,
}

fn options() -> Option<Options> {
    let mut out = Options { seconds: 1.0, only: String::new(), orders: ORDERS.to_vec() };
    let mut words = std::env::args().skip(1);
    while let Some(word) = words.next() {
        let value = words.next()?;
        match word.as_str() {
            "--seconds" => out.seconds = value.parse().ok()?,
            "--only" => out.only = value,
            "--orders" => out.orders = value.split(',').map(|n| n.parse().ok()).collect::<Option<_>>()?,
            _ => return None,
        }
    }
    Some(out)
}

fn run(options: &Options) {
    println!(
        "text's time / port's time, medians of turns taken one after the other (microseconds: text, or what the line names, and port; turns)"
    );
    let of_any_order = WORKS.iter().map(|work| (work, &options.orders[..]));
    let of_order_3 = OF_ORDER_3.iter().map(|work| (work, &[3][..]));
    for (work, orders) in of_any_order.chain(of_order_3).filter(|(work, _)| work.name.contains(&options.only)) {
        println!("{}", work.name);
        for &n in orders {
            let Pair { text, port, turns } = (work.measure)(n, options.seconds);
            println!("  {n:>5}  {:>6.2}   ({:.3}, {:.3}; {turns})", text / port, text * 1e6, port * 1e6);
        }
    }
}
