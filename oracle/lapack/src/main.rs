//! lapack paper|port MATRICES FIRST: `dsytf2` and `dpotf2` of liblapack beside the text; LAPACK's pivot lists and factors through the calls
//! of the port, or of document 01's and 02's steps.

mod fortran;
mod lists;
mod matrix;
mod special;
mod unfit;
mod witness;

use std::process::ExitCode;

use oracle::call::Calls;
use oracle::paper::Paper;

fn main() -> ExitCode {
    let words: Vec<String> = std::env::args().skip(1).collect();
    let [ours, matrices, first] = &words[..] else {
        eprintln!("usage: lapack paper|port MATRICES FIRST");
        return ExitCode::FAILURE;
    };
    let calls: &dyn Calls = match ours.as_str() {
        "paper" => &Paper,
        #[cfg(feature = "port")]
        "port" => &port::Port,
        _ => {
            eprintln!("{ours}: not here (the port needs the feature \"port\")");
            return ExitCode::FAILURE;
        }
    };
    let (Ok(matrices), Ok(first)) = (matrices.parse::<u64>(), first.parse::<u64>()) else {
        eprintln!("MATRICES and FIRST are numbers");
        return ExitCode::FAILURE;
    };
    let whose = if ours == "paper" { "the steps" } else { "the port" };
    println!("LAPACK {}, seeds {first} to {}; our calls: {whose}", fortran::version(), (first + matrices).saturating_sub(1));
    let held = [
        witness::symmetric(calls, matrices, first),
        witness::definite(matrices, first),
        witness::small(calls),
        lists::well_scaled(calls, matrices, first),
        lists::scaled(calls, matrices, first),
        unfit::other_lists(calls, matrices, first),
        special::numbers(calls, matrices, first),
    ];
    if held.iter().all(|&held| held) {
        ExitCode::SUCCESS
    } else {
        println!("NOT ALL HELD: see the lines with !");
        ExitCode::FAILURE
    }
}
