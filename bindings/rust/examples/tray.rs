//! Solves a tray of sockets in one call, of which one has a row that came twice: `cargo run --example tray`.

use urgyelpat::{lblt, Refusal};

const ORDER: usize = 3;
const COUNT: usize = 4;

fn main() -> Result<(), Refusal> {
    // the lower parts of the matrices, column by column and end to end; above the diagonals nothing is read
    let mut a = [
        [0.0, 2.0, 1.0, 0.0, 0.0, 4.0, 0.0, 0.0, 5.0],
        [1.0, 1.0, 2.0, 0.0, 1.0, 2.0, 0.0, 0.0, 8.0], // row 0 came twice, as row 1
        [4.0, 2.0, 6.0, 0.0, 5.0, 5.0, 0.0, 0.0, 14.0],
        [2.0, 0.0, 0.0, 0.0, 4.0, 0.0, 0.0, 0.0, 8.0],
    ]
    .concat();
    let mut b = [
        [7.0, 14.0, 24.0],
        [7.0, 14.0, 24.0],
        [26.0, 21.0, 51.0],
        [6.0, 8.0, 8.0],
    ]
    .concat();
    let runs = [1116, 1117, 1118, 1119]; // a run number for each
    let mut records = [0; COUNT * (2 * ORDER + 2)];
    let mut answers = [0; COUNT];

    // room for three answers alone: the tray is refused as a whole, and nothing is written
    if let Err(refusal) = lblt::tray(&mut a, &mut records, &mut b, &runs, &mut answers[..3], ORDER, COUNT) {
        println!("the tray is refused: {refusal}");
    }

    let tray = lblt::tray(&mut a, &mut records, &mut b, &runs, &mut answers, ORDER, COUNT)?;
    for item in tray.iter() {
        match item.solution() {
            Ok(x) => println!("run {}: x = {x:?}", item.run()),
            Err(refusal) => {
                let row = refusal.place();
                println!("run {}: refused by {}", item.run(), refusal.code());
                println!("  row {row} of the factor is row {} as sent", item.callers_row(row));
            }
        }
    }
    Ok(())
}
