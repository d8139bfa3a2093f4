//! Solves three unknowns by value, as a pocket probe does: `cargo run --example handheld`.

use urgyelpat::handheld::{self, Pivots};
use urgyelpat::Refusal;

fn main() -> Result<(), Refusal> {
    // the symmetric matrix 0 2 1 / 2 0 4 / 1 4 5, column by column; above the diagonal nothing is looked at
    let factor = handheld::factor([[0.0, 2.0, 1.0], [0.0, 0.0, 4.0], [0.0, 0.0, 5.0]]);
    println!("x = {:?}", factor.solve([7.0, 14.0, 24.0])?);

    // row 0 came twice, as row 1: nothing is left of one of them, and it is marked
    let marked = handheld::factor([[1.0, 1.0, 2.0], [0.0, 1.0, 2.0], [0.0, 0.0, 8.0]]);
    if let Err(refusal) = marked.solve([7.0, 14.0, 24.0]) {
        println!("refused: {refusal}");
        println!(
            "row {} of the factor is row {} as sent",
            refusal.place(),
            marked.callers_row(refusal.place())
        );
    }

    // the factor and its pivots are stored, and a word of the pivots is damaged
    let (matrix, pivots) = (factor.matrix(), factor.pivots());
    let damaged = Pivots {
        index: [1, 3, 2],
        ..pivots
    };
    if let Err(refusal) = handheld::solve(matrix, damaged, [7.0, 14.0, 24.0]) {
        println!("refused: {refusal}");
    }
    println!("x = {:?}", handheld::solve(matrix, pivots, [7.0, 14.0, 24.0])?);
    Ok(())
}
