//! Solves a system by a packed LBLT, and another by a packed Cholesky that grows by batches: `cargo run --example packed`.

use urgyelpat::{packed, BatchRefusal, PackedCholesky, PackedLBLT};

fn main() -> Result<(), BatchRefusal> {
    // the symmetric matrix 4 2 / 2 3: its lower part, column by column, each from its diagonal down
    let matrix = packed::pack(&[4.0, 2.0, 2.0, 3.0], 2)?;
    println!("packed {matrix:?}");
    let factor = PackedLBLT::new(matrix, 2, 1117)?; // 1117 is the run number, here the day
    println!("x = {:?}", factor.solve(&[8.0, 8.0])?);
    println!("determinant {}", factor.determinant());

    let mut batches = PackedCholesky::default();
    batches.extend(&[4.0])?; // row 0
    batches.extend(&[2.0, 3.0, 1.0, 1.0, 10.0])?; // rows 1 and 2, each up to its diagonal
    if let Err(refusal) = batches.extend(&[2.0, 3.0, 1.0, 3.0]) {
        println!("refused: {refusal}"); // row 1 once more, as row 3: nothing has changed
    }
    println!("{} rows stand, l = {:?}", batches.order(), batches.matrix());
    println!("x = {:.3?}", batches.solve(&[14.0, 11.0, 34.0])?);
    Ok(())
}
