//! Solves a system by LBLT, and another by a Cholesky that grows by batches, of which one came twice: `cargo run --example solve`.

use urgyelpat::{first_twin, BatchRefusal, Cholesky, LBLT};

fn main() -> Result<(), BatchRefusal> {
    // the symmetric matrix 4 2 / 2 3, column by column; above the diagonal nothing is read
    let matrix = vec![4.0, 2.0, 0.0, 3.0];
    if let Some(twins) = first_twin(&matrix, 2, 2)? {
        println!("rows {} and {} are the same", twins.p, twins.q);
    }
    let factor = LBLT::new(matrix, 2, 1116)?; // 1116 is the run number, here the day
    println!("x = {:?}", factor.solve(&[8.0, 8.0])?);
    println!("determinant {}", factor.determinant());

    let mut batches = Cholesky::default();
    batches.extend(&[4.0])?; // row 0
    batches.extend(&[2.0, 3.0])?; // row 1, up to its diagonal
    let mut batch = vec![2.0, 3.0, 3.0, 2.0, 1.0, 1.0, 10.0]; // row 1 once more, as row 2, and row 3
    while let Err(refusal) = batches.extend(&batch) {
        println!("refused: {refusal}");
        match refusal {
            BatchRefusal::Twins(twins) => batch = batches.batch_without(&batch, twins.q)?,
            BatchRefusal::Refused(_) => return Err(refusal),
        }
    }
    println!("{} rows stand, l = {:?}", batches.order(), batches.l());
    println!("x = {:.3?}", batches.solve(&[14.0, 11.0, 34.0])?);
    Ok(())
}
