//! Gives a Cholesky that grows by batches a substitute for diagonals that fail, and looks at the count:
//! `cargo run --example substitute`.

use urgyelpat::{BatchRefusal, Cholesky};

fn main() -> Result<(), BatchRefusal> {
    let mut model = Cholesky::default();
    model.extend(&[4.0, 2.0, 5.0])?; // rows 0 and 1, each up to its diagonal
    let batch = [6.0, 5.0, 9.0]; // row 2, which leaves -1 on its diagonal
    if let Err(refusal) = model.extend(&batch) {
        println!("refused: {refusal}");
    }

    // with 4 in its place the row is taken: the count alone tells that the model is not that of the rows which came
    let columns = model.extend_with_substitute(&batch, 4.0)?;
    println!("columns of the batch that used the substitute: {columns}");
    println!("{} rows stand, l = {:?}", model.order(), model.l());

    // a row that came twice is told before, whatever the substitute
    if let Err(refusal) = model.extend_with_substitute(&[6.0, 5.0, 9.0, 9.0], 4.0) {
        println!("refused: {refusal}");
    }
    match model.substituted() {
        0 => println!("x = {:?}", model.solve(&[12.0, 12.0, 20.0])?),
        columns => println!(
            "columns that used a substitute: {columns} of {}. Measure again",
            model.order()
        ),
    }
    Ok(())
}
