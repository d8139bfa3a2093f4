//! A point sent twice into a fit with a smoothing term: A = K + λ·I, K from the points by the kernel 2^−|x − y|. The two rows differ where the
//! term stands, so that they are no twins; the fit counts the point twice, as if it stood once with half its term.

use oracle::call::{Calls, record_length};
use oracle::paper::Paper;
use oracle::text::Text;

#[derive(Clone, Copy)]
struct Point {
    x: i32,
    value: f64,
    /// The smoothing term on its diagonal.
    term: f64,
}

fn kernel(x: i32, y: i32) -> f64 {
    2f64.powi(-(x - y).abs())
}

fn matrix(points: &[Point]) -> Vec<f64> {
    let n = points.len();
    let entry = |i: usize, j: usize| kernel(points[i].x, points[j].x) + if i == j { points[i].term } else { 0.0 };
    (0..n * n).map(|at| entry(at % n, at / n)).collect()
}

fn print_rows(a: &[f64], n: usize) {
    for i in 0..n {
        let row: String = (0..n).map(|j| format!(" {:>7}", a[i + j * n])).collect();
        println!("  row {i}:{row}");
    }
}

fn twins(a: &[f64], n: usize) -> String {
    match Paper.first_twin(a, n, n) {
        0 => "none".into(),
        pair => format!("rows {} and {}", pair % 4096, pair / 4096 - 4096),
    }
}

/// The weights, by the text's LBLT: A·w = values.
fn weights(points: &[Point]) -> Vec<f64> {
    let n = points.len();
    let (mut a, mut record) = (matrix(points), vec![0; record_length(n)]);
    let mut w: Vec<f64> = points.iter().map(|p| p.value).collect();
    assert_eq!(Text.lblt_factor(&mut a, &mut record, n, 0), 0);
    assert_eq!(Text.lblt_solve(&a, &record, &mut w, n, 1, 0), 0, "the matrix is singular");
    println!("  determinant {:.6}", Text.lblt_determinant(&a, &record, n, 0).1);
    w
}

/// What the fit says at each place.
fn fit(points: &[Point], w: &[f64], places: &[i32]) -> Vec<f64> {
    places.iter().map(|&x| points.iter().zip(w).map(|(p, w)| w * kernel(x, p.x)).sum()).collect()
}

fn numbers(s: &[f64]) -> String {
    s.iter().map(|x| format!(" {x:>9.6}")).collect()
}

fn largest_difference(s: &[f64], t: &[f64]) -> f64 {
    s.iter().zip(t).map(|(x, y)| (x - y).abs()).fold(0.0, f64::max)
}

fn main() {
    let term = 0.25;
    let once = [(0, 1.0), (1, 3.0), (3, 2.0), (4, 5.0)].map(|(x, value)| Point { x, value, term });
    let twice = [once[0], once[1], once[1], once[2], once[3]];
    let mut halved = once;
    halved[1].term = term / 2.0;
    let places = [0, 1, 2, 3, 4];

    println!("points at 0, 1, 3, 4 with the values 1, 3, 2, 5; the point at 1 came twice");
    let bare = matrix(&twice.map(|p| Point { term: 0.0, ..p }));
    println!("without a smoothing term:");
    print_rows(&bare, 5);
    println!("  first_twin: {}", twins(&bare, 5));
    let a = matrix(&twice);
    println!("with the smoothing term {term}:");
    print_rows(&a, 5);
    let differ: Vec<usize> = (0..5).filter(|k| a[1 + k * 5] != a[2 + k * 5]).collect();
    println!("  rows 1 and 2 differ at {differ:?}; first_twin: {}", twins(&a, 5));

    println!("the point once:");
    let w = weights(&once);
    println!("  weights          {}", numbers(&w));
    println!("  fit at 0 to 4    {}", numbers(&fit(&once, &w, &places)));
    println!("the point twice:");
    let double = weights(&twice);
    let counted_twice = fit(&twice, &double, &places);
    println!("  weights          {}", numbers(&double));
    println!("  fit at 0 to 4    {}", numbers(&counted_twice));
    println!("the point once, with half its term:");
    let half = weights(&halved);
    let half_fit = fit(&halved, &half, &places);
    println!("  weights          {}", numbers(&half));
    println!("  fit at 0 to 4    {}", numbers(&half_fit));
    let together = [double[0], double[1] + double[2], double[3], double[4]];
    println!("twice against once with half the term:");
    println!(
        "  the fits differ by at most {:.0e}, the weights (the two of the point added) by at most {:.0e}",
        largest_difference(&counted_twice, &half_fit),
        largest_difference(&together, &half)
    );
}
