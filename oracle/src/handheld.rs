//! The steps of the handheld (document 02, E13), from document 01's words for three rows: every entry by its name, each step of each row written out.
//! Nothing here comes from `paper`, whose steps are for any order.

use crate::call::{Matrix3, Pivots3};

const ALPHA: f64 = 0.6403882032022076;

/// The lower entries: a10 stands in row 1 of column 0.
#[derive(Clone, Copy)]
struct Lower {
    a00: f64,
    a10: f64,
    a20: f64,
    a11: f64,
    a21: f64,
    a22: f64,
}

impl Lower {
    fn of([[a00, a10, a20], [_, a11, a21], [_, _, a22]]: Matrix3) -> Lower {
        Lower { a00, a10, a20, a11, a21, a22 }
    }

    /// These below what stands above the diagonal.
    fn put([_, [above10, ..], [above20, above21, _]]: Matrix3, l: Lower) -> Matrix3 {
        [[l.a00, l.a10, l.a20], [above10, l.a11, l.a21], [above20, above21, l.a22]]
    }
}

/// What a step does: nothing to a zero column, a pivot of one row, a pivot of two.
enum Step {
    Zero,
    One(u32),
    Two(u32),
}

use Step::{One, Two, Zero};

fn size(x: f64) -> f64 {
    if x.is_sign_negative() { -x } else { x }
}

/// The greater of two sizes; a NaN is dropped beside a number.
fn greater(x: f64, y: f64) -> f64 {
    match (x.is_nan(), y.is_nan()) {
        (true, _) => y,
        (_, true) => x,
        _ if y > x => y,
        _ => x,
    }
}

pub fn factor(given: Matrix3) -> (Matrix3, Pivots3) {
    let mut l = Lower::of(given);
    let mut zeros = [false; 3];
    let mut pairs = [(0, 0); 3];
    let mut row_1_is_open = true;
    match first_choice(&l) {
        Zero => {
            zeros[0] = true;
            pairs[0] = (0, 1);
        }
        One(p) => {
            l = first_of_one(exchanged_for_one(l, p));
            pairs[0] = (p, 1);
        }
        Two(p) => {
            l = first_of_two(exchanged_for_two(l, p));
            pairs[0] = (p, 2);
            pairs[1] = (p, 2);
            row_1_is_open = false;
        }
    }
    let mut row_2_is_open = true;
    if row_1_is_open {
        match second_choice(&l) {
            Zero => {
                zeros[1] = true;
                pairs[1] = (1, 1);
            }
            One(p) => {
                if p == 2 {
                    (l.a11, l.a22) = (l.a22, l.a11);
                }
                l = second_of_one(l);
                pairs[1] = (p, 1);
            }
            Two(p) => {
                pairs[1] = (p, 2);
                pairs[2] = (p, 2);
                row_2_is_open = false;
            }
        }
    }
    if row_2_is_open {
        zeros[2] = greater(size(l.a22), 0.0) == 0.0;
        pairs[2] = (2, 1);
    }
    let mark = match zeros {
        [true, ..] => 1,
        [_, true, _] => 2,
        [.., true] => 3,
        _ => 0,
    };
    (Lower::put(given, l), Pivots3 { index: pairs.map(|(index, _)| index), size: pairs.map(|(_, size)| size), mark })
}

/// Row 0: of a10 and a20 the greater, of equal ones a10.
fn first_choice(l: &Lower) -> Step {
    let diag = size(l.a00);
    let (imax, colmax) = if size(l.a20) > size(l.a10) { (2, size(l.a20)) } else { (1, size(l.a10)) };
    if greater(diag, colmax) == 0.0 {
        return Zero;
    }
    let enough = ALPHA * colmax;
    let too_small = diag < enough;
    if !too_small {
        return One(0);
    }
    // row 1 goes on below its diagonal, row 2 ends at it
    let (rowmax, candidate) = match imax {
        1 => (greater(greater(0.0, size(l.a10)), size(l.a21)), size(l.a11)),
        _ => (greater(greater(0.0, size(l.a20)), size(l.a21)), size(l.a22)),
    };
    if diag >= enough * (colmax / rowmax) {
        One(0)
    } else if candidate < ALPHA * rowmax {
        Two(imax)
    } else {
        One(imax)
    }
}

/// Row 1: there is a21 alone.
fn second_choice(l: &Lower) -> Step {
    let diag = size(l.a11);
    let colmax = size(l.a21);
    if greater(diag, colmax) == 0.0 {
        return Zero;
    }
    let enough = ALPHA * colmax;
    let too_small = diag < enough;
    if !too_small {
        return One(1);
    }
    let rowmax = greater(0.0, size(l.a21));
    if diag >= enough * (colmax / rowmax) {
        One(1)
    } else if size(l.a22) < ALPHA * rowmax {
        Two(2)
    } else {
        One(2)
    }
}

/// Row p and row 0.
fn exchanged_for_one(l: Lower, p: u32) -> Lower {
    match p {
        1 => Lower { a00: l.a11, a11: l.a00, a20: l.a21, a21: l.a20, ..l },
        2 => Lower { a00: l.a22, a22: l.a00, a10: l.a21, a21: l.a10, ..l },
        _ => l,
    }
}

/// Row p and row 1.
fn exchanged_for_two(l: Lower, p: u32) -> Lower {
    match p {
        2 => Lower { a11: l.a22, a22: l.a11, a10: l.a20, a20: l.a10, ..l },
        _ => l,
    }
}

fn first_of_one(l: Lower) -> Lower {
    let inv = 1.0 / l.a00;
    Lower {
        a11: l.a11 + (l.a10 * -inv) * l.a10,
        a21: l.a21 + (l.a20 * -inv) * l.a10,
        a22: l.a22 + (l.a20 * -inv) * l.a20,
        a10: l.a10 * inv,
        a20: l.a20 * inv,
        ..l
    }
}

fn second_of_one(l: Lower) -> Lower {
    let inv = 1.0 / l.a11;
    Lower { a22: l.a22 + (l.a21 * -inv) * l.a21, a21: l.a21 * inv, ..l }
}

fn first_of_two(l: Lower) -> Lower {
    let d = size(l.a10);
    let (d11, d22, d21) = (l.a11 / d, l.a00 / d, l.a10 / d);
    let multiplier = 1.0 / (d * (d11 * d22 - 1.0));
    let w1 = (l.a20 * d11 - l.a21 * d21) * multiplier;
    let w2 = (l.a21 * d22 - l.a20 * d21) * multiplier;
    Lower { a22: (l.a22 - l.a20 * w1) - l.a21 * w2, a20: w1, a21: w2, ..l }
}

/// The blocks of sound pivots: row 0 is exchanged with p, row 1 with q. A block of rows 1 and 2 is exchanged with no other.
enum Blocks {
    OneOneOne { p: usize, q: usize },
    OneTwo { p: usize },
    TwoOne { q: usize },
}

pub fn solve(matrix: Matrix3, pivots: Pivots3, side: [f64; 3]) -> (u64, [f64; 3]) {
    let blocks = match sound(&pivots) {
        Ok(blocks) => blocks,
        Err(place) => return (5 * 4096 + place, side),
    };
    if pivots.mark != 0 {
        return (6 * 4096 + u64::from(pivots.mark) - 1, side);
    }
    let l = Lower::of(matrix);
    let solved = match blocks {
        Blocks::OneOneOne { p, q } => by_three_rows(&l, p, q, side),
        Blocks::OneTwo { p } => by_one_and_two(&l, p, side),
        Blocks::TwoOne { q } => by_two_and_one(&l, q, side),
    };
    (0, solved)
}

/// The blocks, or the place at which the pivots break the rule: the row, or 3 for the mark.
fn sound(pivots: &Pivots3) -> Result<Blocks, u64> {
    let [(i0, s0), (i1, s1), (i2, s2)] = [0, 1, 2].map(|k| (pivots.index[k], pivots.size[k]));
    let last_row = (i2, s2) == (2, 1);
    // document 02: a mark names a row of size 1 whose index is that row
    let (blocks, own) = match (s0, s1) {
        (1, _) if i0 > 2 => return Err(0),
        (1, 1) if i1 != 1 && i1 != 2 => return Err(1),
        (1, 1) if !last_row => return Err(2),
        (1, 1) => (Blocks::OneOneOne { p: i0 as usize, q: i1 as usize }, [i0 == 0, i1 == 1, true]),
        (1, 2) if (i1, i2, s2) != (2, 2, 2) => return Err(1),
        (1, 2) => (Blocks::OneTwo { p: i0 as usize }, [i0 == 0, false, false]),
        (1, _) => return Err(1),
        (2, _) if i0 != 1 && i0 != 2 => return Err(0),
        (2, _) if (i1, s1) != (i0, 2) => return Err(0),
        (2, _) if !last_row => return Err(2),
        (2, _) => (Blocks::TwoOne { q: i0 as usize }, [false, false, true]),
        _ => return Err(0),
    };
    let marked = match pivots.mark {
        0 => true,
        1 => own[0],
        2 => own[1],
        3 => own[2],
        _ => false,
    };
    if marked { Ok(blocks) } else { Err(3) }
}

/// The two numbers of a block of two rows: d0 and d1 on its diagonal, x between them.
fn divided(d0: f64, x: f64, d1: f64, b0: f64, b1: f64) -> (f64, f64) {
    let det = d0 * d1 - x * x;
    ((b0 * d1 - b1 * x) / det, (b1 * d0 - b0 * x) / det)
}

fn by_three_rows(l: &Lower, p: usize, q: usize, mut b: [f64; 3]) -> [f64; 3] {
    b.swap(0, p);
    b = [b[0], b[1] - l.a10 * b[0], b[2] - l.a20 * b[0]];
    b.swap(1, q);
    b = [b[0], b[1], b[2] - l.a21 * b[1]];
    b = [b[0] / l.a00, b[1] / l.a11, b[2] / l.a22];
    b = [b[0], b[1] - l.a21 * b[2], b[2]];
    b.swap(1, q);
    b = [(b[0] - l.a10 * b[1]) - l.a20 * b[2], b[1], b[2]];
    b.swap(0, p);
    b
}

fn by_one_and_two(l: &Lower, p: usize, mut b: [f64; 3]) -> [f64; 3] {
    b.swap(0, p);
    b = [b[0], b[1] - l.a10 * b[0], b[2] - l.a20 * b[0]];
    let (b1, b2) = divided(l.a11, l.a21, l.a22, b[1], b[2]);
    b = [b[0] / l.a00, b1, b2];
    b = [(b[0] - l.a10 * b[1]) - l.a20 * b[2], b[1], b[2]];
    b.swap(0, p);
    b
}

fn by_two_and_one(l: &Lower, q: usize, mut b: [f64; 3]) -> [f64; 3] {
    b.swap(1, q);
    b = [b[0], b[1], (b[2] - l.a20 * b[0]) - l.a21 * b[1]];
    let (b0, b1) = divided(l.a00, l.a10, l.a11, b[0], b[1]);
    b = [b0, b1, b[2] / l.a22];
    b = [b[0] - l.a20 * b[2], b[1] - l.a21 * b[2], b[2]];
    b.swap(1, q);
    b
}
