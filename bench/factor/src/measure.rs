//! Two ways to do one thing, timed in turn.

use std::time::Instant;

/// Medians in seconds for one call.
pub struct Pair {
    pub text: f64,
    pub port: f64,
    pub turns: usize,
}

/// A turn does the work `many` times on fresh copies and answers the seconds spent on the calls alone.
pub type Turn<'a> = &'a mut dyn FnMut(usize) -> f64;

/// A turn lasts about this long at least, so that the clock does not show.
const TURN: f64 = 2e-4;

pub fn pair(seconds: f64, text: Turn, port: Turn) -> Pair {
    let many = enough(text).max(enough(port));
    let once = text(many) + port(many);
    let least = if once > 1.0 { 3 } else { 7 };
    let turns = ((seconds / once) as usize).clamp(least, 201);
    let (mut of_text, mut of_port) = (vec![], vec![]);
    for turn in 0..turns {
        // neither is always the first
        if turn % 2 == 0 {
            of_text.push(text(many) / many as f64);
            of_port.push(port(many) / many as f64);
        } else {
            of_port.push(port(many) / many as f64);
            of_text.push(text(many) / many as f64);
        }
    }
    Pair { text: median(of_text), port: median(of_port), turns }
}

fn enough(turn: Turn) -> usize {
    let mut many = 1;
    while many < 1 << 16 && turn(many) < TURN {
        many *= 2;
    }
    many
}

fn median(mut times: Vec<f64>) -> f64 {
    times.sort_by(f64::total_cmp);
    times[times.len() / 2]
}

/// The seconds of `call` over all items where they stand, without the time to make or to drop them.
pub fn timed_in_place<A>(mut items: Vec<A>, mut call: impl FnMut(&mut A)) -> f64 {
    let start = Instant::now();
    for item in &mut items {
        call(item);
    }
    let spent = start.elapsed().as_secs_f64();
    std::hint::black_box(&items);
    spent
}

/// The seconds of `call` over all items, which it takes and gives back, without the time to make or to drop them.
pub fn timed<A, B>(items: Vec<A>, mut call: impl FnMut(A) -> B) -> f64 {
    let mut kept = Vec::with_capacity(items.len());
    let start = Instant::now();
    for item in items {
        kept.push(call(item));
    }
    let spent = start.elapsed().as_secs_f64();
    std::hint::black_box(&kept);
    spent
}
