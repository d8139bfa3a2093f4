//! Three ways to do one thing, timed in turn.

use std::time::Instant;

use crate::work::Ways;

pub struct Ratios {
    /// The text's time over the tray's.
    pub text: f64,
    /// The time of the port's two calls over the tray's.
    pub calls: f64,
    /// Nanoseconds an item: the text, the two calls, the tray.
    pub times: [f64; 3],
    pub turns: usize,
}

/// Every order in which the three can stand.
const TURNS: [[usize; 3]; 6] = [[0, 1, 2], [2, 1, 0], [1, 2, 0], [0, 2, 1], [2, 0, 1], [1, 0, 2]];

const MOST: usize = 200;

pub fn measure(ways: &mut Ways, seconds: f64) -> Ratios {
    ways.agree();
    let (mut text, mut calls) = (vec![], vec![]);
    let mut times = [vec![], vec![], vec![]];
    let began = Instant::now();
    while text.len() < TURNS.len() || (text.len() < MOST && began.elapsed().as_secs_f64() < seconds) {
        let mut spent = [0.0; 3];
        for way in TURNS[text.len() % TURNS.len()] {
            spent[way] = match way {
                0 => ways.text(),
                1 => ways.calls(),
                _ => ways.tray(),
            };
        }
        text.push(spent[0] / spent[2]);
        calls.push(spent[1] / spent[2]);
        for way in 0..3 {
            times[way].push(spent[way] * 1e9 / ways.items() as f64);
        }
    }
    let turns = text.len();
    Ratios { text: median(text), calls: median(calls), times: times.map(median), turns }
}

fn median(mut of: Vec<f64>) -> f64 {
    of.sort_by(f64::total_cmp);
    of[of.len() / 2]
}
