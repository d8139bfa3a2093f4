//! Document 02's tray, answered by the text and by the steps, and held against their factor and solve of each item.

use std::collections::BTreeSet;

use oracle::call::{Call, Calls, Case, Outcome, record_length, words};
use oracle::cases::{fill, largest_trays, tray_refusals, trays, trays_of_all_orders, trays_of_many, trays_small};
use oracle::line::{case_line, outcome_line, parse_case};
use oracle::list::Machine;
use oracle::paper::Paper;
use oracle::text::Text;
use oracle::tray::{MOST_ITEMS, MOST_ORDER, kept, with_another, without};

const BOTH: [&dyn Calls; 2] = [&Text, &Paper];

const NAN: f64 = f64::NAN;

/// Matrices of order 2 by their lower rows, side by side; above each diagonal a number of its own.
fn of_two(items: &[[f64; 3]]) -> Vec<f64> {
    items.iter().enumerate().flat_map(|(item, &[x, y, z])| [x, y, fill(item), z]).collect()
}

fn lent(n: usize, a: Vec<f64>, b: Vec<f64>, runs: Vec<u32>) -> Case {
    let count = runs.len();
    Case { x: count, b, record: vec![9; count * record_length(n)], answers: vec![u64::MAX; count], runs, ..Case::new(Call::LbltTray, n, a) }
}

/// Document 01's matrices of order 2 as one tray: a block of two rows, an exchange, a mark, and one that stays; each has its own record, run number and
/// answer, and the marked one keeps its side.
#[test]
fn worked() {
    let a = of_two(&[[0.0, 1.0, 0.0], [0.0, 1.0, 4.0], [0.0, NAN, 5.0], [4.0, 2.0, 3.0]]);
    let b = vec![3.0, 5.0, 1.0, 2.0, NAN, -0.0, 8.0, 8.0];
    let case = lent(2, a, b, vec![7, 0, u32::MAX, 7]);
    for calls in BOTH {
        let found = case.outcome(calls);
        assert_eq!((found.answer, &found.answers[..]), (0, &[0, 0, 6 << 12, 0][..]));
        assert_eq!(found.a, words(&of_two(&[[0.0, 1.0, 0.0], [4.0, 0.25, -0.25], [0.0, NAN, 5.0], [4.0, 0.5, 2.0]])));
        assert_eq!(found.b, words(&[5.0, 3.0, -2.0, 1.0, NAN, -0.0, 1.0, 2.0]));
        let records = [[1, 2, 1, 2, 0, 7], [1, 1, 1, 1, 0, 0], [0, 1, 1, 1, 1, u32::MAX], [0, 1, 1, 1, 0, 7]];
        assert_eq!((found.record, found.runs), (records.concat(), case.runs.clone()));
    }
}

/// No rows, and no items.
#[test]
fn nothing_to_solve() {
    for calls in BOTH {
        let found = lent(0, vec![], vec![], vec![5, 6]).outcome(calls);
        assert_eq!((found.answer, found.answers, found.record), (0, vec![0, 0], vec![0, 5, 0, 6]));
        for n in [0, 1, 3, MOST_ORDER] {
            assert_eq!(lent(n, vec![], vec![], vec![]).outcome(calls), Outcome::default());
        }
    }
}

/// Document 02: 1 for a count above 1,024 or an order above 64, then 3, then 4; nothing is written.
#[test]
fn refused() {
    let hold = |code: u64, n: usize, count: usize, lengths: [usize; 5]| {
        let [a, record, b, runs, answers] = lengths;
        let case = Case {
            x: count,
            record: vec![9; record],
            b: vec![-1.0; b],
            runs: vec![9; runs],
            answers: vec![9; answers],
            ..Case::new(Call::LbltTray, n, vec![-1.0; a])
        };
        for calls in BOTH {
            let found = case.outcome(calls);
            assert_eq!(found.answer, code << 12, "order {n}, {count} items, {lengths:?}");
            assert_eq!(found, kept(&case, calls));
            let given = (&words(&case.a), &words(&case.b), &case.record, &case.answers);
            assert_eq!((&found.a, &found.b, &found.record, &found.answers), given);
        }
    };
    let lengths = |n: usize, count: usize| [n * n, record_length(n), n, 1, 1].map(|each| count * each);
    for far in [MOST_ORDER + 1, 100, 1024, 1025, 1 << 32, 1 << 63, usize::MAX] {
        hold(1, far, 2, [2, 8, 2, 2, 2]);
        hold(1, far, 0, [0; 5]);
        hold(1, far, far, [0; 5]);
    }
    for far in [MOST_ITEMS + 1, 2000, 1 << 32, 1 << 63, usize::MAX] {
        hold(1, 1, far, [2, 8, 2, 2, 2]);
        hold(1, 0, far, [0; 5]);
    }
    hold(1, MOST_ORDER + 1, 1, lengths(MOST_ORDER + 1, 1));
    hold(1, 0, MOST_ITEMS + 1, lengths(0, MOST_ITEMS + 1));
    for (n, count) in [(1, 1), (2, 3), (3, 2), (MOST_ORDER, 1), (1, MOST_ITEMS)] {
        let whole = lengths(n, count);
        for which in 0..5 {
            for wrong in [0, whole[which] - 1, whole[which] + 1] {
                let mut lengths = whole;
                lengths[which] = wrong;
                hold(if which == 0 { 3 } else { 4 }, n, count, lengths);
                lengths[0] += 2;
                hold(3, n, count, lengths);
            }
        }
    }
    hold(3, MOST_ORDER, MOST_ITEMS, [0; 5]);
    hold(4, 0, MOST_ITEMS, [0; 5]);
}

fn hold(case: &Case, calls: &dyn Calls) -> Outcome {
    let found = case.outcome(calls);
    assert!(kept(case, calls) == found, "{}", case_line(case));
    found
}

/// The cases that need no chance, and some that do: both answer alike, as their factor and solve of each item do; every order is among them, marked and
/// solved, and at the greatest order every row is marked.
#[test]
fn item_by_item() {
    let fixed = [trays_small(), trays_of_all_orders(), tray_refusals(), largest_trays()];
    let mut seen = BTreeSet::new();
    let (mut counts, mut codes) = (BTreeSet::new(), BTreeSet::new());
    let mut mixed = 0;
    for case in fixed.into_iter().flatten().chain(trays_of_many().step_by(20)).chain((1..=3000).flat_map(trays)) {
        let [text, steps] = BOTH.map(|calls| hold(&case, calls));
        assert!(text == steps, "{}", case_line(&case));
        codes.insert(text.answer);
        if text.answer == 0 {
            counts.insert(case.x);
            mixed += usize::from(text.answers.windows(3).any(|w| w[0] == 0 && w[1] != 0 && w[2] == 0));
            seen.extend(text.answers.iter().map(|&answer| (case.n, answer)));
        }
    }
    assert_eq!(codes, BTreeSet::from([0, 1 << 12, 3 << 12, 4 << 12]));
    assert!((0..10).chain([MOST_ITEMS]).all(|count| counts.contains(&count)));
    assert!(mixed > 500, "{mixed} trays with a marked item between solved ones");
    for n in 0..=MOST_ORDER {
        assert!(seen.contains(&(n, 0)), "order {n} is solved");
    }
    for n in 1..=MOST_ORDER as u64 {
        for row in [0, n / 2, n - 1] {
            assert!(seen.contains(&(n as usize, 6 << 12 | row)), "order {n} is marked in row {row}");
        }
    }
    assert!((0..64).all(|row| seen.contains(&(MOST_ORDER, 6 << 12 | row))));
}

/// With another item in one place, the others get what they got.
#[test]
fn neighbours() {
    for case in trays_small().into_iter().step_by(7).chain((1..=500).flat_map(trays)) {
        for calls in BOTH {
            let first = case.outcome(calls);
            for item in 0..if first.answer == 0 { case.x.min(5) } else { 0 } {
                let changed = with_another(&case, item);
                assert_ne!(changed.runs[item], case.runs[item]);
                let found = hold(&changed, calls);
                assert!(without(&first, case.n, item) == without(&found, case.n, item), "{} at {item}", case_line(&case));
            }
        }
    }
}

/// What is kept turns down an outcome with any other answer, number or word; without an item, all but that one's.
#[test]
fn kept_is_all_of_it() {
    let case = lent(2, of_two(&[[0.0, 1.0, 4.0], [0.0, NAN, 5.0]]), vec![1.0, 2.0, 3.0, 4.0], vec![7, 8]);
    let short = Case { b: vec![1.0; 3], ..case.clone() };
    for calls in BOTH {
        for case in [&case, &short] {
            let found = hold(case, calls);
            assert_ne!(Outcome { answer: found.answer ^ 1, ..found.clone() }, kept(case, calls));
            for at in 0..case.size() {
                let mut changed = found.clone();
                change(&mut changed, at);
                assert_ne!(changed, kept(case, calls));
                if found.answer == 0 {
                    let of_the_second = [4, 5, 6, 7, 10, 11, 13, 20, 21, 22, 23, 24, 25, 27].contains(&at);
                    assert_eq!(without(&changed, 2, 1) == without(&found, 2, 1), of_the_second, "place {at}");
                }
            }
        }
    }
}

/// Changes the last bit of a number or word, counted through A, B, answers, records and run numbers.
fn change(left: &mut Outcome, at: usize) {
    let Outcome { a, b, answers, record, runs, .. } = left;
    match at.checked_sub(a.len() + b.len() + answers.len()) {
        None => *a.iter_mut().chain(b).chain(answers).nth(at).expect("a number") ^= 1,
        Some(at) => *record.iter_mut().chain(runs).nth(at).expect("a word") ^= 1,
    }
}

/// A tray as a line, and in a stored list.
#[test]
fn written_down() {
    let line = "lblt_tray 1 2 ; 4000000000000000 0000000000000000 ; 00000009 00000009 00000009 00000009 00000009 00000009 00000009 00000009 ; \
                4010000000000000 4008000000000000 ; 00000007 ffffffff ; 0000000000000001 ffffffffffffffff";
    let case = parse_case(line).unwrap();
    assert_eq!((case.n, case.x, case.runs.len(), case.answers[1], case.second(), case.third()), (1, 2, 2, u64::MAX, 2, 2));
    assert_eq!(case_line(&case), line);
    assert!(parse_case(&line.replace("tray 1 2", "tray 1")).is_err());
    assert!(parse_case(&line.replace(" ; 00000007 ffffffff", "")).is_err());
    let [two, three, four] = [2.0f64, 3.0, 4.0].map(f64::to_bits);
    let set = |which: u64, words: &[u64]| [&[2 | which << 8 | (words.len() as u64) << 16][..], words].concat();
    let same = |which: u64, words: &[u64]| [&[7 | which << 8 | (words.len() as u64) << 16][..], words].concat();
    let call = |numbers: [u64; 4]| [&[6 | 30 << 8][..], &numbers, &[0]].concat();
    let list = [
        set(0, &[two, 0]),
        set(3, &[9; 8]),
        set(1, &[four, three]),
        set(2, &[7, 0xffff_ffff, 5, 5]),
        // one run number, and three answers
        call([1, 2, 1, 4 << 12]),
        call([1, 1025, 2, 1 << 12]),
        call([65, 2, 2, 1 << 12]),
        call([1, 1, 2, 3 << 12]),
        same(3, &[9; 8]),
        same(2, &[7, 0xffff_ffff, 5, 5]),
        call([1, 2, 2, 0]),
        same(0, &[two, 0]),
        same(3, &[0, 1, 0, 7, 0, 1, 1, 0xffff_ffff]),
        same(1, &[two, three]),
        same(2, &[7, 0xffff_ffff, 0, 6 << 12]),
    ]
    .concat();
    for calls in BOTH {
        let found = outcome_line(&case, &case.outcome(calls));
        assert!(found.starts_with("0 ; 4000000000000000 ") && found.ends_with(" ; 00000007 ffffffff ; 0000000000000000 0000000000006000"));
        let mut machine = Machine::new(calls);
        machine.replay(&list);
        assert_eq!((machine.calls_made, machine.differences), (5, vec![]));
    }
}
