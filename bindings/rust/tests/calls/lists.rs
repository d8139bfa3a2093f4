//! LAPACK's pivot lists: read into a record, written from one, and the factors that go with them.

use crate::numbers::{apart, bits, product, Numbers};
use std::collections::HashSet;
use urgyelpat::pivots::{self, Listed};
use urgyelpat::{lblt, LapackPivots, Refusal, LARGEST, LBLT};

const RUNS: [u32; 6] = [0, 1, 7, 0x8000_0000, u32::MAX - 1, u32::MAX];

/// What stands in a record or a list before a call, and in none that a call writes.
const OLD_WORD: u32 = 0x9e9e_9e9e;
const OLD_NUMBER: i32 = -0x5e5e_5e5e;

/// A record of so many words, filled by the reader where that is done; a refusal leaves it.
fn read_into(words: usize, list: &[i32], info: i32, n: usize, run: u32) -> Result<Vec<u32>, Refusal> {
    let mut record = vec![OLD_WORD; words];
    let answer = pivots::from_lapack(list, info, &mut record, n, run);
    if answer.is_err() {
        assert_eq!(record, vec![OLD_WORD; words], "{list:?}, INFO {info}");
    }
    answer.map(|()| record)
}

fn read(list: &[i32], info: i32, run: u32) -> Result<Vec<u32>, Refusal> {
    read_into(2 * list.len() + 2, list, info, list.len(), run)
}

/// A list of so many numbers, filled by the writer where that is done; a refusal leaves it.
fn write_into(numbers: usize, record: &[u32], n: usize) -> Result<(Vec<i32>, Listed), Refusal> {
    let mut list = vec![OLD_NUMBER; numbers];
    let answer = pivots::to_lapack(record, &mut list, n);
    if answer.is_err() {
        assert_eq!(list, vec![OLD_NUMBER; numbers], "{record:?}");
    }
    answer.map(|listed| (list, listed))
}

fn write(record: &[u32]) -> Result<(Vec<i32>, Listed), Refusal> {
    let n = record.len() / 2 - 1;
    write_into(n, record, n)
}

/// A list and the record that it stands for: each is made of the other.
#[track_caller]
fn both_ways(list: &[i32], info: i32, record: &[u32]) {
    let run = record[record.len() - 1];
    assert_eq!(read(list, info, run).as_deref(), Ok(record), "{list:?}, INFO {info}");
    assert_eq!(write(record), Ok((list.to_vec(), Listed { info, run })), "{record:?}");
}

/// The answer that a list should get, by LAPACK's words: rows are counted from 1, and row k has the number `ipiv[k - 1]`.
fn judged(ipiv: &[i32], info: i32) -> Result<(), Refusal> {
    let n = ipiv.len() as i64;
    let at = |k: i64| i64::from(ipiv[k as usize - 1]);
    let mut k = 1;
    while k <= n {
        let p = at(k);
        if (k..=n).contains(&p) {
            k += 1; // a 1-by-1 block: rows k and p were interchanged
        } else if k < n && at(k + 1) == p && (k + 1..=n).contains(&-p) {
            k += 2; // a 2-by-2 block: rows k + 1 and -p were interchanged
        } else {
            return Err(Refusal::BadList { row: k as usize - 1 });
        }
    }
    let info = i64::from(info);
    if info == 0 || (1..=n).contains(&info) && at(info) == info {
        return Ok(());
    }
    Err(Refusal::BadList { row: n as usize })
}

/// The record of a list that was judged sound.
fn record_of(list: &[i32], info: i32, run: u32) -> Vec<u32> {
    let pair = |&p: &i32| [p.unsigned_abs() - 1, if p > 0 { 1 } else { 2 }];
    let mut record: Vec<u32> = list.iter().flat_map(pair).collect();
    record.extend([info as u32, run]);
    record
}

/// All rows of n among these.
fn every<T: Copy>(choices: &[T], n: usize) -> Vec<Vec<T>> {
    (0..n).fold(vec![vec![]], |shorter, _| {
        let longer = |list: Vec<T>| choices.iter().map(move |&last| [&list[..], &[last]].concat());
        shorter.into_iter().flat_map(longer).collect()
    })
}

/// All sound lists of n rows, those of the blocks from row k on, rows counted from 1.
fn sound_lists(k: i32, n: i32) -> Vec<Vec<i32>> {
    if k > n {
        return vec![vec![]];
    }
    let ones = (k..=n).flat_map(|p| {
        sound_lists(k + 1, n)
            .into_iter()
            .map(move |rest| [&[p], &rest[..]].concat())
    });
    let twos = (k + 1..=n).flat_map(|p| {
        sound_lists(k + 2, n)
            .into_iter()
            .map(move |rest| [&[-p, -p], &rest[..]].concat())
    });
    ones.chain(twos).collect()
}

#[test]
fn a_list_and_its_record_are_made_of_each_other() {
    for run in RUNS {
        both_ways(&[], 0, &[0, run]);
        both_ways(&[1], 0, &[0, 1, 0, run]);
        both_ways(&[1], 1, &[0, 1, 1, run]);
        both_ways(&[1, 2], 0, &[0, 1, 1, 1, 0, run]);
        both_ways(&[2, 2], 2, &[1, 1, 1, 1, 2, run]);
        both_ways(&[-2, -2], 0, &[1, 2, 1, 2, 0, run]);
        both_ways(&[-3, -3, 3], 3, &[2, 2, 2, 2, 2, 1, 3, run]);
        both_ways(&[1, -3, -3], 1, &[0, 1, 2, 2, 2, 2, 1, run]);
        both_ways(&[3, -4, -4, 4], 0, &[2, 1, 3, 2, 3, 2, 3, 1, 0, run]);
        both_ways(&[-4, -4, -4, -4], 0, &[3, 2, 3, 2, 3, 2, 3, 2, 0, run]);
    }
}

#[test]
fn every_small_list_is_read_or_refused_by_lapacks_words() {
    let numbers = [0, 1, 2, 3, 4, 5, -1, -2, -3, -4, -5, i32::MAX, i32::MIN];
    let mut done = 0;
    for n in 0..=4 {
        for list in every(&numbers, n) {
            for info in numbers {
                let answer = judged(&list, info);
                assert_eq!(
                    read(&list, info, 7),
                    answer.map(|()| record_of(&list, info, 7)),
                    "{list:?}, INFO {info}"
                );
                done += usize::from(answer.is_ok());
            }
        }
    }
    assert!(done > 100);
}

#[test]
fn every_sound_list_comes_back() {
    // with n rows to take for a first block of one, and n - 1 for a first block of two
    for (n, count) in [1, 1, 3, 11, 53, 309, 2119].into_iter().enumerate() {
        let lists = sound_lists(1, n as i32);
        assert_eq!(lists.len(), count, "order {n}");
        for list in lists {
            both_ways(&list, 0, &record_of(&list, 0, 7));
            for (row, &number) in list.iter().enumerate() {
                let info = row as i32 + 1;
                if number == info {
                    both_ways(&list, info, &record_of(&list, info, 7));
                } else {
                    assert_eq!(read(&list, info, 7), Err(Refusal::BadList { row: n }), "{list:?}");
                    let marked = record_of(&list, info, 7);
                    assert_eq!(write(&marked), Err(Refusal::BadRecord { row: n }), "{list:?}");
                }
            }
        }
    }
}

/// Whether another call accepts a record.
fn sound(record: &[u32], n: usize, run: u32) -> Result<(), Refusal> {
    lblt::determinant(&vec![1.0; n * n], record, n, run).map(|_| ())
}

#[test]
fn exactly_the_lists_of_sound_records_are_read() {
    let words = [0, 1, 2, 3, 4, u32::MAX];
    let numbers = [0, 1, 2, 3, 4, -1, -2, -3, -4, i32::MAX, i32::MIN];
    for n in 0..=2 {
        let mut written = HashSet::new();
        for pairs in every(&words, 2 * n) {
            for mark in words {
                let record = [&pairs[..], &[mark, 7]].concat();
                let answer = write(&record);
                assert_eq!(
                    answer.as_ref().map(|_| ()),
                    sound(&record, n, 7).as_ref().map(|_| ()),
                    "{record:?}"
                );
                if let Ok((list, listed)) = answer {
                    assert_eq!(read(&list, listed.info, listed.run), Ok(record));
                    assert!(written.insert((list, listed.info)), "two records as one list");
                }
            }
        }
        for list in every(&numbers, n) {
            for info in numbers {
                let answer = read(&list, info, 7);
                assert_eq!(
                    answer.is_ok(),
                    written.contains(&(list.clone(), info)),
                    "{list:?}, INFO {info}"
                );
            }
        }
        assert_eq!(written.len(), [1, 2, 6][n]);
    }
}

/// 1, 2 and 3 with bits beside them, and the ends of the range.
const FAR: [i32; 14] = [
    0x101,
    0x202,
    0x303,
    0x1_0001,
    0x1_0002,
    0x1_0003,
    0x4000_0001,
    0x4000_0002,
    0x4000_0003,
    i32::MAX - 1,
    i32::MAX,
    i32::MIN,
    i32::MIN + 1,
    i32::MIN + 2,
];

#[test]
fn every_number_is_looked_at_whole() {
    for far in FAR {
        for p in [far, far.wrapping_neg()] {
            assert_eq!(read(&[p, 2, 3], 0, 7), Err(Refusal::BadList { row: 0 }), "{p}");
            assert_eq!(read(&[1, p, 3], 0, 7), Err(Refusal::BadList { row: 1 }), "{p}");
            assert_eq!(read(&[-2, -2, p], 0, 7), Err(Refusal::BadList { row: 2 }), "{p}");
            assert_eq!(read(&[p, p, 3], 0, 7), Err(Refusal::BadList { row: 0 }), "{p}");
            assert_eq!(read(&[1, p, p], p, 7), Err(Refusal::BadList { row: 1 }), "{p}");
            assert_eq!(read(&[1, 2, 3], p, 7), Err(Refusal::BadList { row: 3 }), "INFO {p}");
            assert_eq!(read(&[], p, 7), Err(Refusal::BadList { row: 0 }), "INFO {p}");
        }
    }
}

#[test]
fn a_broken_block_is_named_by_its_first_row_and_info_by_the_order() {
    let place = |list: &[i32], info| match read(list, info, 7) {
        Err(refusal @ Refusal::BadList { row }) => {
            assert_eq!((refusal.code(), refusal.place()), (12, row));
            row
        }
        other => panic!("{list:?}: {other:?}"),
    };
    assert_eq!(place(&[1, 1, 3], 0), 1); // a row above
    assert_eq!(place(&[1, 2, 4], 0), 2); // a row that is not there
    assert_eq!(place(&[1, -2, -2], 0), 1); // a block of two with its first row
    assert_eq!(place(&[1, -3, 3], 0), 1); // half a block
    assert_eq!(place(&[-2, -3, 3], 0), 0); // two halves
    assert_eq!(place(&[-3, -3, -3], 0), 2); // a block in the last row
    assert_eq!(place(&[1, 0, 0, 9], 9), 1); // the first of several, and before INFO
    assert_eq!(place(&[1, 2, 3], 4), 3);
    assert_eq!(place(&[1, 2, 3], -1), 3);
    assert_eq!(place(&[2, 2, 3], 1), 3); // a row that is exchanged
    assert_eq!(place(&[-2, -2, 3], 2), 3); // a row of a block of two
}

#[test]
fn the_largest_order_is_read_and_written() {
    let n = LARGEST as i32;
    let forms: [fn(i32, i32) -> i32; 4] = [
        |k, _| k,
        |_, n| n,
        |k, _| if k % 2 == 1 { -k - 1 } else { -k },
        |_, n| -n,
    ];
    for form in forms {
        let list: Vec<i32> = (1..=n).map(|k| form(k, n)).collect();
        for info in [0, 1, n - 1, n, n + 1] {
            let record = record_of(&list, info, 7);
            if judged(&list, info).is_ok() {
                both_ways(&list, info, &record);
            } else {
                assert_eq!(read(&list, info, 7), Err(Refusal::BadList { row: LARGEST }));
                assert_eq!(write(&record), Err(Refusal::BadRecord { row: LARGEST }));
            }
        }
    }
    let own: Vec<i32> = (1..=n + 1).collect();
    assert_eq!(read(&own, 0, 7), Err(Refusal::OutOfRange));
    assert_eq!(write(&record_of(&own, 0, 7)), Err(Refusal::OutOfRange));
    let mut broken = own[..LARGEST].to_vec();
    for p in [-n, n + 1, n - 1, 0] {
        broken[LARGEST - 1] = p;
        assert_eq!(read(&broken, 0, 7), Err(Refusal::BadList { row: LARGEST - 1 }));
    }
}

/// What the reader takes.
#[derive(Clone)]
struct Asked {
    list: Vec<i32>,
    info: i32,
    words: usize,
    n: usize,
}

type Fault = fn(&mut Asked);

/// What can be wrong with a call to read, in the order in which it is looked at.
const FAULTS: [(Refusal, Fault); 16] = [
    (Refusal::OutOfRange, |asked| asked.n = LARGEST + 1),
    (Refusal::OutOfRange, |asked| asked.n = usize::MAX),
    (Refusal::OutOfRange, |asked| asked.n = usize::MAX / 2),
    (Refusal::OutOfRange, |asked| asked.n += 1 << 32),
    (Refusal::SliceLength, |asked| asked.list.truncate(2)),
    (Refusal::SliceLength, |asked| asked.list.push(4)),
    (Refusal::SliceLength, |asked| asked.list.clear()),
    (Refusal::SliceLength, |asked| asked.list.resize(LARGEST, 1)),
    (Refusal::SliceLength, |asked| asked.words -= 1),
    (Refusal::SliceLength, |asked| asked.words += 1),
    (Refusal::SliceLength, |asked| asked.words = 0),
    (Refusal::BadList { row: 0 }, |asked| {
        if let Some(first) = asked.list.first_mut() {
            *first = 0;
        }
    }),
    (Refusal::BadList { row: 1 }, |asked| {
        if let Some(second) = asked.list.get_mut(1) {
            *second = -2;
        }
    }),
    (Refusal::BadList { row: 3 }, |asked| asked.info = 2),
    (Refusal::BadList { row: 3 }, |asked| asked.info = -1),
    (Refusal::BadList { row: 3 }, |asked| asked.info = 4),
];

impl Asked {
    fn sound() -> Asked {
        Asked {
            list: vec![3, -3, -3],
            info: 0,
            words: 8,
            n: 3,
        }
    }

    fn read(&self) -> Result<Vec<u32>, Refusal> {
        read_into(self.words, &self.list, self.info, self.n, 7)
    }

    /// As a factor of LAPACK's, with so many numbers in its matrix.
    fn factor(&self, numbers: usize) -> Result<LBLT, Refusal> {
        LBLT::from_lapack(vec![2.0; numbers], self.n, &self.list, self.info, 7)
    }
}

#[test]
fn each_fault_is_refused_and_nothing_is_written() {
    assert_eq!(Asked::sound().read(), Ok(vec![2, 1, 2, 2, 2, 2, 0, 7]));
    for (refusal, fault) in FAULTS {
        let mut asked = Asked::sound();
        fault(&mut asked);
        assert_eq!(asked.read(), Err(refusal));
    }
}

#[test]
fn of_two_faults_the_first_is_told() {
    for (at, (refusal, fault)) in FAULTS.into_iter().enumerate() {
        for (later, other) in &FAULTS[at + 1..] {
            if *later != refusal {
                let mut asked = Asked::sound();
                other(&mut asked);
                fault(&mut asked);
                assert_eq!(asked.read(), Err(refusal), "before {later:?}");
            }
        }
    }
}

#[test]
fn a_factor_of_lapacks_is_refused_by_order_matrix_and_list_in_turn() {
    assert!(Asked::sound().factor(9).is_ok());
    for numbers in [0, 3, 8, 10] {
        assert_eq!(Asked::sound().factor(numbers), Err(Refusal::MatrixLength));
    }
    for (refusal, fault) in FAULTS {
        let mut asked = Asked::sound();
        fault(&mut asked);
        if asked.words != 8 {
            continue; // the record is the factor's own
        }
        assert_eq!(asked.factor(9), Err(refusal));
        for numbers in [0, 8, 10] {
            let first = if refusal == Refusal::OutOfRange {
                refusal
            } else {
                Refusal::MatrixLength
            };
            assert_eq!(asked.factor(numbers), Err(first), "before {refusal:?}");
        }
    }
    assert_eq!(LBLT::from_lapack(vec![1.0], 0, &[], 0, 7), Err(Refusal::MatrixLength));
    assert_eq!(LBLT::from_lapack(vec![], 0, &[1], 0, 7), Err(Refusal::SliceLength));
    assert_eq!(
        LBLT::from_lapack(vec![], 0, &[], 1, 7),
        Err(Refusal::BadList { row: 0 })
    );
    let own: Vec<i32> = (1..=LARGEST as i32).collect();
    let of_largest = |numbers| LBLT::from_lapack(vec![1.0; numbers], LARGEST, &own, 0, 7);
    assert_eq!(of_largest(LARGEST * LARGEST).unwrap().order(), LARGEST);
    assert_eq!(of_largest(LARGEST * LARGEST - 1), Err(Refusal::MatrixLength));
    assert_eq!(of_largest(0), Err(Refusal::MatrixLength));
}

#[test]
fn the_writer_is_refused_by_order_length_and_record_in_turn() {
    let (sound, broken) = ([2, 1, 2, 2, 2, 2, 0, 7], [9, 1, 2, 2, 2, 2, 0, 7]);
    for record in [sound, broken] {
        for n in [LARGEST + 1, usize::MAX, usize::MAX / 2, (1 << 32) + 3] {
            for numbers in [0, 3, 4] {
                assert_eq!(write_into(numbers, &record, n), Err(Refusal::OutOfRange));
                assert_eq!(write_into(numbers, &record[..2], n), Err(Refusal::OutOfRange));
            }
        }
        for numbers in [0, 1, 2, 4, 8, LARGEST] {
            assert_eq!(write_into(numbers, &record, 3), Err(Refusal::SliceLength));
        }
        for words in 0..8 {
            assert_eq!(write_into(3, &record[..words], 3), Err(Refusal::SliceLength));
        }
        let longer = [&record[..], &[7]].concat();
        assert_eq!(write_into(3, &longer, 3), Err(Refusal::SliceLength));
    }
    assert_eq!(write(&broken), Err(Refusal::BadRecord { row: 0 }));
    assert_eq!(write(&[2, 1, 2, 2, 1, 2, 0, 7]), Err(Refusal::BadRecord { row: 1 }));
    assert_eq!(write(&[2, 1, 2, 2, 2, 2, 1, 7]), Err(Refusal::BadRecord { row: 3 }));
    assert_eq!(write(&[1, 7]), Err(Refusal::BadRecord { row: 0 }));
    assert_eq!(write(&sound), Ok((vec![3, -3, -3], Listed { info: 0, run: 7 })));
}

#[test]
fn lengths_that_do_not_fit_the_order_are_refused() {
    let (list, record): (Vec<i32>, Vec<u32>) = ((1..=9).collect(), record_of(&[1, 2, 3, 4, 5], 0, 7));
    for n in 0..=3 {
        for numbers in 0..=list.len() {
            for words in 0..=record.len() {
                if (numbers, words) != (n, 2 * n + 2) {
                    let read = read_into(words, &list[..numbers], 0, n, 7);
                    assert_eq!(
                        read,
                        Err(Refusal::SliceLength),
                        "order {n}, {numbers} numbers, {words} words"
                    );
                    let written = write_into(numbers, &record[..words], n);
                    assert_eq!(
                        written,
                        Err(Refusal::SliceLength),
                        "order {n}, {numbers} numbers, {words} words"
                    );
                }
            }
        }
    }
}

#[test]
fn what_stood_there_does_not_matter() {
    for old in [0, 1, 2, u32::MAX] {
        let mut record = [old; 6];
        pivots::from_lapack(&[2, 2], 2, &mut record, 2, 7).unwrap();
        assert_eq!(record, [1, 1, 1, 1, 2, 7]);
    }
    for old in [0, 1, -2, i32::MIN] {
        let mut list = [old; 2];
        let listed = pivots::to_lapack(&[1, 2, 1, 2, 0, 7], &mut list, 2);
        assert_eq!((list, listed), ([-2, -2], Ok(Listed { info: 0, run: 7 })));
    }
}

#[test]
fn a_refused_list_leaves_the_record_of_another_run() {
    let mut record = [1, 2, 1, 2, 0, 8];
    let refused = pivots::from_lapack(&[2, 0], 0, &mut record, 2, 7);
    assert_eq!(refused, Err(Refusal::BadList { row: 1 }));
    assert_eq!(record, [1, 2, 1, 2, 0, 8]);
}

/// Symmetric matrices of orders up to 24: numbers by chance, zeros on the diagonal, a row of zeros.
fn matrices() -> impl Iterator<Item = (usize, Vec<f64>)> {
    (0..=24).flat_map(|n| {
        let chance = Numbers(n as u64).symmetric(n);
        let (mut hollow, mut marked) = (chance.clone(), chance.clone());
        for i in 0..n {
            hollow[i + i * n] = 0.0;
            marked[n / 2 + i * n] = 0.0;
            marked[i + n / 2 * n] = 0.0;
        }
        [(n, chance), (n, hollow), (n, marked)]
    })
}

#[test]
fn a_factor_handed_over_comes_back_as_it_was() {
    let (mut twos, mut marks) = (0, 0);
    for (n, a) in matrices() {
        for run in RUNS {
            let factor = LBLT::new(a.clone(), n, run).unwrap();
            let LapackPivots { list, info } = factor.lapack_pivots();
            assert_eq!(judged(&list, info), Ok(()));
            assert_eq!(record_of(&list, info, run), factor.record());
            assert_eq!(info, factor.zero_pivot().map_or(0, |row| row as i32 + 1));

            let back = LBLT::from_lapack(factor.matrix().to_vec(), n, &list, info, run).unwrap();
            assert_eq!(back.record(), factor.record());
            assert_eq!(bits(back.matrix()), bits(factor.matrix()));
            assert_eq!(back.lapack_pivots(), factor.lapack_pivots());
            twos += list.iter().filter(|&&number| number < 0).count();
            marks += usize::from(info != 0);
        }
    }
    assert!(twos > 500 && marks > 100);
}

#[test]
fn a_factor_of_lapacks_does_all_that_a_factor_does() {
    for (n, a) in matrices() {
        let factor = LBLT::new(a.clone(), n, 7).unwrap();
        let LapackPivots { list, info } = factor.lapack_pivots();
        let other = LBLT::from_lapack(factor.matrix().to_vec(), n, &list, info, 8).unwrap();
        assert_eq!((other.order(), other.run()), (n, 8));
        assert_eq!(other.record()[..=2 * n], factor.record()[..=2 * n]);
        assert_eq!(other.zero_pivot(), factor.zero_pivot());
        assert!(other.pivots().eq(factor.pivots()));
        assert!((0..n).all(|row| other.callers_row(row) == factor.callers_row(row)));
        assert_eq!(other.determinant().to_bits(), factor.determinant().to_bits());
        assert_eq!(bits(&other.d()), bits(&factor.d()));
        assert_eq!(bits(&other.l_permuted()), bits(&factor.l_permuted()));
        match (other.solve(&a), factor.solve(&a)) {
            (Ok(one), Ok(two)) => assert_eq!(bits(&one), bits(&two)),
            (one, two) => {
                assert_eq!(one, two);
                let row = factor.zero_pivot().unwrap();
                assert_eq!(one, Err(Refusal::ZeroMark { row }));
            }
        }
        // a record of one run is not read in the other
        let mut b = vec![1.0; n];
        let solved = lblt::solve_mut(other.matrix(), other.record(), &mut b, n, 1, 7);
        assert_eq!(solved, Err(Refusal::OtherRun));
    }
}

/// What `dsytrf` of LAPACK 3.11.0 left and said of the lower rows 0 / 3 4 / 4 8 16 / 2.5 5 2 0.25.
#[test]
fn a_system_is_solved_by_what_dsytrf_left() {
    let left = vec![
        16.0, 0.5, 0.25, 0.125, 7.0, 0.0, 4.0, 0.5, 7.0, 7.0, 0.0, 0.25, 7.0, 7.0, 7.0, -2.0,
    ];
    let factor = LBLT::from_lapack(left, 4, &[3, -4, -4, 4], 0, 7).unwrap();
    let a = [
        0.0, 3.0, 4.0, 2.5, 3.0, 4.0, 8.0, 5.0, 4.0, 8.0, 16.0, 2.0, 2.5, 5.0, 2.0, 0.25,
    ];
    assert_eq!(factor.solve(&[28.0, 55.0, 76.0, 19.5]).unwrap(), [1.0, 2.0, 3.0, 4.0]);
    let x = factor.solve(&a).unwrap();
    assert!(apart(&product(&a, &x, 4), &a) < 1e-12);
    assert_eq!(
        LBLT::new(a.to_vec(), 4, 7).unwrap().lapack_pivots(),
        factor.lapack_pivots()
    );
}

#[test]
fn info_is_the_mark_and_not_the_first_zero() {
    let (small, large) = (2f64.powi(-600), 2f64.powi(600));
    let a = vec![0.0, small, 0.0, small, 0.0, large, 0.0, large, 0.0];
    let factor = LBLT::new(a, 3, 7).unwrap();
    assert_eq!(factor.matrix()[0], 0.0);
    assert_eq!(factor.zero_pivot(), Some(2));
    let LapackPivots { list, info } = factor.lapack_pivots();
    assert_eq!((list, info), (vec![1, 2, 3], 3));
}

#[test]
fn a_list_with_an_info_is_read_and_its_factor_not_solved() {
    let factor = LBLT::from_lapack(vec![4.0, 0.5, 7.0, 0.0], 2, &[2, 2], 2, 7).unwrap();
    assert_eq!(factor.zero_pivot(), Some(1));
    assert_eq!(factor.callers_row(1), 0);
    assert_eq!(factor.solve(&[1.0, 1.0]), Err(Refusal::ZeroMark { row: 1 }));
    assert_eq!(factor.determinant(), 0.0);
    assert_eq!(factor.d(), [4.0, 0.0, 0.0, 0.0]);
}

/// No number of the matrix is looked at.
#[test]
fn the_matrix_of_a_list_is_taken_as_it_is() {
    let strange = vec![f64::NAN, f64::INFINITY, -0.0, f64::from_bits(0x7ff4_b1ad_e5ee_d001)];
    for list in [[1, 2], [2, 2], [-2, -2]] {
        let factor = LBLT::from_lapack(strange.clone(), 2, &list, 0, 7).unwrap();
        assert_eq!(bits(factor.matrix()), bits(&strange));
    }
}
