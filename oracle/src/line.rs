//! A case and an outcome as one line of text.
//!
//! A case: the call's name and its numbers in decimal, a floor in hex, then for each slice `;` and its words in hex. An outcome: the answer in decimal,
//! the value in hex if there is one (of `pivots_to_lapack` INFO and the run number in decimal, of the floored calls the count in decimal), then every
//! slice of the call as it is left, likewise. Fields are parted by blanks. A number of a list is the word of its 32 bits.

use std::str::FromStr;

use crate::call::{Call, Case, FORMS, Number, Outcome, Slice};

pub fn case_line(case: &Case) -> String {
    let form = case.call.form();
    let mut out = form.name.to_string();
    for &number in form.numbers {
        out += &match number {
            Number::N => format!(" {}", case.n),
            Number::X => format!(" {}", case.x),
            Number::Y => format!(" {}", case.y),
            Number::Bench => format!(" {}", case.bench),
            Number::Run => format!(" {}", case.run),
            Number::Info => format!(" {}", case.info),
            Number::Floor => format!(" {:016x}", case.floor.to_bits()),
        };
    }
    for &slice in form.slices {
        out += " ;";
        match slice {
            Slice::A => floats(&mut out, &case.a),
            Slice::B => floats(&mut out, &case.b),
            Slice::C => floats(&mut out, &case.c),
            Slice::Record => small(&mut out, &case.record),
            Slice::Benches => small(&mut out, &case.benches),
            Slice::List => signed(&mut out, &case.list),
            Slice::Runs => small(&mut out, &case.runs),
            Slice::Answers => big(&mut out, &case.answers),
        }
    }
    out
}

pub fn outcome_line(case: &Case, outcome: &Outcome) -> String {
    let mut out = outcome.answer.to_string();
    match outcome.value {
        Some(value) if case.call == Call::PivotsToLapack => out += &format!(" {} {}", value as i32, value >> 32),
        Some(used) if case.call.form().numbers.contains(&Number::Floor) => out += &format!(" {used}"),
        Some(value) => out += &format!(" {value:016x}"),
        None => {}
    }
    for &slice in case.call.form().slices {
        out += " ;";
        match slice {
            Slice::A => big(&mut out, &outcome.a),
            Slice::B => big(&mut out, &outcome.b),
            Slice::C => big(&mut out, &outcome.c),
            Slice::Record => small(&mut out, &outcome.record),
            Slice::Benches => small(&mut out, &outcome.benches),
            Slice::List => signed(&mut out, &outcome.list),
            Slice::Runs => small(&mut out, &outcome.runs),
            Slice::Answers => big(&mut out, &outcome.answers),
        }
    }
    out
}

fn floats(out: &mut String, s: &[f64]) {
    big(out, &s.iter().map(|x| x.to_bits()).collect::<Vec<_>>());
}

fn big(out: &mut String, words: &[u64]) {
    for word in words {
        *out += &format!(" {word:016x}");
    }
}

fn small(out: &mut String, words: &[u32]) {
    for word in words {
        *out += &format!(" {word:08x}");
    }
}

fn signed(out: &mut String, list: &[i32]) {
    small(out, &list.iter().map(|&number| number as u32).collect::<Vec<_>>());
}

pub fn parse_case(line: &str) -> Result<Case, String> {
    let mut parts = line.split(';');
    let mut head = parts.next().unwrap_or("").split_whitespace();
    let name = head.next().ok_or("an empty line")?;
    let form = FORMS.iter().find(|f| f.name == name).ok_or(format!("no call is named {name}"))?;
    let mut case = Case::new(form.call, 0, vec![]);
    for &which in form.numbers {
        let field = head.next().ok_or("a number is missing")?;
        match which {
            Number::N => case.n = number(field)?,
            Number::X => case.x = number(field)?,
            Number::Y => case.y = number(field)?,
            Number::Bench => case.bench = number(field)?,
            Number::Run => case.run = number(field)?,
            Number::Info => case.info = number(field)?,
            Number::Floor => case.floor = f64::from_bits(word(field)?),
        }
    }
    if head.next().is_some() {
        return Err("a number too many".into());
    }
    for &slice in form.slices {
        let words = hex_words(parts.next().ok_or("a slice is missing")?)?;
        let floats = || words.iter().map(|&w| f64::from_bits(w)).collect();
        let halves = || words.iter().map(|&w| w.try_into().map_err(|_| format!("{w:x} is above 32 bits"))).collect::<Result<Vec<u32>, _>>();
        match slice {
            Slice::A => case.a = floats(),
            Slice::B => case.b = floats(),
            Slice::C => case.c = floats(),
            Slice::Record => case.record = halves()?,
            Slice::Benches => case.benches = halves()?,
            Slice::List => case.list = halves()?.iter().map(|&w| w as i32).collect(),
            Slice::Runs => case.runs = halves()?,
            Slice::Answers => case.answers = words,
        }
    }
    match parts.next() {
        None => Ok(case),
        Some(_) => Err("a slice too many".into()),
    }
}

fn number<T: FromStr>(field: &str) -> Result<T, String> {
    field.parse().map_err(|_| format!("{field} is no number, or too great"))
}

fn hex_words(fields: &str) -> Result<Vec<u64>, String> {
    fields.split_whitespace().map(word).collect()
}

fn word(field: &str) -> Result<u64, String> {
    u64::from_str_radix(field, 16).map_err(|_| format!("{field} is no word"))
}
