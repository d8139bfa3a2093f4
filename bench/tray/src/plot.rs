//! Ratios over orders, as text.

/// The lines that a plot may take, about.
const MOST: f64 = 24.0;

/// From a line of a plot to the next.
const STEPS: [f64; 5] = [0.05, 0.1, 0.2, 0.5, 1.0];

/// `rows` are orders with their two ratios.
pub fn print(rows: &[(usize, f64, f64)]) {
    let all = || rows.iter().flat_map(|&(_, text, calls)| [text, calls]);
    let (low, high) = (all().fold(1.0, f64::min), all().fold(1.0, f64::max));
    let step = *STEPS.iter().find(|&step| (high - low) / step < MOST).unwrap_or(&STEPS[STEPS.len() - 1]);
    let place = |ratio: f64| (ratio / step).round() as i64;
    for height in (place(low)..=place(high)).rev() {
        let one = height == place(1.0);
        let blank = if one { '-' } else { ' ' };
        let mut line = format!("  {:>5.2} {}", height as f64 * step, if one { '+' } else { '|' });
        for &(_, text, calls) in rows {
            let mark = match (place(text) == height, place(calls) == height) {
                (true, true) => '*',
                (true, false) => 't',
                (false, true) => 'c',
                (false, false) => blank,
            };
            line.extend([blank, blank, mark, blank]);
        }
        println!("{}", line.trim_end());
    }
    let orders: Vec<String> = rows.iter().map(|(n, ..)| format!("{n:>3}")).collect();
    println!("  order  {}", orders.join(" "));
    println!("  t: the text's loop, c: the port's two calls, *: both");
}
