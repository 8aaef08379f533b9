//! Times of works in turns.

use std::hint::black_box;
use std::time::Instant;

/// What is timed. It answers a count.
pub type Work<'a> = Box<dyn Fn() -> u64 + 'a>;

pub fn median(mut values: Vec<f64>) -> f64 {
    values.sort_by(f64::total_cmp);
    values[values.len() / 2]
}

/// Prints the median of each work in nanoseconds a message, and that of its ratio to the first work in the same round. The order
/// changes by the round.
pub fn print_ratios(works: &[(&str, Work)], messages: usize, rounds: usize) {
    let times = 1 + 4000 / messages.max(1);
    let mut found = vec![vec![]; works.len()];
    for round in 0..rounds {
        for turn in 0..works.len() {
            let at = (turn + round) % works.len();
            let start = Instant::now();
            for _ in 0..times {
                black_box(works[at].1());
            }
            found[at].push(start.elapsed().as_nanos() as f64 / (times * messages) as f64);
        }
    }
    for ((title, _), mine) in works.iter().zip(&found) {
        let ratios = mine.iter().zip(&found[0]).map(|(a, b)| a / b).collect();
        println!("  {title:<26} {:>9.1} {:>16.2}", median(mine.clone()), median(ratios));
    }
}
