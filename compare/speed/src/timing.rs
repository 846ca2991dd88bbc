//! The sides of a case, timed in turn, round after round.
use crate::side::{Out, Side};
use std::hint::black_box;
use std::time::Instant;

const ROUNDS: usize = 31;
/// How long the first side runs in a round, at least, in seconds.
const LONG: f64 = 0.002;

fn median(mut values: Vec<f64>) -> f64 {
    values.sort_by(f64::total_cmp);
    values[values.len() / 2]
}

/// A line: how long the first side takes, and how many times as long each of the others, the median of all rounds, where a round
/// holds each side to the first. Before that, all are seen to write the same bytes.
pub fn report(case: &str, sides: &[Side], room: usize, once: impl Fn(&Side, &mut Out) -> u8) {
    let mut outs: Vec<Out> = sides.iter().map(|_| Out::of(room)).collect();
    for (side, out) in sides.iter().zip(&mut outs) {
        assert_eq!(once(side, out), 0, "{case}: {} refuses", side.name);
    }
    for (side, out) in sides.iter().zip(&outs) {
        assert!(out.written() == outs[0].written(), "{case}: {} writes other bytes", side.name);
    }
    let seconds = |side: &Side, out: &mut Out, times: usize| {
        let start = Instant::now();
        for _ in 0..times {
            black_box(once(black_box(side), black_box(out)));
        }
        start.elapsed().as_secs_f64()
    };
    let mut times = 1;
    while seconds(&sides[0], &mut outs[0], times) < LONG {
        times *= 2;
    }
    let mut taken = vec![Vec::new(); sides.len()];
    for _ in 0..ROUNDS {
        for ((side, out), taken) in sides.iter().zip(&mut outs).zip(&mut taken) {
            taken.push(seconds(side, out, times));
        }
    }
    let first = median(taken[0].iter().map(|round| round / times as f64).collect());
    print!("{case:<12} {}: {:>10.1} ns", sides[0].name, 1e9 * first);
    for (side, taken_by) in sides.iter().zip(&taken).skip(1) {
        let ratio = median(taken_by.iter().zip(&taken[0]).map(|(this, first)| this / first).collect());
        print!("   {}: {ratio:>6.2}", side.name);
    }
    println!();
}
