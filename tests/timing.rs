//! The time of a call.

// Each program uses a part.
#![allow(dead_code)]

use std::hint::black_box;
use std::time::{Duration, Instant};

/// The best over so many rounds of so many calls each, in microseconds a call. The area is put back before each call, outside the time.
pub fn best(start: &[u8], rounds: usize, calls: usize, mut work: impl FnMut(&mut [u8])) -> f64 {
    let mut area = start.to_vec();
    let mut least = Duration::MAX;
    for _ in 0..rounds {
        let mut sum = Duration::ZERO;
        for _ in 0..calls {
            area.copy_from_slice(start);
            let clock = Instant::now();
            work(black_box(&mut area));
            sum += clock.elapsed();
        }
        least = least.min(sum);
    }
    least.as_secs_f64() * 1e6 / calls as f64
}

pub fn median(mut figures: Vec<f64>) -> f64 {
    figures.sort_by(f64::total_cmp);
    figures[figures.len() / 2]
}
