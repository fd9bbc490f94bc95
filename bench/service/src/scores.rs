//! Exam questions by the service, beside a search in plain Rust: all lists of eight reads of four addresses.
#[cfg(not(feature = "double"))]
use crate::service::scores;
#[cfg(feature = "double")]
use engines::scores::scores;
use std::time::{Duration, Instant};

const B: usize = 64;
const P: usize = 4;
const K: usize = 8;
const COUNTS: usize = 72;

/// What was measured for a box: nanoseconds of a question by the service and by plain Rust.
pub struct Times {
    pub m: usize,
    pub d: usize,
    pub service: f64,
    pub plain: f64,
    runs: usize,
}

impl Times {
    /// How many times as fast as plain Rust the service is.
    pub fn speed(&self) -> f64 {
        self.plain / self.service
    }
}

fn timed(question: impl FnOnce(&mut [u8]) -> u32, counts: &mut [u8]) -> Duration {
    let start = Instant::now();
    let refused = question(counts);
    let time = start.elapsed();
    assert_eq!(refused, 0);
    time
}

fn measured(m: usize, d: usize) -> Times {
    let (label, disk) = ([7; 64], (0..P * B).map(|at| (at / B) as u8).collect::<Vec<u8>>());
    let [mut one, mut two] = [[0; COUNTS]; 2];
    let mut best = [Duration::MAX; 2];
    let mut runs = 0;
    let begun = Instant::now();
    while runs < 15 || runs < 400 && begun.elapsed() < Duration::from_secs(2) {
        best[0] = best[0].min(timed(|counts| scores([B, P, m, d, m], &label, &disk, K, counts), &mut one));
        best[1] = best[1].min(timed(|counts| engines::scores::scores([B, P, m, d, m], &label, &disk, K, counts), &mut two));
        assert!(one == two, "m {m}, d {d}: plain Rust counts otherwise");
        runs += 1;
    }
    let [service, plain] = best.map(|time| time.as_nanos() as f64);
    Times { m, d, service, plain, runs }
}

/// Measures a question for each of some boxes and prints the times.
pub fn all() -> Vec<Times> {
    let times: Vec<Times> = [(1, 1), (2, 2), (3, 2), (1024, 256)].into_iter().map(|(m, d)| measured(m, d)).collect();
    println!("\nAn exam question, B = {B}, P = {P}, k = {K}: nanoseconds of all {} lists:", P.pow(K as u32));
    println!("{:>6}{:>6}{:>14}{:>14}{:>12}{:>8}", "m", "d", "service", "plain Rust", "speed", "runs");
    for one in &times {
        println!("{:>6}{:>6}{:>14.0}{:>14.0}{:>12.2}{:>8}", one.m, one.d, one.service, one.plain, one.speed(), one.runs);
    }
    times
}
