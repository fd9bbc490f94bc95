//! How much a test runs, and what it shows while it does.
pub use common::Progress;

/// The calls of the gate's random lists. MINDAVEHU_CALLS asks for another number of them, and every other count changes with it.
pub const GATE: usize = 240_000;

fn variable(name: &str) -> Option<usize> {
    std::env::var(name).ok().map(|text| text.replace([',', '_'], "").parse().unwrap_or_else(|_| panic!("{name} is not a number: {text}")))
}

/// The count that is asked for, where `gate` is the gate's.
pub fn count(gate: usize) -> usize {
    match variable("MINDAVEHU_CALLS") {
        Some(calls) => (gate as u128 * calls as u128 / GATE as u128).max(1) as usize,
        None => gate,
    }
}

/// The seed of a test; MINDAVEHU_SEED is added, so that a longer run can have lists of its own.
pub fn seed(of_test: u64) -> u64 {
    of_test + 1_000 * variable("MINDAVEHU_SEED").unwrap_or(0) as u64
}
