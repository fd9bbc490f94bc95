//! What the tests share: numbers that look random and are the same in every run, and how far a long run is.
use std::io::Write;
use std::time::{Duration, Instant};

/// SplitMix64, started at a seed that a test prints.
pub struct Random(pub u64);

impl Random {
    pub fn number(&mut self) -> u64 {
        self.0 = self.0.wrapping_add(0x9e37_79b9_7f4a_7c15);
        let mut z = self.0;
        z = (z ^ (z >> 30)).wrapping_mul(0xbf58_476d_1ce4_e5b9);
        z = (z ^ (z >> 27)).wrapping_mul(0x94d0_49bb_1331_11eb);
        z ^ (z >> 31)
    }

    /// A number below `end`.
    pub fn below(&mut self, end: usize) -> usize {
        (self.number() % end as u64) as usize
    }

    pub fn bytes(&mut self, length: usize) -> Vec<u8> {
        (0..length).map(|_| self.number() as u8).collect()
    }
}

/// Shows how far a long run is, every ten seconds.
pub struct Progress {
    name: &'static str,
    total: usize,
    start: Instant,
    shown: Instant,
}

impl Progress {
    pub fn new(name: &'static str, total: usize) -> Progress {
        Progress { name, total, start: Instant::now(), shown: Instant::now() }
    }

    pub fn at(&mut self, done: usize) {
        if self.shown.elapsed() >= Duration::from_secs(10) {
            self.shown = Instant::now();
            let seconds = self.start.elapsed().as_secs_f64();
            // Written past the test runner, which keeps what print! writes until the end.
            let _ = writeln!(std::io::stderr(), "{}: {done} of {} after {seconds:.0} s", self.name, self.total);
        }
    }

    pub fn seconds(&self) -> f64 {
        self.start.elapsed().as_secs_f64()
    }
}

#[cfg(test)]
mod tests {
    use super::Random;

    /// The first numbers of SplitMix64 from the seed 1234567, as its authors' C code prints them.
    #[test]
    fn splitmix64() {
        let mut random = Random(1234567);
        let expected = [6457827717110365317, 3203168211198807973, 9817491932198370423, 4593380528125082431, 16408922859458223821];
        for number in expected {
            assert_eq!(random.number(), number);
        }
        println!("SplitMix64: {} numbers from the seed 1234567 are right", expected.len());
    }
}
