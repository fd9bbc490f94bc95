//! Exam questions (document 02, U12): every list of k reads, one after the other, by the printed D-LRU.
use crate::machines::PrintedDlru;
use crate::{Label, BLOCK_SIZES, LABEL, MOST_D, MOST_M, MOST_P};

/// The bytes of the nine counts.
pub const COUNTS: usize = 72;

/// What is given and lent to a question.
#[derive(Clone, Debug, PartialEq, Eq)]
pub struct Question {
    pub b: usize,
    pub p: usize,
    pub m: usize,
    pub d: usize,
    pub t: usize,
    pub label: Vec<u8>,
    pub disk: Vec<u8>,
    pub k: usize,
    pub counts: Vec<u8>,
}

/// "It refuses with 17 if P is above 4, B isn't 64 or k is above 8, checked after 2." (U12) "with 12 a limit outside its range, in every call right after 1"
/// (U8). 0 where it is not refused.
pub fn refusal_question(q: &Question) -> u32 {
    if !BLOCK_SIZES.contains(&q.b) || !(1..=MOST_P).contains(&q.p) || !(1..=MOST_M).contains(&q.m) || !(1..=MOST_D).contains(&q.d) {
        1
    } else if !(1..=q.m).contains(&q.t) {
        12
    } else if q.disk.len() != q.p * q.b || q.label.len() != LABEL || q.counts.len() != COUNTS {
        2
    } else if q.p > 4 || q.b != 64 || q.k > 8 {
        17
    } else {
        0
    }
}

/// Every list of k addresses below p, the last turning fastest.
pub fn lists(p: usize, k: usize) -> impl Iterator<Item = Vec<u32>> {
    (0..p.pow(k as u32)).map(move |number| (0..k).rev().map(|at| (number / p.pow(at as u32) % p) as u32).collect())
}

fn fresh(q: &Question) -> PrintedDlru {
    let label: &Label = q.label[..].try_into().unwrap();
    PrintedDlru::new(label, &q.disk, q.b, q.m, q.d)
}

/// Whether each read of a list is a hit, from a fresh box.
pub fn key(q: &Question, list: &[u32]) -> Vec<bool> {
    let mut printed = fresh(q);
    list.iter().map(|a| printed.feed(*a, false).unwrap()).collect()
}

/// "count over all lists of k reads .. how many have 0, 1, up to k hits, in nine counts"
pub fn scores(q: &Question) -> [u64; 9] {
    let (mut counts, fresh) = ([0; 9], fresh(q));
    for list in lists(q.p, q.k) {
        let mut printed = fresh.clone();
        counts[list.iter().filter(|a| printed.feed(**a, false).unwrap()).count()] += 1;
    }
    counts
}

/// What a question must answer, and leave in what is lent for the counts: "0 beyond k and in a refusal", and other lengths are left alone.
pub fn carry_out_question(q: &mut Question) -> u32 {
    let number = refusal_question(q);
    let counts = if number == 0 { scores(q) } else { [0; 9] };
    if q.counts.len() == COUNTS {
        q.counts = counts.iter().flat_map(|count| count.to_le_bytes()).collect();
    }
    number
}
