//! Small boxes whose disk block k has the byte k, for what is worked out by hand.
use crate::calls::call;
use model::{Call, Label, Lent, Numbers, ANSWER, LABEL, ROW};

pub const B: usize = 64;
/// The label of these boxes, and the bytes that a state has for a label before it is opened.
pub const OFFICE: Label = [0x4F; LABEL];
const BEFORE: Label = [0xB7; LABEL];

/// A box to be opened; other bytes where an opening or a first call is to write.
pub fn unopened(b: usize, p: usize, m: usize, d: usize, t: u64) -> Lent {
    Lent {
        state: Numbers { b: b as u64, p: p as u64, m: m as u64, d: d as u64, n: 77, counters: [1, 2, 3, 4], label: BEFORE, t }.to_bytes(),
        disk: (0..p).flat_map(|k| vec![k as u8; b]).collect(),
        flash: vec![0xAA; d * b],
        addresses: vec![0xBB; m * ROW],
        blocks: vec![0xCC; d * ROW],
        block: vec![0xDD; b],
        answer: vec![0xEE; ANSWER],
        label: OFFICE.to_vec(),
    }
}

/// An opened box of P, m, d and the limit t, with blocks of B bytes. A limit of m is none.
pub fn fresh(p: usize, m: usize, d: usize, t: usize) -> Lent {
    let mut lent = unopened(B, p, m, d, t as u64);
    assert_eq!(call(Call::Open, 0, &mut lent), 0);
    lent
}
