//! The lent bytes: the state, the rows of both tables, and the moves of rows.
use sha2::{Digest, Sha256};

pub const ROW: usize = 40;
pub type Row = [u8; ROW];
pub type Fingerprint = [u8; 32];

/// The state: nine numbers of 8 bytes, the office's label, and one number more, the limit.
pub const STATE: usize = 144;
pub const LABEL_START: usize = 72;
pub const LIMIT: usize = 17;
pub const LABEL: usize = 64;
pub type Label = [u8; LABEL];

pub fn label(state: &[u8]) -> &Label {
    state[LABEL_START..LABEL_START + LABEL].try_into().unwrap()
}

pub fn set_label(state: &mut [u8], label: &[u8]) {
    state[LABEL_START..LABEL_START + LABEL].copy_from_slice(label);
}

/// SHA-256 over the label followed by the block.
pub fn fingerprint(label: &Label, block: &[u8]) -> Fingerprint {
    Sha256::new().chain_update(label).chain_update(block).finalize().into()
}

pub fn number(bytes: &[u8], k: usize) -> u64 {
    u64::from_le_bytes(bytes[k * 8..k * 8 + 8].try_into().unwrap())
}

pub fn set_number(bytes: &mut [u8], k: usize, number: u64) {
    bytes[k * 8..k * 8 + 8].copy_from_slice(&number.to_le_bytes());
}

#[derive(Clone, Copy)]
pub struct Sizes {
    pub b: usize,
    pub p: usize,
    pub m: usize,
    pub d: usize,
    pub n: usize,
    pub t: usize,
}

/// The numbers of the box, where B, P, m, d and the limit are in their sets.
pub fn sizes(state: &[u8]) -> Result<Sizes, u32> {
    let [b, p, m, d, n] = std::array::from_fn(|k| number(state, k));
    let good = b.is_power_of_two() && (64..=4096).contains(&b) && (1..=65_536).contains(&p) && (1..=1024).contains(&m) && (1..=256).contains(&d);
    if !good {
        return Err(1);
    }
    let t = number(state, LIMIT);
    if !(1..=m).contains(&t) {
        return Err(12);
    }
    Ok(Sizes { b: b as usize, p: p as usize, m: m as usize, d: d as usize, n: usize::try_from(n).unwrap_or(usize::MAX), t: t as usize })
}

pub fn row(table: &[u8], k: usize) -> &Row {
    table[k * ROW..(k + 1) * ROW].try_into().unwrap()
}

pub fn rows(table: &[u8]) -> impl Iterator<Item = &Row> {
    table.chunks_exact(ROW).map(|row| row.try_into().unwrap())
}

/// Whether the last four bytes of an address row are a mark, 0 or 1, two bytes of any seat, and a zero.
pub fn held_tail_ok(row: &Row) -> bool {
    row[36] <= 1 && row[39] == 0
}

/// Whether the last four bytes of a block row are a mark, 0 or 1, and three zeros.
pub fn block_tail_ok(row: &Row) -> bool {
    u32::from_le_bytes(row[36..].try_into().unwrap()) <= 1
}

// Address rows.
pub fn address(row: &Row) -> u32 {
    u32::from_le_bytes(row[..4].try_into().unwrap())
}

pub fn held_fingerprint(row: &Row) -> &Fingerprint {
    row[4..36].try_into().unwrap()
}

pub fn is_dirty(row: &Row) -> bool {
    row[36] == 1
}

pub fn seat(row: &Row) -> u16 {
    u16::from_le_bytes(row[37..39].try_into().unwrap())
}

/// Takes a held row out; those behind it move up and a zero row comes after them.
pub fn take_out(addresses: &mut [u8], n: usize, k: usize) {
    addresses.copy_within((k + 1) * ROW..n * ROW, k * ROW);
    addresses[(n - 1) * ROW..n * ROW].fill(0);
}

pub fn add(addresses: &mut [u8], n: usize, a: u32, g: &Fingerprint, dirty: bool, seat: u16) {
    let row = &mut addresses[n * ROW..(n + 1) * ROW];
    row[..4].copy_from_slice(&a.to_le_bytes());
    row[4..36].copy_from_slice(g);
    row[36] = dirty as u8;
    row[37..39].copy_from_slice(&seat.to_le_bytes());
}

// Block rows.
pub fn cached_fingerprint(row: &Row) -> &Fingerprint {
    row[..32].try_into().unwrap()
}

pub fn slot(row: &Row) -> usize {
    u32::from_le_bytes(row[32..36].try_into().unwrap()) as usize
}

pub fn is_used(row: &Row) -> bool {
    row[36] == 1
}

/// A used row becomes free and the first of all.
pub fn set_free(blocks: &mut [u8], k: usize) {
    blocks[..(k + 1) * ROW].rotate_right(ROW);
    blocks[..32].fill(0);
    blocks[36] = 0;
}

pub fn to_newest(blocks: &mut [u8], k: usize) {
    blocks[k * ROW..].rotate_left(ROW);
}
