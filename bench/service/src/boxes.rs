//! The boxes that lists of calls start from: filled by calls, empty, and with tables made by hand.
#[cfg(feature = "double")]
use crate::measure::run_arc_peer;
use crate::measure::{run_maps, List};
#[cfg(feature = "double")]
use engines::arc;
use engines::maps;
use sha2::{Digest, Sha256};
use std::collections::BTreeSet;
use std::time::Duration;

pub const ROW: usize = 40;

/// The office's label, under which every box here is opened.
const LABEL: [u8; 64] = *b"The label of an office: 64 bytes before each block of its pages.";

/// SHA-256 of the label and of what follows it, the block's first bytes.
fn hashed(first: &[u8]) -> Sha256 {
    Sha256::new_with_prefix(LABEL).chain_update(first)
}

#[derive(Clone, PartialEq)]
pub struct Lent {
    pub state: Vec<u8>,
    pub disk: Vec<u8>,
    pub flash: Vec<u8>,
    pub addresses: Vec<u8>,
    pub blocks: Vec<u8>,
    pub block: Vec<u8>,
    pub answer: Vec<u8>,
    /// The lists of a D-ARC box, none of a D-LRU box.
    pub lists: Vec<u8>,
}

#[derive(Clone, Copy, PartialEq)]
pub enum Kind {
    Read,
    Through,
    Back,
    Invalidate,
    Flush,
    Look,
}

/// A call: its kind, its address and the number of the content that a write is lent.
pub type Step = (Kind, u32, usize);

pub fn number(bytes: &[u8], k: usize) -> u64 {
    u64::from_le_bytes(bytes[k * 8..k * 8 + 8].try_into().unwrap())
}

fn set_number(bytes: &mut [u8], k: usize, number: usize) {
    bytes[k * 8..k * 8 + 8].copy_from_slice(&(number as u64).to_le_bytes());
}

/// SplitMix64.
pub struct Random(pub u64);

impl Random {
    fn number(&mut self) -> u64 {
        self.0 = self.0.wrapping_add(0x9e37_79b9_7f4a_7c15);
        let mut z = self.0;
        z = (z ^ (z >> 30)).wrapping_mul(0xbf58_476d_1ce4_e5b9);
        z = (z ^ (z >> 27)).wrapping_mul(0x94d0_49bb_1331_11eb);
        z ^ (z >> 31)
    }

    pub fn below(&mut self, end: usize) -> usize {
        (self.number() % end as u64) as usize
    }

    pub fn pick<T: Copy>(&mut self, list: &[T]) -> T {
        list[self.below(list.len())]
    }

    fn bytes(&mut self, length: usize) -> Vec<u8> {
        (0..length).map(|_| self.number() as u8).collect()
    }
}

#[derive(Clone, Copy)]
pub struct Shape {
    pub b: usize,
    pub p: usize,
    pub m: usize,
    pub d: usize,
}

/// The largest tables, on the largest blocks.
pub const LARGE: Shape = Shape { b: 4096, p: 4096, m: 1024, d: 256 };

/// A box before a list of calls, and the contents of its blocks and of the writes.
pub struct Start {
    pub name: String,
    pub shape: Shape,
    pub lent: Lent,
    pub contents: Vec<Vec<u8>>,
    /// Held addresses whose block is cached, held ones whose block is not, and those not held; the oldest first.
    pub with_block: Vec<u32>,
    pub without_block: Vec<u32>,
    pub others: Vec<u32>,
    /// Whether a list is one call: tables made by hand are no longer the same after it.
    pub one_call: bool,
}

fn comma(number: usize) -> String {
    if number < 1000 {
        number.to_string()
    } else {
        format!("{},{:03}", number / 1000, number % 1000)
    }
}

impl Start {
    fn new(words: &str, shape: Shape, lent: Lent, contents: Vec<Vec<u8>>) -> Start {
        let Shape { b, m, d, p } = shape;
        let name = format!("B {}, m {}, d {}, {words}", comma(b), comma(m), comma(d));
        let cached = used(&lent.blocks);
        let address = |row: &[u8]| u32::from_le_bytes(row[..4].try_into().unwrap());
        let rows = lent.addresses.chunks_exact(ROW).take(number(&lent.state, 4) as usize);
        let held: Vec<(u32, bool)> = rows.map(|row| (address(row), cached.contains(&row[4..36]))).collect();
        let with_block = held.iter().filter(|row| row.1).map(|row| row.0).collect();
        let without_block = held.iter().filter(|row| !row.1).map(|row| row.0).collect();
        let others = (0..p as u32).filter(|a| held.iter().all(|row| row.0 != *a)).collect();
        Start { name, shape, contents, with_block, without_block, others, one_call: false, lent }
    }

    /// The fingerprints of the used block rows.
    pub fn used(&self) -> BTreeSet<&[u8]> {
        used(&self.lent.blocks)
    }
}

fn used(blocks: &[u8]) -> BTreeSet<&[u8]> {
    blocks.chunks_exact(ROW).filter(|row| row[36] == 1).map(|row| &row[..32]).collect()
}

/// One and a half contents for each slot.
fn contents(shape: Shape) -> Vec<Vec<u8>> {
    let mut random = Random(1);
    (0..shape.d + shape.d / 2 + 1).map(|_| random.bytes(shape.b)).collect()
}

/// The place of the limit among the eights of the state.
const LIMIT: usize = 17;

/// A fresh box without a limit, which is a limit of m, over a disk of these contents.
fn opened(shape: Shape, contents: &[Vec<u8>]) -> Lent {
    let Shape { b, p, m, d } = shape;
    let mut random = Random(3);
    let mut lent = Lent {
        state: vec![0; 8 * LIMIT + 8],
        disk: (0..p).flat_map(|_| contents[random.below(contents.len())].iter().copied()).collect(),
        flash: vec![0; d * b],
        addresses: vec![0; m * ROW],
        blocks: vec![0; d * ROW],
        block: vec![0; b],
        answer: vec![0; 24],
        lists: Vec::new(),
    };
    [(0, b), (1, p), (2, m), (3, d), (LIMIT, m)].iter().for_each(|(k, number)| set_number(&mut lent.state, *k, *number));
    assert_eq!(maps::open(&mut lent.state, &LABEL, &lent.disk, &lent.flash, &mut lent.addresses, &mut lent.blocks), 0);
    lent
}

/// Reads and writes back on `count` addresses, with the contents of a list: three reads for each write, so that about one held row in four is dirty.
fn fill(lent: &mut Lent, shape: Shape, count: usize, contents: &[Vec<u8>]) {
    let mut random = Random(4);
    let kinds = [Kind::Read, Kind::Read, Kind::Read, Kind::Back];
    let steps: Vec<Step> = (0..8 * shape.m + 16 * shape.d).map(|_| (random.pick(&kinds), random.below(count) as u32, random.below(contents.len()))).collect();
    run_maps(lent, &List { part: steps.len(), steps, contents }, &mut [Duration::MAX]);
}

fn filled(words: &str, shape: Shape, contents: Vec<Vec<u8>>) -> Start {
    let mut lent = opened(shape, &contents);
    fill(&mut lent, shape, shape.p, &contents);
    let start = Start::new(words, shape, lent, contents);
    assert!(number(&start.lent.state, 4) == shape.m as u64 && start.used().len() == shape.d, "the tables are not full");
    start
}

pub fn full(shape: Shape) -> Start {
    filled("full tables", shape, contents(shape))
}

/// The same with a limit of as many dirty rows as there are: a write back that makes one more dirty copies a block for the limit.
pub fn at_limit(shape: Shape) -> Start {
    let mut start = filled("full tables at the limit", shape, contents(shape));
    let dirty = start.lent.addresses.chunks_exact(ROW).filter(|row| row[36] == 1).count();
    assert!(0 < dirty && dirty < shape.m, "{dirty} dirty rows");
    set_number(&mut start.lent.state, LIMIT, dirty);
    start
}

/// Half of the rows of both tables are in use: there were calls on that many addresses, with that many contents.
pub fn half_full(shape: Shape) -> Start {
    let contents = contents(shape);
    let (rows, few) = (shape.m / 2, &contents[..shape.d / 2]);
    let mut lent = opened(shape, few);
    fill(&mut lent, shape, rows, few);
    let start = Start::new("half-full tables", shape, lent, contents);
    assert!(number(&start.lent.state, 4) == rows as u64 && start.used().len() == shape.d / 2, "the tables are not half full");
    start
}

pub fn empty(shape: Shape) -> Start {
    let contents = contents(shape);
    Start::new("empty tables", shape, opened(shape, &contents), contents)
}

/// The places of C, X and the limit among the eights of a D-ARC state, and the length of such a state.
#[cfg(feature = "double")]
const ARC_C: usize = 2;
#[cfg(feature = "double")]
const ARC_X: usize = 3;
#[cfg(feature = "double")]
const ARC_STATE: usize = 192;

/// A D-ARC box of the same tables, C being d, without a limit. The addresses that fill it have as many contents as there are slots, so that T1 and T2 come to
/// hold C + X addresses; the others have all contents.
#[cfg(feature = "double")]
pub fn full_arc(shape: Shape) -> Start {
    let Shape { b, p, m, d } = shape;
    let all = contents(shape);
    let mut random = Random(7);
    let near = m + m / 4;
    let disk = (0..p).flat_map(|a| all[random.below(if a < near { d } else { all.len() })].clone()).collect();
    let mut lent = Lent { state: vec![0; ARC_STATE], disk, lists: vec![0; m * 4], ..opened(shape, &all) };
    [(0, b), (1, p), (ARC_C, d), (ARC_X, m - 2 * d), (LIMIT, m)].iter().for_each(|(k, number)| set_number(&mut lent.state, *k, *number));
    let Lent { state, disk, flash, addresses, blocks, lists, .. } = &mut lent;
    assert_eq!(arc::open(state, &LABEL, disk, flash, addresses, blocks, lists), 0);
    let kinds = [Kind::Read, Kind::Read, Kind::Read, Kind::Back];
    let steps: Vec<Step> = (0..16 * m).map(|_| (random.pick(&kinds), random.below(near) as u32, random.below(d))).collect();
    run_arc_peer(&mut lent, &List { part: steps.len(), steps, contents: &all }, &mut [Duration::MAX]);
    let start = Start::new("full tables", shape, lent, all);
    assert!(number(&start.lent.state, 4) == m as u64 && start.used().len() == d, "the tables of the D-ARC box are not full");
    Start { name: format!("D-ARC, B {}, C {d}, X {}, full tables", comma(b), m - 2 * d), ..start }
}

/// The bucket of a fingerprint by its first two bytes, which give the buckets of the proved engine's index where they can (crates/checks/src/index.rt).
fn bucket(g: &[u8]) -> u16 {
    u16::from_le_bytes([g[0], g[1]]) % 4096
}

/// Full tables whose fingerprints all lie in one bucket: the contents are found by search, as anyone who chooses contents can.
pub fn one_bucket(shape: Shape) -> Start {
    let mut random = Random(5);
    let (most, mut last) = (random.bytes(shape.b - 64), random.bytes(64));
    let first = hashed(&most);
    let mut tried = 0u64;
    let contents = (0..contents(shape).len())
        .map(|_| loop {
            tried += 1;
            last[..8].copy_from_slice(&tried.to_le_bytes());
            if bucket(&first.clone().chain_update(&last).finalize()) == 0 {
                return [&most[..], &last].concat();
            }
        })
        .collect();
    let start = filled("one bucket by search", shape, contents);
    assert!(start.used().iter().all(|g| bucket(g) == 0), "not one bucket");
    start
}

/// What the held rows of tables made by hand have. Each makes some search go through all rows of a bucket, from whichever end it starts.
#[derive(Clone, Copy)]
pub enum Held {
    /// All are dirty and have the newest block row's fingerprint.
    Newest,
    /// All are dirty and have the oldest block row's fingerprint.
    Oldest,
    /// All but the newest row are clean, and have a fingerprint that isn't cached.
    Missing,
}

/// Full tables made by hand: all fingerprints agree in their first `same` bytes with that of the one content on the disk.
pub fn crafted(shape: Shape, same: usize, held: Held) -> Start {
    let Shape { p, m, d, .. } = shape;
    let mut random = Random(6);
    let contents = contents(shape);
    let beginning = &hashed(&contents[0]).finalize()[..same];
    let mut print = || [beginning, &random.bytes(32 - same)].concat();
    let mut lent = opened(shape, &contents[..1]);
    set_number(&mut lent.state, 4, m);
    for row in lent.blocks.chunks_exact_mut(ROW) {
        row[..32].copy_from_slice(&print());
        row[36] = 1;
    }
    for (k, row) in lent.addresses.chunks_exact_mut(ROW).enumerate() {
        let place = match held {
            Held::Newest => Some(d - 1),
            Held::Oldest => Some(0),
            Held::Missing if k == m - 1 => Some(d - 1),
            Held::Missing => None,
        };
        row[..4].copy_from_slice(&((k * 37 % p) as u32).to_le_bytes());
        row[4..36].copy_from_slice(&place.map_or_else(&mut print, |place| lent.blocks[place * ROW..place * ROW + 32].to_vec()));
        row[36] = !matches!(held, Held::Missing) as u8;
    }
    let words = match held {
        Held::Newest => "held: the newest block",
        Held::Oldest => "held: the oldest block",
        Held::Missing => "held: blocks not cached",
    };
    let start = Start { one_call: true, ..Start::new(&format!("{same} bytes the same, {words}"), shape, lent, contents) };
    assert!(start.used().len() == d && start.used().iter().all(|g| g.starts_with(beginning)), "the fingerprints are not as asked for");
    start
}
