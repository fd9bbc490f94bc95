//! A D-ARC box as it is lent: bytes. Which of them are refused, and the way into a cache with lists and back.
use super::{Lists, T1, T2};
use crate::lent::{eight, seven, six, thirteen, twelve, two};
use crate::*;
use std::collections::{HashMap, HashSet};

/// The state of a D-ARC box: B, P, C, X, n and the counters, the label, the limit, p and the sizes of the five lists.
pub const ARC_STATE: usize = 192;
pub const STATE_ADAPTIVE: Range<usize> = 144..152;
pub const STATE_SIZES: Range<usize> = 152..192;
/// An address in the lists: "m × 4 bytes, little-endian".
pub const WORD: usize = 4;

/// All memory that is lent to a call on a D-ARC box: that of a D-LRU box, with a state of another length, and the lists.
#[derive(Clone, Default, PartialEq, Eq)]
pub struct ArcLent {
    pub base: Lent,
    pub lists: Vec<u8>,
}

/// The state: numbers, all of 64 bits, and the label.
#[derive(Clone, Copy, Debug, PartialEq, Eq)]
pub struct ArcNumbers {
    pub b: u64,
    pub p: u64,
    pub c: u64,
    pub x: u64,
    pub n: u64,
    pub counters: [u64; 4],
    pub label: Label,
    pub t: u64,
    /// The document's small p.
    pub adaptive: u64,
    pub sizes: [u64; 5],
}

impl ArcNumbers {
    /// Those of a box of these numbers, in which m and d are of a C and an X, and these lists.
    pub fn of(numbers: Numbers, lists: &Lists) -> ArcNumbers {
        let Numbers { b, p, m, d, n, counters, label, t } = numbers;
        ArcNumbers { b, p, c: d, x: m - 2 * d, n, counters, label, t, adaptive: lists.p as u64, sizes: lists.sizes() }
    }

    pub fn from_bytes(state: &[u8]) -> ArcNumbers {
        assert_eq!(state.len(), ARC_STATE);
        let number = |at: usize| u64::from_le_bytes(state[at..at + 8].try_into().unwrap());
        let [b, p, c, x, n, c0, c1, c2, c3] = std::array::from_fn(|k| number(k * 8));
        let (label, t, adaptive) = (state[STATE_LABEL].try_into().unwrap(), number(STATE_LIMIT.start), number(STATE_ADAPTIVE.start));
        ArcNumbers { b, p, c, x, n, counters: [c0, c1, c2, c3], label, t, adaptive, sizes: std::array::from_fn(|k| number(STATE_SIZES.start + k * 8)) }
    }

    pub fn to_bytes(self) -> Vec<u8> {
        let first = [&[self.b, self.p, self.c, self.x, self.n][..], &self.counters].concat();
        let last = [&[self.t, self.adaptive][..], &self.sizes].concat();
        let bytes = |numbers: Vec<u64>| numbers.into_iter().flat_map(|number| number.to_le_bytes()).collect::<Vec<u8>>();
        [bytes(first), self.label.to_vec(), bytes(last)].concat()
    }

    /// "its m is 2 × C + X", in numbers of 128 bits, in which no sum is too large.
    pub fn m(&self) -> u128 {
        2 * self.c as u128 + self.x as u128
    }

    /// The numbers of the tables, asked for after 11: m, and "cached blocks, its d".
    fn base(&self) -> Numbers {
        let ArcNumbers { b, p, c, n, counters, label, t, .. } = *self;
        Numbers { b, p, m: self.m() as u64, d: c, n, counters, label, t }
    }
}

impl ArcLent {
    pub fn numbers(&self) -> ArcNumbers {
        ArcNumbers::from_bytes(&self.base.state)
    }

    /// Where this differs from what was expected: the buffer and the first byte.
    pub fn difference(&self, expected: &ArcLent) -> Option<String> {
        let place = || self.lists.iter().zip(&expected.lists).position(|(x, y)| x != y);
        let lists = || (self.lists != expected.lists).then(|| format!("lists: byte {:?}, of {} and {}", place(), self.lists.len(), expected.lists.len()));
        self.base.difference(&expected.base).or_else(lists)
    }

    /// All words of the lists' bytes, named or not.
    pub fn words(&self) -> Vec<u32> {
        self.lists.chunks_exact(WORD).map(|word| u32::from_le_bytes(word.try_into().unwrap())).collect()
    }
}

/// "if B or P is outside its set, C isn't 1 to 256, or 2 × C + X exceeds 1,024"
fn eleven(numbers: &ArcNumbers) -> bool {
    !(BLOCK_SIZES.iter().any(|size| *size as u64 == numbers.b)
        && (1..=MOST_P as u64).contains(&numbers.p)
        && (1..=MOST_D as u64).contains(&numbers.c)
        && numbers.m() <= MOST_M as u128)
}

/// "lists that don't name each held address once and no other, or pass these sizes, a nonzero byte after them, and p above C"
fn lists_unsound(numbers: &ArcNumbers, lent: &ArcLent, rows: &[AddressRow]) -> bool {
    let [t1, t2, b1, b2, b3] = numbers.sizes.map(|size| size as u128);
    let (c, x, all) = (numbers.c as u128, numbers.x as u128, t1 + t2 + b1 + b2 + b3);
    if t1 + t2 + b3 > c + x || b1 + b2 > c || numbers.adaptive as u128 > c || all != numbers.n as u128 {
        return true;
    }
    let words = lent.words();
    let (named, after) = words.split_at(all as usize);
    let different: HashSet<u32> = named.iter().copied().collect();
    let held: HashSet<u32> = rows[..numbers.n as usize].iter().map(|row| row.address).collect();
    different.len() < named.len() || different != held || after.iter().any(|word| *word != 0)
}

/// "an address of T1 or T2 without its block"
fn top_uncached(numbers: &ArcNumbers, lent: &ArcLent, rows: &[AddressRow], blocks: &[BlockRow]) -> bool {
    let cached: HashSet<Fingerprint> = blocks.iter().filter(|row| row.used == 1).map(|row| row.fingerprint).collect();
    let prints: HashMap<u32, Fingerprint> = rows[..numbers.n as usize].iter().map(|row| (row.address, row.fingerprint)).collect();
    let tops = (numbers.sizes[T1] + numbers.sizes[T2]) as usize;
    lent.words()[..tops].iter().any(|a| !cached.contains(&prints[a]))
}

/// The first of these checks that applies, 0 where none does, with 11 "in place of 1". `own` is the call's own part of 2, of 3 and of 10.
fn first_of(checks: &[u32], lent: &ArcLent, own: impl Fn(u32) -> bool) -> u32 {
    let numbers = lent.numbers();
    let (rows, blocks) = read_tables(&lent.base);
    let applies = |number: &u32| match *number {
        11 => eleven(&numbers),
        12 => twelve(&numbers.base()),
        2 => two(&numbers.base(), &lent.base) || lent.lists.len() as u128 != numbers.m() * WORD as u128 || own(2),
        3 => own(3),
        6 => six(&numbers.base(), &rows, &lent.base.addresses) || lists_unsound(&numbers, lent, &rows),
        7 => seven(&numbers.base(), &blocks),
        8 => eight(&numbers.base(), &rows, &blocks) || top_uncached(&numbers, lent, &rows, &blocks),
        9 => numbers.counters.iter().any(|counter| *counter > MOST_COUNTED),
        13 => thirteen(&numbers.base(), &rows),
        _ => own(10),
    };
    checks.iter().map(|number| if *number == 1 { 11 } else { *number }).find(applies).unwrap_or(0)
}

/// The number that 16 stands for in a restore of this box, 0 where there is none.
pub(super) fn refusal_of_body(lent: &ArcLent) -> u32 {
    first_of(&[11, 12, 6, 7, 8, 13], lent, |_| false)
}

/// The number with which a call is refused, 0 where it is served. A state or an answer of another length comes before all.
pub fn refusal(call: Call, address: u32, lent: &ArcLent) -> u32 {
    if lent.base.state.len() != ARC_STATE || call != Call::Open && lent.base.answer.len() != ANSWER {
        return 2;
    }
    let numbers = lent.numbers();
    let own = |number: u32| match number {
        2 => call.takes_block() && lent.base.block.len() as u64 != numbers.b || call == Call::Open && lent.base.label.len() != LABEL,
        _ => address as u64 >= numbers.p,
    };
    first_of(call.checks(), lent, own)
}

/// The number with which one call for a folder is refused, 0 where it is served. A state or an answer of another length comes before all.
pub fn refusal_many(lent: &ArcLent, folder: &Folder) -> u32 {
    if lent.base.state.len() != ARC_STATE || folder.answer.len() != MANY_ANSWER {
        return 2;
    }
    let numbers = lent.numbers();
    let count = folder.asked.len();
    let own = |number: u32| match number {
        2 => folder.buffer.len() as u128 != count as u128 * numbers.b as u128,
        10 => count == 0 || count > MOST_ASKED,
        _ => folder.asked.iter().any(|address| *address as u64 >= numbers.p),
    };
    first_of(&MANY_CHECKS, lent, own)
}

/// The number with which a report into so many bytes is refused, 0 where it is made. A state of another length comes before all.
pub fn refusal_report(report: Report, lent: &ArcLent, length: usize) -> u32 {
    if lent.base.state.len() != ARC_STATE {
        return 2;
    }
    let most = lent.numbers().m() * report.row() as u128;
    first_of(&REPORT_CHECKS, lent, |_| length as u128 != most)
}

/// Carries a call out on lent bytes: gives the number of the refusal or 0, and leaves in every buffer what it must hold afterwards.
pub fn carry_out(call: Call, address: u32, lent: &mut ArcLent) -> u32 {
    let number = refusal(call, address, lent);
    if call == Call::Open {
        open(number, lent);
    } else if number == 0 {
        let mut cache = Cache::load_arc(lent);
        let answer = cache.call(call, address, &mut lent.base.block).expect("every refusal has been asked for");
        cache.store_arc(lent);
        lent.base.answer = answer.to_bytes();
    }
    number
}

/// An opening. A refused one leaves n, the label, p and the five sizes zeros in the state, and changes nothing else.
fn open(number: u32, lent: &mut ArcLent) {
    if lent.base.state.len() != ARC_STATE {
        return;
    }
    if number != 0 {
        lent.base.state = ArcNumbers { n: 0, label: ZEROS, adaptive: 0, sizes: [0; 5], ..lent.numbers() }.to_bytes();
        return;
    }
    let ArcNumbers { b, p, c, x, t, .. } = lent.numbers();
    let [b, p, c, x, t] = [b, p, c, x, t].map(|number| number as usize);
    let label = lent.base.label[..].try_into().unwrap();
    let (disk, flash) = (std::mem::take(&mut lent.base.disk), std::mem::take(&mut lent.base.flash));
    Cache::fresh_arc(b, p, c, x, t, label, disk, flash).store_arc(lent);
}

/// The same for one call for a folder.
pub fn carry_out_many(lent: &mut ArcLent, folder: &mut Folder) -> u32 {
    let number = refusal_many(lent, folder);
    if number == 0 {
        let mut cache = Cache::load_arc(lent);
        let answer = cache.read_many(&folder.asked, &mut folder.buffer).expect("every refusal has been asked for");
        cache.store_arc(lent);
        folder.answer = answer.to_bytes();
    }
    number
}

/// The same for a report, which is lent its bytes and changes nothing else.
pub fn carry_out_report(report: Report, lent: &ArcLent, bytes: &mut Vec<u8>) -> u32 {
    let number = refusal_report(report, lent, bytes.len());
    if number == 0 {
        *bytes = Cache::load_arc(&mut lent.clone()).report(report);
    }
    number
}

impl Cache {
    /// A D-ARC box out of bytes that no check refuses. Takes disk and flash away from the bytes; `store_arc` gives them back.
    pub fn load_arc(lent: &mut ArcLent) -> Cache {
        let numbers = lent.numbers();
        let mut words = lent.words().into_iter();
        let of = numbers.sizes.map(|size| words.by_ref().take(size as usize).collect());
        let lists = Some(Lists { of, p: numbers.adaptive as usize });
        Cache { lists, ..Cache::load_as(numbers.base(), &mut lent.base) }
    }

    fn list_bytes(&self) -> Vec<u8> {
        self.lists.as_ref().expect("a D-ARC box").to_bytes(self.m)
    }

    /// Writes the box into bytes: every buffer but the lent block, the answer and the lent label.
    pub fn store_arc(self, lent: &mut ArcLent) {
        lent.lists = self.list_bytes();
        self.store(&mut lent.base);
    }

    /// The name of a buffer whose bytes are not this D-ARC box's, if there is one. The lent block, the answer and the lent label are not looked at.
    pub fn difference_arc(&self, lent: &ArcLent) -> Option<&'static str> {
        self.difference(&lent.base).or((lent.lists != self.list_bytes()).then_some("lists"))
    }
}
