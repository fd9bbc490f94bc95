//! Random boxes in bytes: fresh ones, sound ones that no list of calls need reach, each way of breaking one, and any bytes.
use common::Random;
use model::{fingerprint, read_tables, AddressRow, BlockRow, Call, Fingerprint, Folder, Label, Lent, Numbers};
use model::{ANSWER, BLOCK_SIZES, LABEL, MANY_ANSWER, MOST_COUNTED, REPORT_CHECKS, ROW, STATE_LIMIT, ZEROS};
use std::collections::HashSet;

pub fn fill(random: &mut Random, bytes: &mut [u8]) {
    for part in bytes.chunks_mut(8) {
        part.copy_from_slice(&random.number().to_le_bytes()[..part.len()]);
    }
}

pub fn bytes(random: &mut Random, length: usize) -> Vec<u8> {
    let mut bytes = vec![0; length];
    fill(random, &mut bytes);
    bytes
}

pub fn pick<T: Copy>(random: &mut Random, list: &[T]) -> T {
    list[random.below(list.len())]
}

/// An office's label: any bytes, now and then zeros, or zeros but for one byte.
pub fn any_label(random: &mut Random) -> Label {
    let mut label = ZEROS;
    match random.below(8) {
        0 => {}
        1 => label[random.below(LABEL)] = 1 + random.below(255) as u8,
        _ => fill(random, &mut label),
    }
    label
}

/// The label that is lent to an opening, of the right length.
pub fn office(lent: &Lent) -> Label {
    lent.label[..].try_into().unwrap()
}

/// A limit of a box of m addresses: the smallest, a small one, any, and as often as the last two none, which is m.
pub fn any_limit(random: &mut Random, m: usize) -> u64 {
    let (small, any) = (1 + random.below(m.min(20)), 1 + random.below(m));
    pick(random, &[1, small, any, m, m]) as u64
}

/// How many held rows are dirty.
pub fn dirty_rows(lent: &Lent) -> usize {
    let n = lent.numbers().n as usize;
    lent.addresses.chunks_exact(ROW).take(n).filter(|row| row[36] == 1).count()
}

/// Places to count the calls by their numbers, 0 and those of the refusals.
pub type Counts = [usize; 17];

/// The number of a seat: any, and as often one of the edges, of which some differ in one of their two bytes alone.
pub fn any_seat(random: &mut Random) -> u16 {
    let any = random.number() as u16;
    pick(random, &[0, 1, 255, 256, 65_535, any, any, any, any, any])
}

/// One of these calls, by any seat where it is a write.
pub fn pick_call(random: &mut Random, calls: &[Call]) -> Call {
    let call = pick(random, calls);
    call.by_seat(any_seat(random))
}

/// How many rows a flush is to clean at most: none, few, as many as can be held, more, and the largest number.
pub fn most(random: &mut Random, m: usize) -> usize {
    let few = random.below(4);
    let some = random.below(m + 1);
    let one = random.below(8);
    [0, few, few, some, m, m + 1 + few, usize::MAX, 1][one]
}

pub fn shuffle<T>(random: &mut Random, list: &mut [T]) {
    for k in (1..list.len()).rev() {
        list.swap(k, random.below(k + 1));
    }
}

#[derive(Clone, Copy, Debug)]
pub struct Shape {
    pub b: usize,
    pub p: usize,
    pub m: usize,
    pub d: usize,
}

impl Shape {
    /// Random numbers up to those of `most`, its block size kept.
    pub fn below(random: &mut Random, most: Shape) -> Shape {
        Shape { b: most.b, p: 1 + random.below(most.p), m: 1 + random.below(most.m), d: 1 + random.below(most.d) }
    }

    /// Without a limit, which is a limit of m.
    pub fn numbers(&self, label: Label) -> Numbers {
        Numbers { b: self.b as u64, p: self.p as u64, m: self.m as u64, d: self.d as u64, n: 0, counters: [0; 4], label, t: self.m as u64 }
    }
}

/// A few blocks that disk, flash and writes have in common, so that contents are shared often.
pub struct Contents {
    pub blocks: Vec<Vec<u8>>,
}

impl Contents {
    pub fn new(random: &mut Random, b: usize, count: usize) -> Contents {
        let style = random.below(3);
        let base = bytes(random, b);
        let block = |random: &mut Random, k: usize| match style {
            // One byte repeated, with the first byte telling apart those beyond 256.
            0 => [&[k as u8 ^ (k >> 8) as u8][..], &vec![k as u8; b - 1]].concat(),
            // The blocks of a pool differ in their last two bytes only.
            1 => [&base[..b - 2], &(k as u16).to_le_bytes()].concat(),
            _ => bytes(random, b),
        };
        Contents { blocks: (0..count).map(|k| block(random, k)).collect() }
    }

    pub fn one(&self, random: &mut Random) -> &Vec<u8> {
        &self.blocks[random.below(self.blocks.len())]
    }

    pub fn many(&self, random: &mut Random, count: usize) -> Vec<u8> {
        (0..count).flat_map(|_| self.one(random).clone()).collect()
    }
}

/// A box to be opened under any label, with any limit: disk blocks from the pool, any bytes in flash and tables; any n, counters and label before it.
pub fn unopened(random: &mut Random, shape: Shape, contents: &Contents) -> Lent {
    let Shape { b, p, m, d } = shape;
    let counters = std::array::from_fn(|_| random.number());
    let before = any_label(random);
    Lent {
        state: Numbers { n: random.number(), counters, t: any_limit(random, m), ..shape.numbers(before) }.to_bytes(),
        disk: contents.many(random, p),
        flash: if random.below(2) == 0 { bytes(random, d * b) } else { contents.many(random, d) },
        addresses: bytes(random, m * ROW),
        blocks: bytes(random, d * ROW),
        block: bytes(random, b),
        answer: bytes(random, ANSWER),
        label: any_label(random).to_vec(),
    }
}

/// A sound box, reachable or not: addresses without blocks beside blocks without addresses, dirty rows that share a block, slots in any
/// order, a used fingerprint of zeros, fingerprints that are not those of the blocks in their slots, any seats, counters up to the largest, as many dirty rows
/// as the limit or fewer.
pub fn sound(random: &mut Random, shape: Shape) -> Lent {
    sound_at(random, shape, None)
}

/// The same. With a place, most of its fingerprints differ in that byte alone (in the next as well where there are more than 256).
pub fn sound_at(random: &mut Random, shape: Shape, place: Option<usize>) -> Lent {
    let Shape { b, p, m, d } = shape;
    let count = 1 + random.below(d + 3);
    let contents = Contents::new(random, b, count);
    let mut lent = unopened(random, shape, &contents);

    // Fingerprints: those of the pool, zeros, near relatives of one, and any.
    let label = lent.numbers().label;
    let mut fingerprints: Vec<Fingerprint> = contents.blocks.iter().map(|block| fingerprint(&label, block)).collect();
    if random.below(2) == 0 {
        fingerprints.push([0; 32]);
    }
    let base = fingerprints[0];
    // In some boxes all of them differ in one byte (two where there are many), often the first or the last, so that whoever compares or sorts
    // by other bytes only takes them for one.
    let (style, somewhere) = (if place.is_some() { 0 } else { random.below(4) }, random.below(32));
    let place = place.unwrap_or(pick(random, &[0, 31, somewhere]));
    while fingerprints.len() < d + 1 + random.below(m + 1) {
        let mut g = base;
        let [low, high] = (fingerprints.len() as u16).to_le_bytes();
        if style < 2 || style == 2 && random.below(2) == 0 {
            g[place] ^= low;
            g[(place + 1) % 32] ^= high;
        } else {
            fill(random, &mut g);
        }
        fingerprints.push(g);
    }
    let mut seen = HashSet::new();
    fingerprints.retain(|g| seen.insert(*g));
    shuffle(random, &mut fingerprints);

    let used = if random.below(3) == 0 { d } else { random.below(d + 1) }.min(fingerprints.len());
    let mut slots: Vec<u32> = (0..d as u32).collect();
    shuffle(random, &mut slots);
    let mut rows = Vec::new();
    for (k, slot) in slots.iter().enumerate() {
        let (g, flag) = if k < d - used { ([0; 32], 0) } else { (fingerprints[k - (d - used)], 1) };
        rows.extend(BlockRow { fingerprint: g, slot: *slot, used: flag, padding: [0; 3] }.to_bytes());
    }
    lent.blocks = rows;

    let most = m.min(p);
    let n = if random.below(3) == 0 { most } else { random.below(most + 1) };
    let mut addresses: Vec<u32> = (0..p as u32).collect();
    if n * 4 < p && random.below(2) == 0 {
        // At equal distances, so that many have their low bits in common.
        addresses = (0..n as u32).map(|k| k * (p / n) as u32).collect();
        shuffle(random, &mut addresses);
    } else if n * 4 < p {
        let mut chosen = HashSet::new();
        addresses = std::iter::repeat_with(|| random.below(p) as u32).filter(|a| chosen.insert(*a)).take(n).collect();
    } else {
        shuffle(random, &mut addresses);
    }
    // Few fingerprints to choose from make rows share them.
    let choice = match random.below(3) {
        0 => used.max(1),
        1 => 1 + random.below(fingerprints.len()),
        _ => fingerprints.len(),
    };
    let mut rows = Vec::new();
    for address in &addresses[..n] {
        let k = random.below(choice);
        let dirty = (k < used && random.below(2) == 0) as u8;
        let seat = any_seat(random);
        rows.extend(AddressRow { address: *address, fingerprint: fingerprints[k], dirty, seat, padding: 0 }.to_bytes());
    }
    rows.resize(m * ROW, 0);
    lent.addresses = rows;

    let counter = |random: &mut Random| match random.below(6) {
        0 => MOST_COUNTED,
        1 => MOST_COUNTED - 1 - random.below(2) as u64,
        2 => random.number() >> 1,
        3 => u32::MAX as u64,
        _ => random.below(1000) as u64,
    };
    let counters = std::array::from_fn(|_| counter(random));
    let dirty = lent.addresses.chunks_exact(ROW).filter(|row| row[36] == 1).count().max(1);
    let any = dirty + random.below(m + 1 - dirty);
    let t = pick(random, &[dirty, any, m]) as u64;
    lent.state = Numbers { n: n as u64, counters, t, ..shape.numbers(label) }.to_bytes();
    lent.block = contents.one(random).clone();
    lent
}

/// How many addresses a folder has: mostly few, now and then any number up to 70, or one at an edge of what is served.
pub fn folder_count(random: &mut Random) -> usize {
    match random.below(8) {
        0 => random.below(71),
        1 => pick(random, &[0, 1, 63, 64, 65]),
        _ => 1 + random.below(12),
    }
}

/// A folder of `count` addresses, each one of these, in memory of any bytes.
pub fn folder(random: &mut Random, addresses: &[u32], b: usize, count: usize) -> Folder {
    Folder { asked: (0..count).map(|_| pick(random, addresses)).collect(), buffer: bytes(random, count * b), answer: bytes(random, MANY_ANSWER) }
}

/// One to six addresses of a box for a folder to repeat. About half of them are held, where any are.
pub fn few_addresses(random: &mut Random, lent: &Lent) -> Vec<u32> {
    let Numbers { p, n, .. } = lent.numbers();
    let (rows, _) = read_tables(lent);
    let one = |random: &mut Random| match random.below(2) {
        0 if n > 0 => rows[random.below(n as usize)].address,
        _ => random.below(p as usize) as u32,
    };
    (0..1 + random.below(6)).map(|_| one(random)).collect()
}

/// The ways of breaking a call's input.
#[derive(Clone, Copy, Debug, PartialEq, Eq)]
pub enum Damage {
    B,
    P,
    M,
    D,
    Limit,
    DiskLength,
    FlashLength,
    AddressesLength,
    BlocksLength,
    BlockLength,
    LabelLength,
    Address,
    TooManyHeld,
    AddressTooLarge,
    AddressTwice,
    DirtyAboveOne,
    AddressPadding,
    TailNotZero,
    SeatBehind,
    FreeAfterUsed,
    UsedAboveOne,
    BlockPadding,
    FreeWithFingerprint,
    SlotTwice,
    SlotTooLarge,
    FingerprintTwice,
    DirtyUncached,
    TooDirty,
    Reads,
    Hits,
    FlashWrites,
    PrimaryWrites,
}

/// With the number of each, in the order of the checks. Several are applied from the last to the first.
pub const DAMAGES: [(Damage, u32); 32] = [
    (Damage::B, 1),
    (Damage::P, 1),
    (Damage::M, 1),
    (Damage::D, 1),
    (Damage::Limit, 12),
    (Damage::DiskLength, 2),
    (Damage::FlashLength, 2),
    (Damage::AddressesLength, 2),
    (Damage::BlocksLength, 2),
    (Damage::BlockLength, 2),
    (Damage::LabelLength, 2),
    (Damage::Address, 3),
    (Damage::TooManyHeld, 6),
    (Damage::AddressTooLarge, 6),
    (Damage::AddressTwice, 6),
    (Damage::DirtyAboveOne, 6),
    (Damage::AddressPadding, 6),
    (Damage::TailNotZero, 6),
    (Damage::SeatBehind, 6),
    (Damage::FreeAfterUsed, 7),
    (Damage::UsedAboveOne, 7),
    (Damage::BlockPadding, 7),
    (Damage::FreeWithFingerprint, 7),
    (Damage::SlotTwice, 7),
    (Damage::SlotTooLarge, 7),
    (Damage::FingerprintTwice, 7),
    (Damage::DirtyUncached, 8),
    (Damage::TooDirty, 13),
    (Damage::Reads, 9),
    (Damage::Hits, 9),
    (Damage::FlashWrites, 9),
    (Damage::PrimaryWrites, 9),
];

/// The number that a call must give on a sound box with these damages, 0 where it does not ask for any of them.
pub fn number_of(call: Call, damages: &[Damage]) -> u32 {
    let asked = |damage: &Damage| match damage {
        Damage::BlockLength => call.takes_block(),
        Damage::LabelLength => call == Call::Open,
        Damage::Address => call.takes_address(),
        _ => true,
    };
    first_number(call.checks(), damages, asked)
}

/// The same of a report, which has no block, no label and no address.
pub fn number_of_report(damages: &[Damage]) -> u32 {
    first_number(&REPORT_CHECKS, damages, |damage| ![Damage::BlockLength, Damage::LabelLength, Damage::Address].contains(damage))
}

/// The first of these checks that one of the damages fails, of those that are asked for.
fn first_number(checks: &[u32], damages: &[Damage], asked: impl Fn(&Damage) -> bool) -> u32 {
    let numbers: Vec<u32> = DAMAGES.iter().filter(|(damage, _)| damages.contains(damage) && asked(damage)).map(|(_, number)| *number).collect();
    checks.iter().copied().find(|number| numbers.contains(number)).unwrap_or(0)
}

fn set_state(lent: &mut Lent, place: usize, number: u64) {
    lent.state[place * 8..place * 8 + 8].copy_from_slice(&number.to_le_bytes());
}

/// Gives a box another limit.
pub fn set_limit(lent: &mut Lent, t: u64) {
    set_state(lent, STATE_LIMIT.start / 8, t);
}

/// A number above `most` or, where zero is given, that as well.
fn outside(random: &mut Random, most: u64) -> u64 {
    match random.below(6) {
        0 | 1 => 0,
        2 => most + 1,
        3 => u64::MAX - random.below(2) as u64,
        // The low 32 bits alone would be good.
        4 => (1 << 32) + 1,
        _ => most + 1 + random.below(3) as u64,
    }
}

fn wrong_length(random: &mut Random, bytes: &mut Vec<u8>) {
    let length = bytes.len();
    let other = match random.below(6) {
        0 => 0,
        1 => length.saturating_sub(1),
        2 => length.saturating_sub(ROW),
        3 => length + ROW,
        4 => 2 * length,
        _ => length + 1,
    };
    bytes.resize(if other == length { length + 1 } else { other }, 0);
}

/// Makes the buffers as long as the numbers ask, so that only the numbers are wrong, where that is not much memory.
fn fit(random: &mut Random, lent: &mut Lent) {
    let Numbers { b, p, m, d, .. } = lent.numbers();
    let lengths = [p.checked_mul(b), d.checked_mul(b), m.checked_mul(ROW as u64), d.checked_mul(ROW as u64), Some(b)];
    let most = if random.below(50) == 0 { 20_000_000 } else { 100_000 };
    if random.below(2) == 0 || lengths.iter().any(|length| length.is_none_or(|length| length > most)) {
        return;
    }
    let [disk, flash, addresses, blocks, block] = lengths.map(|length| length.unwrap() as usize);
    lent.disk.resize(disk, 0);
    lent.flash.resize(flash, 0);
    lent.addresses.resize(addresses, 0);
    lent.blocks.resize(blocks, 0);
    lent.block.resize(block, 0);
}

fn cached_fingerprints(blocks: &[BlockRow]) -> HashSet<Fingerprint> {
    blocks.iter().filter(|row| row.used == 1).map(|row| row.fingerprint).collect()
}

/// Breaks a sound box in one way, or its address. Answers false, and changes nothing, where the box cannot be broken so.
pub fn damage(random: &mut Random, lent: &mut Lent, address: &mut u32, kind: Damage) -> bool {
    let numbers = lent.numbers();
    let (rows, blocks) = read_tables(lent);
    // Numbers and lengths may be broken already; a damage to the tables comes before those.
    let (m, d, p) = (rows.len(), blocks.len(), numbers.p as usize);
    let n = numbers.n.min(m as u64) as usize;
    let used: Vec<usize> = (0..d).filter(|k| blocks[*k].used == 1).collect();
    let free: Vec<usize> = (0..d).filter(|k| blocks[*k].used == 0).collect();
    let row = random.below(n.max(1)) * ROW;
    let block = random.below(d.max(1)) * ROW;
    let nonzero = 1 + random.below(255) as u8;
    match kind {
        Damage::B => {
            let b = match random.below(4) {
                0 => pick(random, &[0, 1, 2, 16, 32, 8_192, 16_384, 65_536]),
                1 => pick(random, &[63, 65, 96, 127, 192, 4_095, 4_097, 6_144]),
                2 => pick(random, &[(1 << 32) + 64, 1 << 32, 1 << 63, u64::MAX]),
                _ => loop {
                    let b = random.below(8_200);
                    if !BLOCK_SIZES.contains(&b) {
                        break b as u64;
                    }
                },
            };
            set_state(lent, 0, b);
            fit(random, lent);
        }
        Damage::P | Damage::M | Damage::D => {
            let (place, most) = match kind {
                Damage::P => (1, model::MOST_P),
                Damage::M => (2, model::MOST_M),
                _ => (3, model::MOST_D),
            };
            let number = outside(random, most as u64);
            set_state(lent, place, number);
            fit(random, lent);
        }
        Damage::Limit => {
            let t = outside(random, numbers.m);
            set_limit(lent, t);
        }
        Damage::DiskLength => wrong_length(random, &mut lent.disk),
        Damage::FlashLength => wrong_length(random, &mut lent.flash),
        Damage::AddressesLength => wrong_length(random, &mut lent.addresses),
        Damage::BlocksLength => wrong_length(random, &mut lent.blocks),
        Damage::BlockLength => wrong_length(random, &mut lent.block),
        Damage::LabelLength => wrong_length(random, &mut lent.label),
        Damage::Address => *address = pick(random, &[p as u32, p as u32 + 1, u32::MAX, 1 << 31, 65_536]).max(p as u32),
        Damage::TooManyHeld => {
            let n = match random.below(4) {
                0 => m as u64 + 1,
                1 => u64::MAX,
                2 => 1 << 32,
                _ => m as u64 + 1 + random.below(2_000) as u64,
            };
            set_state(lent, 4, n);
        }
        Damage::AddressTooLarge if n > 0 => {
            let large = pick(random, &[p as u32, u32::MAX, p as u32 + 7, 1 << 31]);
            lent.addresses[row..row + 4].copy_from_slice(&large.to_le_bytes());
        }
        Damage::AddressTwice if n > 1 => {
            let one = random.below(n);
            let two = (one + 1 + random.below(n - 1)) % n;
            lent.addresses[two * ROW..two * ROW + 4].copy_from_slice(&rows[one].address.to_le_bytes());
        }
        Damage::DirtyAboveOne if n > 0 => lent.addresses[row + 36] = nonzero.max(2),
        Damage::AddressPadding if n > 0 => lent.addresses[row + 39] = nonzero,
        Damage::TailNotZero if n < m => lent.addresses[n * ROW + random.below((m - n) * ROW)] = nonzero,
        // A seat in a row that is not held.
        Damage::SeatBehind if n < m => lent.addresses[(n + random.below(m - n)) * ROW + 37 + random.below(2)] = nonzero,
        Damage::FreeAfterUsed if !used.is_empty() && !free.is_empty() => {
            let (one, two) = (pick(random, &free), pick(random, &used));
            let (first, second) = (blocks[one].to_bytes(), blocks[two].to_bytes());
            lent.blocks[one * ROW..(one + 1) * ROW].copy_from_slice(&second);
            lent.blocks[two * ROW..(two + 1) * ROW].copy_from_slice(&first);
        }
        Damage::UsedAboveOne => lent.blocks[block + 36] = nonzero.max(2),
        Damage::BlockPadding => lent.blocks[block + 37 + random.below(3)] = nonzero,
        Damage::FreeWithFingerprint if !free.is_empty() => lent.blocks[pick(random, &free) * ROW + random.below(32)] = nonzero,
        Damage::SlotTwice if d > 1 => {
            let one = random.below(d);
            let two = (one + 1 + random.below(d - 1)) % d;
            lent.blocks[two * ROW + 32..two * ROW + 36].copy_from_slice(&blocks[one].slot.to_le_bytes());
        }
        Damage::SlotTooLarge => {
            let slot = pick(random, &[d as u32, u32::MAX, d as u32 + 256, 1 << 31]);
            lent.blocks[block + 32..block + 36].copy_from_slice(&slot.to_le_bytes());
        }
        Damage::FingerprintTwice if used.len() > 1 => {
            let one = random.below(used.len());
            let two = (one + 1 + random.below(used.len() - 1)) % used.len();
            lent.blocks[used[two] * ROW..used[two] * ROW + 32].copy_from_slice(&blocks[used[one]].fingerprint);
        }
        Damage::DirtyUncached => {
            let cached = cached_fingerprints(&blocks);
            let without: Vec<usize> = (0..n).filter(|k| !cached.contains(&rows[*k].fingerprint)).collect();
            if without.is_empty() {
                return false;
            }
            lent.addresses[pick(random, &without) * ROW + 36] = 1;
        }
        // A limit of 1 or more that is less than the dirty rows. Where fewer than two are dirty, others that have their block become so.
        Damage::TooDirty => {
            let cached = cached_fingerprints(&blocks);
            let with_block: Vec<usize> = (0..n).filter(|k| cached.contains(&rows[*k].fingerprint)).collect();
            if with_block.len() < 2 {
                return false;
            }
            for k in with_block {
                if dirty_rows(lent) < 2 {
                    lent.addresses[k * ROW + 36] = 1;
                }
            }
            let dirty = dirty_rows(lent);
            let any = 1 + random.below(dirty - 1);
            let t = pick(random, &[1, any, dirty - 1]);
            set_limit(lent, t as u64);
        }
        Damage::Reads | Damage::Hits | Damage::FlashWrites | Damage::PrimaryWrites => {
            let place = 5 + [Damage::Reads, Damage::Hits, Damage::FlashWrites, Damage::PrimaryWrites].iter().position(|other| *other == kind).unwrap();
            let large = pick(random, &[MOST_COUNTED + 1, u64::MAX, MOST_COUNTED + 2, 3 << 62]);
            set_state(lent, place, large);
        }
        _ => return false,
    }
    true
}

/// Numbers of a small box, with blocks of 64 bytes more often than not.
pub fn small(random: &mut Random) -> Shape {
    let b = pick(random, &[64, 64, 64, 64, 128, 256]);
    Shape::below(random, Shape { b, p: 10, m: 6, d: 5 })
}

/// A sound box with these damages, made of as many boxes as it takes; the address is of the box unless the damage is there.
pub fn damaged(random: &mut Random, damages: &[Damage], shape: fn(&mut Random) -> Shape) -> (Lent, u32) {
    for _ in 0..1_000 {
        let shape = shape(random);
        let mut lent = sound(random, shape);
        let mut address = random.below(shape.p) as u32;
        // From the last check to the first, as DAMAGES says.
        let mut in_order: Vec<Damage> = DAMAGES.iter().map(|(kind, _)| *kind).filter(|kind| damages.contains(kind)).collect();
        in_order.reverse();
        if in_order.iter().all(|kind| damage(random, &mut lent, &mut address, *kind)) {
            return (lent, address);
        }
    }
    panic!("no box can be broken by {damages:?}");
}

/// Any numbers and any bytes: small tables, lengths that fit more often than not.
pub fn noise(random: &mut Random) -> Lent {
    let edges = [0, 1, 2, 3, 64, 255, 256, 257, 1_023, 1_024, 1_025, 65_535, 65_536, 65_537, 1 << 32, 1 << 63, u64::MAX, 461_168_601_842_738_791];
    let wild = |random: &mut Random| pick(random, &edges);
    let mut number = |good: &[u64]| if random.below(12) == 0 { wild(random) } else { pick(random, good) };
    let [b, p, m, d, n] = [number(&[64, 64, 128]), number(&[1, 2, 3, 4]), number(&[1, 2, 3, 4]), number(&[1, 2, 3]), number(&[0, 1, 2, 3])];
    let counters = std::array::from_fn(|_| number(&[0, 1, 77, 1 << 63]));
    let t = number(&[1, 1, m, m]);
    let mut length = |one: u64, two: u64| {
        let exact = one.checked_mul(two).filter(|length| *length < 20_000).unwrap_or(two.min(64)) as usize;
        match random.below(40) {
            0 => exact + 1,
            1 => exact.saturating_sub(1),
            2 => exact.saturating_sub(ROW),
            _ => exact,
        }
    };
    let lengths = [length(p, b), length(d, b), length(m, ROW as u64), length(d, ROW as u64), length(1, b), length(1, LABEL as u64)];
    let few = |random: &mut Random, length: usize| -> Vec<u8> {
        let kinds = [[0, 0, 0, 0, 0, 0, 0, 1], [0, 0, 0, 0, 1, 1, 2, 255]];
        let kind = random.below(8).min(1);
        (0..length).map(|_| kinds[1 - kind][random.below(8)]).collect()
    };
    let mut lent = Lent {
        state: Numbers { b, p, m, d, n, counters, label: any_label(random), t }.to_bytes(),
        disk: bytes(random, lengths[0]),
        flash: bytes(random, lengths[1]),
        addresses: few(random, lengths[2]),
        blocks: few(random, lengths[3]),
        block: bytes(random, lengths[4]),
        answer: bytes(random, ANSWER),
        label: bytes(random, lengths[5]),
    };
    // Half of the time each row is brought near to a sound one, or no box would come past 6.
    if random.below(2) == 0 {
        for (k, row) in lent.addresses.chunks_exact_mut(ROW).enumerate() {
            row[1..4].fill(0);
            // The seat may be any, and its bytes are left as they are.
            row[36] = (random.below(4) == 0) as u8;
            row[39] = 0;
            if k as u64 >= n {
                row.fill(0);
            }
        }
        for (k, row) in lent.blocks.chunks_exact_mut(ROW).enumerate() {
            row[32..36].copy_from_slice(&(k as u32).to_le_bytes());
            row[36..].fill(0);
            row[36] = random.below(2) as u8;
            if row[36] == 0 {
                row[..32].fill(0);
            }
        }
        share_a_block(random, &mut lent, n);
    }
    lent
}

/// Half of the time the held rows get addresses of their own and the fingerprint of the last block row, so that dirty ones have their block.
fn share_a_block(random: &mut Random, lent: &mut Lent, n: u64) {
    let Some(last) = lent.blocks.chunks_exact(ROW).last().filter(|_| random.below(2) == 0) else {
        return;
    };
    for (k, row) in lent.addresses.chunks_exact_mut(ROW).enumerate().take_while(|(k, _)| (*k as u64) < n) {
        row[0] = k as u8;
        row[4..36].copy_from_slice(&last[..32]);
        row[36] = random.below(2) as u8;
    }
}
