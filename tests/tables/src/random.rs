//! Random tables: sound ones, and each way of breaking one.
use crate::model::{read_addresses, read_blocks, write_addresses, write_blocks, AddressRow, BlockRow, Fingerprint};
use crate::Tables;
use common::Random;
use std::collections::HashSet;

/// Fingerprints to choose from: random ones, ones that share their first bytes, ones that differ in the last byte only, and zeros.
fn pool(random: &mut Random, count: usize) -> Vec<Fingerprint> {
    let style = random.below(4);
    let base: Fingerprint = random.bytes(32).try_into().unwrap();
    (0..count)
        .map(|k| match (style, k) {
            (_, 0) if random.below(3) == 0 => [0; 32],
            (0, _) => {
                let mut g = base;
                g[31] = k as u8;
                g[30] = (k >> 8) as u8;
                g
            }
            (1, _) => {
                let mut g: Fingerprint = random.bytes(32).try_into().unwrap();
                g[0] = base[0];
                g[1] = base[1];
                g
            }
            _ => random.bytes(32).try_into().unwrap(),
        })
        .collect()
}

/// Sound tables that pass 6, 7 and 8, of at most `most_m` and `most_d` rows.
pub fn sound(random: &mut Random, most_m: usize, most_d: usize) -> Tables {
    let m = 1 + random.below(most_m);
    let d = 1 + random.below(most_d);
    let n = match random.below(4) {
        0 => m,
        _ => random.below(m + 1),
    };
    let p = match random.below(4) {
        0 => 65_536,
        1 => n.max(1),
        _ => n.max(1) + random.below(65_537 - n.max(1)),
    };
    let used = match random.below(4) {
        0 => d,
        _ => random.below(d + 1),
    };
    let others = 1 + random.below(m + 1);
    let fingerprints = pool(random, d + others);
    let mut slots: Vec<u32> = (0..d as u32).collect();
    shuffle(random, &mut slots);
    let blocks: Vec<BlockRow> = slots
        .iter()
        .enumerate()
        .map(|(k, slot)| match k < d - used {
            true => BlockRow::new([0; 32], *slot, 0),
            false => BlockRow::new(fingerprints[k - (d - used)], *slot, 1),
        })
        .collect();
    let start = random.below(p);
    let mut addresses: Vec<usize> = (0..n).map(|k| (start + k) % p).collect();
    if n <= p / 2 {
        let mut seen = HashSet::new();
        while seen.len() < n {
            let a = random.below(p);
            if seen.insert(a) {
                addresses[seen.len() - 1] = a;
            }
        }
    }
    let mut held: Vec<AddressRow> = Vec::new();
    for address in addresses {
        let choice = random.below(fingerprints.len());
        let cached = choice < used;
        let seat = [0, 1, 255, 256, 65_535, random.below(65_536)][random.below(6)] as u16;
        held.push(AddressRow::new(address as u32, fingerprints[choice], (cached && random.below(2) == 0) as u8, seat));
    }
    shuffle(random, &mut held);
    Tables { p, m, n, d, addresses: write_addresses(&held, m), blocks: write_blocks(&blocks) }
}

fn shuffle<T>(random: &mut Random, list: &mut [T]) {
    for k in (1..list.len()).rev() {
        list.swap(k, random.below(k + 1));
    }
}

/// The ways of breaking tables, each with the number of the refusal.
#[derive(Clone, Copy, Debug, PartialEq)]
pub enum Damage {
    TooManyHeld,
    AddressTooLarge,
    AddressTwice,
    DirtyAboveOne,
    AddressPadding,
    TailNotZero,
    SeatBehind,
    FreeAfterUsed,
    UsedAboveOne,
    BlockPadding,
    FreeWithFingerprint,
    SlotTwice,
    SlotTooLarge,
    FingerprintTwice,
    DirtyUncached,
}

pub const DAMAGES: [(Damage, u32); 15] = [
    (Damage::TooManyHeld, 6),
    (Damage::AddressTooLarge, 6),
    (Damage::AddressTwice, 6),
    (Damage::DirtyAboveOne, 6),
    (Damage::AddressPadding, 6),
    (Damage::TailNotZero, 6),
    (Damage::SeatBehind, 6),
    (Damage::FreeAfterUsed, 7),
    (Damage::UsedAboveOne, 7),
    (Damage::BlockPadding, 7),
    (Damage::FreeWithFingerprint, 7),
    (Damage::SlotTwice, 7),
    (Damage::SlotTooLarge, 7),
    (Damage::FingerprintTwice, 7),
    (Damage::DirtyUncached, 8),
];

/// Breaks the tables in one way. Answers false, and changes nothing, where these tables cannot be broken so.
pub fn damage(random: &mut Random, t: &mut Tables, kind: Damage) -> bool {
    let n = t.n.min(t.m);
    let held = read_addresses(&t.addresses, n);
    let blocks = read_blocks(&t.blocks);
    let used: Vec<usize> = (0..t.d).filter(|k| blocks[*k].used == 1).collect();
    let free: Vec<usize> = (0..t.d).filter(|k| blocks[*k].used == 0).collect();
    let row = random.below(n.max(1)) * 40;
    let block = random.below(t.d) * 40;
    match kind {
        Damage::TooManyHeld => {
            t.n = match random.below(3) {
                0 => t.m + 1,
                1 => usize::MAX,
                _ => t.m + 1 + random.below(2_000),
            };
        }
        Damage::AddressTooLarge if n > 0 => {
            let address = match random.below(3) {
                0 => t.p as u32,
                1 => u32::MAX,
                _ => (t.p + random.below(1 << 31)) as u32,
            };
            t.addresses[row..row + 4].copy_from_slice(&address.to_le_bytes());
        }
        Damage::AddressTwice if n > 1 => {
            let one = random.below(n);
            let two = (one + 1 + random.below(n - 1)) % n;
            t.addresses.copy_within(one * 40..one * 40 + 4, two * 40);
        }
        Damage::DirtyAboveOne if n > 0 => t.addresses[row + 36] = 2 + random.below(254) as u8,
        Damage::AddressPadding if n > 0 => t.addresses[row + 39] = 1 + random.below(255) as u8,
        Damage::TailNotZero if n < t.m => {
            let place = n * 40 + random.below((t.m - n) * 40);
            t.addresses[place] = 1 + random.below(255) as u8;
        }
        // A seat in a row that is not held.
        Damage::SeatBehind if n < t.m => t.addresses[(n + random.below(t.m - n)) * 40 + 37 + random.below(2)] = 1 + random.below(255) as u8,
        Damage::FreeAfterUsed if !used.is_empty() && !free.is_empty() => {
            let one = free[random.below(free.len())];
            let two = used[random.below(used.len())];
            let mut rows = blocks;
            rows.swap(one, two);
            t.blocks = write_blocks(&rows);
        }
        Damage::UsedAboveOne => t.blocks[block + 36] = 2 + random.below(254) as u8,
        Damage::BlockPadding => t.blocks[block + 37 + random.below(3)] = 1 + random.below(255) as u8,
        Damage::FreeWithFingerprint if !free.is_empty() => {
            t.blocks[free[random.below(free.len())] * 40 + random.below(32)] = 1 + random.below(255) as u8;
        }
        Damage::SlotTwice if t.d > 1 => {
            let one = random.below(t.d);
            let two = (one + 1 + random.below(t.d - 1)) % t.d;
            t.blocks.copy_within(one * 40 + 32..one * 40 + 36, two * 40 + 32);
        }
        Damage::SlotTooLarge => {
            let slot = match random.below(3) {
                0 => t.d as u32,
                1 => u32::MAX,
                _ => t.d as u32 + random.below(1 << 31) as u32,
            };
            t.blocks[block + 32..block + 36].copy_from_slice(&slot.to_le_bytes());
        }
        Damage::FingerprintTwice if used.len() > 1 => {
            let one = random.below(used.len());
            let two = (one + 1 + random.below(used.len() - 1)) % used.len();
            t.blocks.copy_within(used[one] * 40..used[one] * 40 + 32, used[two] * 40);
        }
        Damage::DirtyUncached => {
            let uncached = |h: &AddressRow| blocks.iter().all(|b| b.used != 1 || b.fingerprint != h.fingerprint);
            let candidates: Vec<usize> = (0..n).filter(|k| uncached(&held[*k])).collect();
            if candidates.is_empty() {
                return false;
            }
            t.addresses[candidates[random.below(candidates.len())] * 40 + 36] = 1;
        }
        _ => return false,
    }
    true
}

/// Any bytes in tables of a few rows, of sizes that need not fit.
pub fn noise(random: &mut Random) -> Tables {
    let numbers = [0, 1, 2, 3, 4, 5, 255, 256, 257, 1_023, 1_024, 1_025, 65_535, 65_536, 65_537, 461_168_601_842_738_791, usize::MAX];
    let mut number = |small: bool| match small {
        true => numbers[random.below(6)],
        false => numbers[random.below(numbers.len())],
    };
    let (p, m, n, d) = (number(false), number(true), number(true), number(true));
    let (wide_m, wide_n, wide_d) = (number(false), number(false), number(false));
    let lengths = [m * 40, d * 40].map(|length| match random.below(8) {
        0 => length + 1,
        1 => length.saturating_sub(1),
        _ => length,
    });
    let bytes = |random: &mut Random, length: usize| (0..length).map(|_| [0, 0, 0, 1, 2, 255][random.below(6)]).collect();
    let pick = |random: &mut Random, near: usize, far: usize| if random.below(4) == 0 { far } else { near };
    Tables {
        p,
        m: pick(random, m, wide_m),
        n: pick(random, n, wide_n),
        d: pick(random, d, wide_d),
        addresses: bytes(random, lengths[0]),
        blocks: bytes(random, lengths[1]),
    }
}
