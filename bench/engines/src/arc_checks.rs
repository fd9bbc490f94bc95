//! The refusals of a D-ARC box.
use crate::arc_lists::{word, B1, B2, B3, T1, T2, WORD};
use crate::checks::{addresses_sound, all_zero, blocks_sound};
use crate::engine::Index;
use crate::layout::*;

/// The state of a D-ARC box: that of a D-LRU box with C and X for m and d, then p and the five sizes.
pub const ARC_STATE: usize = 192;
pub const ADAPTIVE: usize = 18;
pub const LIST_SIZES: usize = 19;

#[derive(Clone, Copy)]
pub struct ArcSizes {
    /// m is 2 × C + X, d is C.
    pub tables: Sizes,
    pub p: usize,
    pub lists: [usize; 5],
}

/// The numbers of the box, where B, P, C, X and the limit are in their sets.
pub fn arc_sizes(state: &[u8]) -> Result<ArcSizes, u32> {
    let [b, p, c, x, n] = std::array::from_fn(|k| number(state, k));
    let good = b.is_power_of_two() && (64..=4096).contains(&b) && (1..=65_536).contains(&p) && (1..=256).contains(&c) && x <= 1024 - 2 * c;
    if !good {
        return Err(11);
    }
    let (m, t) = (2 * c + x, number(state, LIMIT));
    if !(1..=m).contains(&t) {
        return Err(12);
    }
    let some = |number: u64| usize::try_from(number).unwrap_or(usize::MAX);
    let tables = Sizes { b: b as usize, p: p as usize, m: m as usize, d: c as usize, n: some(n), t: t as usize };
    Ok(ArcSizes { tables, p: some(number(state, ADAPTIVE)), lists: std::array::from_fn(|k| some(number(state, LIST_SIZES + k))) })
}

/// The refusals that need no table: 11, 12, 2 and 3. An address is `None` in a call without one, and so is a block.
pub fn numbers(state: &[u8], lengths: [usize; 5], a: Option<u32>, block: Option<usize>) -> Result<ArcSizes, u32> {
    let sizes = arc_sizes(state)?;
    let Sizes { b, p, m, d, .. } = sizes.tables;
    if lengths != [p * b, d * b, m * ROW, d * ROW, m * WORD] || block.is_some_and(|length| length != b) {
        return Err(2);
    }
    if a.is_some_and(|a| a as usize >= p) {
        return Err(3);
    }
    Ok(sizes)
}

/// For each block row how many addresses of T1 and T2 have its fingerprint.
pub type Tops = [u16; 256];

/// Adds the used block rows to the index, and gives the first refusal of 6, 7, 8 and 13 that applies, or the tops.
pub fn check<I: Index>(sizes: &ArcSizes, addresses: &[u8], blocks: &[u8], lists: &[u8], index: &mut I) -> Result<Tops, u32> {
    if sizes.tables.p <= 64 * 64 {
        check_by::<I, 64>(sizes, addresses, blocks, lists, index)
    } else {
        check_by::<I, 1024>(sizes, addresses, blocks, lists, index)
    }
}

/// With a bit for each of WORDS * 64 addresses.
fn check_by<I: Index, const WORDS: usize>(sizes: &ArcSizes, addresses: &[u8], blocks: &[u8], lists: &[u8], index: &mut I) -> Result<Tops, u32> {
    let Sizes { d, n, t, .. } = sizes.tables;
    if !addresses_sound(&sizes.tables, addresses) || !sizes_sound(sizes) {
        return Err(6);
    }
    let held = &addresses[..n * ROW];
    let in_tops = names::<WORDS>(sizes, held, lists).ok_or(6u32)?;
    if !blocks_sound(d, blocks, index) {
        return Err(7);
    }
    let (mut tops, mut dirty) = ([0; 256], 0);
    for row in rows(held) {
        let a = address(row) as usize;
        let is_top = in_tops[a / 64] >> (a % 64) & 1 == 1;
        if is_top || is_dirty(row) {
            let place = index.find(blocks, held_fingerprint(row)).ok_or(8u32)?;
            tops[place] += is_top as u16;
            dirty += is_dirty(row) as usize;
        }
    }
    if dirty > t {
        return Err(13);
    }
    Ok(tops)
}

/// Whether the sizes are those of n addresses and pass no bound, and p is at most C.
fn sizes_sound(sizes: &ArcSizes) -> bool {
    let Sizes { m, d, n, .. } = sizes.tables;
    let list = &sizes.lists;
    let bounded = list.iter().all(|size| *size <= m) && list[T1] + list[T2] + list[B3] <= m - d && list[B1] + list[B2] <= d;
    bounded && list.iter().sum::<usize>() == n && sizes.p <= d
}

/// The addresses of T1 and T2 by their bits; none where the lists, of as many addresses as there are held rows, don't name each held address, or are not
/// followed by zeros.
fn names<const WORDS: usize>(sizes: &ArcSizes, held: &[u8], lists: &[u8]) -> Option<[u64; WORDS]> {
    let (mut left, mut in_tops) = ([0u64; WORDS], [0u64; WORDS]);
    for row in rows(held) {
        let a = address(row) as usize;
        left[a / 64] |= 1 << (a % 64);
    }
    let (n, tops) = (held.len() / ROW, sizes.lists[T1] + sizes.lists[T2]);
    for k in 0..n {
        let a = word(lists, k) as usize;
        let bit = 1 << (a % 64);
        if a >= sizes.tables.p || left[a / 64] & bit == 0 {
            return None;
        }
        left[a / 64] &= !bit;
        in_tops[a / 64] |= if k < tops { bit } else { 0 };
    }
    all_zero(&lists[n * WORD..]).then_some(in_tops)
}
