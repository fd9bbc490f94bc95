//! The refusals of the tables, 6, 7, 8 and 13.
use crate::engine::Index;
use crate::layout::*;

/// Adds the used block rows to the index, and gives the first refusal that applies.
pub fn check<I: Index>(sizes: &Sizes, addresses: &[u8], blocks: &[u8], index: &mut I) -> Result<(), u32> {
    if !addresses_sound(sizes, addresses) {
        return Err(6);
    }
    if !blocks_sound(sizes.d, blocks, index) {
        return Err(7);
    }
    let mut dirty = 0;
    for row in rows(&addresses[..sizes.n * ROW]).filter(|row| is_dirty(row)) {
        if !index.has(blocks, held_fingerprint(row)) {
            return Err(8);
        }
        dirty += 1;
    }
    if dirty > sizes.t {
        return Err(13);
    }
    Ok(())
}

pub(crate) fn addresses_sound(sizes: &Sizes, addresses: &[u8]) -> bool {
    let Sizes { p, m, n, .. } = *sizes;
    if n > m {
        return false;
    }
    let (held, behind) = addresses.split_at(n * ROW);
    let held_sound = if p <= 64 * 64 { held_sound::<64>(p, held) } else { held_sound::<1024>(p, held) };
    held_sound && all_zero(behind)
}

/// Whether each row is one of an address below `p`, and no address comes twice: there is a bit for each of WORDS * 64 addresses.
fn held_sound<const WORDS: usize>(p: usize, held: &[u8]) -> bool {
    let mut seen = [0u64; WORDS];
    rows(held).all(|row| {
        let a = address(row) as usize;
        a < p && held_tail_ok(row) && {
            let (word, bit) = (&mut seen[a / 64], 1 << (a % 64));
            let new = *word & bit == 0;
            *word |= bit;
            new
        }
    })
}

/// Whether all bytes are zero: parts of 128 without a branch inside, so that the compiler takes them by its widest words.
pub(crate) fn all_zero(bytes: &[u8]) -> bool {
    bytes.chunks(128).all(|part| part.iter().fold(0, |all, byte| all | byte) == 0)
}

pub(crate) fn blocks_sound<I: Index>(d: usize, blocks: &[u8], index: &mut I) -> bool {
    index.reserve(d);
    let mut slots = [false; 256];
    let mut any_used = false;
    rows(blocks).enumerate().all(|(k, row)| {
        let slot = slot(row);
        any_used |= is_used(row);
        let alone = block_tail_ok(row) && slot < d && !std::mem::replace(&mut slots[slot], true);
        alone && if is_used(row) { index.add(blocks, k) } else { !any_used && all_zero(cached_fingerprint(row)) }
    })
}
