//! Images of D-ARC boxes (document 02, U10): their bodies, saves and restores. Header, writes and power cuts are those of `crate::image`.
use super::lent::{refusal_of_body, ARC_STATE, WORD};
use super::{ArcLent, ArcNumbers};
use crate::image::{apply, area_length, header_length, writes_of, Write, HEADER};
use crate::*;

/// "for D-ARC 1, B, P, C, X, n, t, p and the five list sizes, 4 bytes each", before the label.
pub const BODY_NUMBERS: usize = 52;

/// The body of a D-ARC box: "then label, tables and lists", as they are.
pub fn body(lent: &ArcLent) -> Vec<u8> {
    let ArcNumbers { b, p, c, x, n, label, t, adaptive, sizes, .. } = lent.numbers();
    let numbers = [&[1, b, p, c, x, n, t, adaptive][..], &sizes].concat();
    let bytes: Vec<u8> = numbers.iter().flat_map(|number| u32::try_from(*number).expect("a number of a box that is saved").to_le_bytes()).collect();
    [&bytes[..], &label, &lent.base.addresses, &lent.base.blocks, &lent.lists].concat()
}

/// The length of the body of a box of this C and X, in numbers of 128 bits, in which no product is too large.
pub fn body_length(c: u64, x: u64) -> u128 {
    let m = 2 * c as u128 + x as u128;
    (BODY_NUMBERS + LABEL) as u128 + (m + c as u128) * ROW as u128 + m * WORD as u128
}

/// The length of an area that has room for an image of such a box, and for no byte more.
pub fn room(c: usize, x: usize) -> usize {
    area_length(body_length(c as u64, x as u64)) as usize
}

/// The writes of a save of this box, in their order.
pub fn writes(lent: &ArcLent) -> Vec<Write> {
    writes_of(&body(lent))
}

/// The number with which a save is refused, 0 where it is served. A state or an answer of another length comes before all.
pub fn refusal_save(lent: &ArcLent, area: &[u8]) -> u32 {
    match super::refusal(Call::Flush, 0, lent) {
        0 => {
            let ArcNumbers { c, x, .. } = lent.numbers();
            14 * ((area.len() as u128) < area_length(body_length(c, x))) as u32
        }
        number => number,
    }
}

/// A save: "flushes, then writes". A refused one changes nothing.
pub fn carry_out_save(lent: &mut ArcLent, area: &mut [u8]) -> u32 {
    let number = refusal_save(lent, area);
    if number == 0 {
        assert_eq!(super::carry_out(Call::Flush, 0, lent), 0);
        apply(area, &writes(lent));
    }
    number
}

/// The D-ARC box in a body, without counters, disk and flash. 16 where it is of another kind, "isn't as long as its record says or fails [..] 11, 12, 6, 7,
/// 8 or 13".
fn read_body(body: &[u8]) -> Result<ArcLent, u32> {
    if body.len() < BODY_NUMBERS {
        return Err(16);
    }
    let number = |k: usize| u32::from_le_bytes(body[k * 4..k * 4 + 4].try_into().unwrap()) as u64;
    let [kind, b, p, c, x, n, t, adaptive] = std::array::from_fn(number);
    if kind != 1 || body.len() as u128 != body_length(c, x) {
        return Err(16);
    }
    let sizes = std::array::from_fn(|k| number(8 + k));
    let (label, rest) = body[BODY_NUMBERS..].split_at(LABEL);
    let (addresses, rest) = rest.split_at((2 * c + x) as usize * ROW);
    let (blocks, lists) = rest.split_at(c as usize * ROW);
    let state = ArcNumbers { b, p, c, x, n, counters: [0; 4], label: label.try_into().unwrap(), t, adaptive, sizes }.to_bytes();
    let base = Lent { state, addresses: addresses.to_vec(), blocks: blocks.to_vec(), ..Lent::default() };
    let lent = ArcLent { base, lists: lists.to_vec() };
    match refusal_of_body(&lent) {
        0 => Ok(lent),
        _ => Err(16),
    }
}

/// The D-ARC box that a restore of this area gives back, by a caller whose buffers for tables and lists have these lengths; or the number of its refusal.
pub fn found(area: &[u8], addresses: usize, blocks: usize, lists: usize) -> Result<ArcLent, u32> {
    let length = header_length(area).ok_or(15u32)?;
    if (area.len() as u128) < area_length(length as u128) {
        return Err(14);
    }
    let saved = read_body(&area[HEADER..][..length as usize])?;
    if saved.base.addresses.len() != addresses || saved.base.blocks.len() != blocks || saved.lists.len() != lists {
        return Err(2);
    }
    Ok(saved)
}

/// A restore: "reads the header, clears it, and gives back the saved box, touching nothing else". "A refused restore returns a record of zeros." The
/// counters in the state are the caller's.
pub fn carry_out_restore(lent: &mut ArcLent, area: &mut [u8]) -> u32 {
    if lent.base.state.len() != ARC_STATE {
        return 2;
    }
    let counters = lent.numbers().counters;
    match found(area, lent.base.addresses.len(), lent.base.blocks.len(), lent.lists.len()) {
        Ok(saved) => {
            lent.base.state = ArcNumbers { counters, ..saved.numbers() }.to_bytes();
            lent.base.addresses = saved.base.addresses;
            lent.base.blocks = saved.base.blocks;
            lent.lists = saved.lists;
            area[..HEADER].fill(0);
            0
        }
        Err(number) => {
            let zeros = ArcNumbers { b: 0, p: 0, c: 0, x: 0, n: 0, counters, label: ZEROS, t: 0, adaptive: 0, sizes: [0; 5] };
            lent.base.state = zeros.to_bytes();
            number
        }
    }
}
