//! Images of a box in a lent area (document 02, U10): their bytes, the writes of a save, what a power cut leaves of them, and both calls with their refusals.
use crate::lent::first_of;
use crate::*;

/// "The header is the area's first 64 bytes", and a body is written "in writes of 64 bytes".
pub const HEADER: usize = 64;
pub const WRITE: usize = 64;
/// "0, B, P, m, d, n, t [..] 4 bytes each", before the label.
pub const BODY_NUMBERS: usize = 28;
/// "1, B, P, C, X, n, t, p and the five list sizes": those of a D-ARC box.
const ARC_NUMBERS: usize = 52;
/// The refusals that a save checks, in the order of the documents: those of a flush, and 14 "in a save after all else".
pub const SAVE_CHECKS: [u32; 9] = [1, 12, 2, 6, 7, 8, 13, 9, 14];
/// Those that a restore checks. A state that is not 144 bytes comes before them.
pub const RESTORE_CHECKS: [u32; 4] = [15, 14, 16, 2];
/// What 16 asks of the box in a body.
const BOX_CHECKS: [u32; 6] = [1, 12, 6, 7, 8, 13];

/// One write of a save: the byte of the area where it starts, and its bytes.
pub type Write = (usize, [u8; WRITE]);

/// "mark `VBX`, version 1 (16 bits, little-endian), body length without fill (32 bits, little-endian), zeros"
pub fn header(length: u32) -> [u8; HEADER] {
    let mut bytes = [0; HEADER];
    bytes[..3].copy_from_slice(b"VBX");
    bytes[3..5].copy_from_slice(&1u16.to_le_bytes());
    bytes[5..9].copy_from_slice(&length.to_le_bytes());
    bytes
}

/// The body length in a header of version 1, none where it is no such header.
pub fn header_length(bytes: &[u8]) -> Option<u32> {
    let length = u32::from_le_bytes(bytes.get(5..9)?.try_into().unwrap());
    (bytes.get(..HEADER)? == header(length)).then_some(length)
}

/// The body of a box: its numbers, its label and its tables, as they are.
pub fn body(lent: &Lent) -> Vec<u8> {
    let Numbers { b, p, m, d, n, label, t, .. } = lent.numbers();
    let numbers = [0, b, p, m, d, n, t].map(|number| u32::try_from(number).expect("a number of a box that is saved").to_le_bytes());
    [&numbers.concat()[..], &label, &lent.addresses, &lent.blocks].concat()
}

/// The length of a body of so many address rows and block rows, in numbers of 128 bits, in which no product is too large.
pub fn body_length(m: u64, d: u64) -> u128 {
    (BODY_NUMBERS + LABEL) as u128 + (m as u128 + d as u128) * ROW as u128
}

/// The length of an area that has room for header, body and fill, and for no byte more.
pub fn area_length(body_length: u128) -> u128 {
    HEADER as u128 + body_length.div_ceil(WRITE as u128) * WRITE as u128
}

/// The same for a box of so many rows that can be saved.
pub fn room(m: usize, d: usize) -> usize {
    area_length(body_length(m as u64, d as u64)) as usize
}

/// The writes of a save of this box, in their order: "The first write clears the header, the next ones fill the body in rising order, the last one writes the
/// header", with "zeros filling the last" of the body.
pub fn writes(lent: &Lent) -> Vec<Write> {
    writes_of(&body(lent))
}

/// The same for a body of either kind of box.
pub(crate) fn writes_of(body: &[u8]) -> Vec<Write> {
    let part = |k: usize| std::array::from_fn(|i| body.get(k * WRITE + i).copied().unwrap_or(0));
    let parts = (0..body.len().div_ceil(WRITE)).map(|k| (HEADER + k * WRITE, part(k)));
    [(0, [0; HEADER])].into_iter().chain(parts).chain([(0, header(body.len() as u32))]).collect()
}

/// Carries writes out, in their order.
pub fn apply(area: &mut [u8], writes: &[Write]) {
    for (place, bytes) in writes {
        area[*place..*place + WRITE].copy_from_slice(bytes);
    }
}

/// What power failing at write `at` leaves: "earlier writes are new, later ones old, and the one at the cut is junk, except that a header write is
/// wholly old or wholly new".
pub fn cut(area: &mut [u8], writes: &[Write], at: usize, junk: [u8; WRITE], header_is_new: bool) {
    apply(area, &writes[..at]);
    let (place, bytes) = writes[at];
    match place {
        0 if !header_is_new => {}
        0 => apply(area, &[(0, bytes)]),
        _ => apply(area, &[(place, junk)]),
    }
}

/// The number with which a save is refused, 0 where it is served. A state or an answer of another length comes before all.
pub fn refusal_save(lent: &Lent, area: &[u8]) -> u32 {
    match refusal(Call::Flush, 0, lent) {
        0 => {
            let Numbers { m, d, .. } = lent.numbers();
            14 * ((area.len() as u128) < area_length(body_length(m, d))) as u32
        }
        number => number,
    }
}

/// A save: "flushes, then writes". A refused one changes nothing.
pub fn carry_out_save(lent: &mut Lent, area: &mut [u8]) -> u32 {
    let number = refusal_save(lent, area);
    if number == 0 {
        assert_eq!(carry_out(Call::Flush, 0, lent), 0);
        apply(area, &writes(lent));
    }
    number
}

/// The first numbers of a body, 16 where it is too short for them.
fn numbers_in<const K: usize>(body: &[u8]) -> Result<[u64; K], u32> {
    let numbers = body.get(..K * 4).ok_or(16u32)?;
    Ok(std::array::from_fn(|k| u32::from_le_bytes(numbers[k * 4..k * 4 + 4].try_into().unwrap()) as u64))
}

/// The box in a body, without counters, disk and flash, and the bytes of its lists. 16 for "a body that starts above 1, isn't as long as its record says or
/// fails 1, 11, 12, 6, 7, 8 or 13".
fn read_body(body: &[u8]) -> Result<(Lent, Vec<u8>), u32> {
    match numbers_in::<1>(body)? {
        [0] => Ok((read_lru(body)?, vec![])),
        [1] => read_arc(body),
        _ => Err(16),
    }
}

fn read_lru(body: &[u8]) -> Result<Lent, u32> {
    let [_, b, p, m, d, n, t] = numbers_in(body)?;
    if body.len() as u128 != body_length(m, d) {
        return Err(16);
    }
    let (label, tables) = body[BODY_NUMBERS..].split_at(LABEL);
    let (addresses, blocks) = tables.split_at(m as usize * ROW);
    let lent = Lent {
        state: Numbers { b, p, m, d, n, counters: [0; 4], label: label.try_into().unwrap(), t }.to_bytes(),
        addresses: addresses.to_vec(),
        blocks: blocks.to_vec(),
        ..Lent::default()
    };
    match first_of(&BOX_CHECKS, &lent, |_| false) {
        0 => Ok(lent),
        _ => Err(16),
    }
}

/// The same of a D-ARC box, whose "m is 2 × C + X". This library runs none: in its state C and X stand where m and d do.
fn read_arc(body: &[u8]) -> Result<(Lent, Vec<u8>), u32> {
    let [_, b, p, c, x, n, t, last_p, t1, t2, b1, b2, b3] = numbers_in(body)?;
    let m = 2 * c + x;
    if body.len() as u128 != (ARC_NUMBERS + LABEL) as u128 + (m as u128 + c as u128) * ROW as u128 + m as u128 * 4 {
        return Err(16);
    }
    let (label, rest) = body[ARC_NUMBERS..].split_at(LABEL);
    let (addresses, rest) = rest.split_at(m as usize * ROW);
    let (blocks, lists) = rest.split_at(c as usize * ROW);
    let with = |m: u64, d: u64| Lent {
        state: Numbers { b, p, m, d, n, counters: [0; 4], label: label.try_into().unwrap(), t }.to_bytes(),
        addresses: addresses.to_vec(),
        blocks: blocks.to_vec(),
        ..Lent::default()
    };
    // "T1, T2 and B3 hold at most C + X together, B1 and B2 together at most C", and p is at most C; 11 is 1 of m and C.
    let oversized = t1 + t2 + b3 > c + x || b1 + b2 > c || last_p > c;
    let base = with(m, c);
    if first_of(&BOX_CHECKS, &base, |_| false) != 0 || oversized || misnamed(&base, lists, (t1 + t2) as usize, (t1 + t2 + b1 + b2 + b3) as usize) {
        return Err(16);
    }
    Ok((with(c, x), lists.to_vec()))
}

/// "lists that don't name each held address once and no other", "a nonzero byte after them", or "an address of T1 or T2 without its block".
fn misnamed(base: &Lent, lists: &[u8], tops: usize, total: usize) -> bool {
    let (rows, blocks) = read_tables(base);
    let held = &rows[..base.numbers().n as usize];
    let (named, after) = lists.split_at(total * 4);
    let names: Vec<u32> = named.chunks_exact(4).map(|name| u32::from_le_bytes(name.try_into().unwrap())).collect();
    let cached = |row: &AddressRow| blocks.iter().any(|block| block.used == 1 && block.fingerprint == row.fingerprint);
    after.iter().any(|byte| *byte != 0)
        || held.iter().any(|row| names.iter().filter(|name| **name == row.address).count() != 1)
        || names.iter().any(|name| held.iter().all(|row| row.address != *name))
        || held.iter().any(|row| names[..tops].contains(&row.address) && !cached(row))
}

/// The box that a restore of this area gives back, by a caller whose buffers for tables and lists have these lengths; or the number of its refusal.
pub fn found(area: &[u8], addresses: usize, blocks: usize, lists: usize) -> Result<Lent, u32> {
    let length = header_length(area).ok_or(15u32)?;
    if (area.len() as u128) < area_length(length as u128) {
        return Err(14);
    }
    let (saved, saved_lists) = read_body(&area[HEADER..][..length as usize])?;
    // "for a D-LRU image the lists' buffer has length 0"
    if saved.addresses.len() != addresses || saved.blocks.len() != blocks || saved_lists.len() != lists {
        return Err(2);
    }
    assert!(lists == 0, "no test lends a D-ARC image its own lengths");
    Ok(saved)
}

/// A restore: "reads the header, clears it, and gives back the saved box, touching nothing else". "A refused restore returns a record of zeros." The
/// counters in the state are the caller's. The bytes of `lists` are never looked at.
pub fn carry_out_restore(lent: &mut Lent, area: &mut [u8], lists: usize) -> u32 {
    if lent.state.len() != STATE {
        return 2;
    }
    let counters = lent.numbers().counters;
    match found(area, lent.addresses.len(), lent.blocks.len(), lists) {
        Ok(saved) => {
            lent.state = Numbers { counters, ..saved.numbers() }.to_bytes();
            lent.addresses = saved.addresses;
            lent.blocks = saved.blocks;
            area[..HEADER].fill(0);
            0
        }
        Err(number) => {
            lent.state = Numbers { b: 0, p: 0, m: 0, d: 0, n: 0, counters, label: ZEROS, t: 0 }.to_bytes();
            number
        }
    }
}
