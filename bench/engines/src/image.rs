//! Images of a box in a lent area: save and restore.
use crate::checks::check;
use crate::engine::{checked, flush, Index, FIRST_COUNTER};
use crate::layout::*;

/// The length of a header and of each write.
const WRITE: usize = 64;
/// The numbers in a body, of 4 bytes each: the kind, B, P, m, d, n and t. Those of a box stand at these places of its state.
const NUMBERS: usize = 28;
const PLACES: [usize; 6] = [0, 1, 2, 3, 4, LIMIT];

type Write = [u8; WRITE];

fn header(length: usize) -> Write {
    let mut bytes = [0; WRITE];
    bytes[..5].copy_from_slice(b"VBX\x01\x00");
    bytes[5..9].copy_from_slice(&(length as u32).to_le_bytes());
    bytes
}

fn body_length(m: usize, d: usize) -> usize {
    NUMBERS + LABEL + (m + d) * ROW
}

/// The bytes that an area needs for the header, a body of this length and the zeros behind it.
fn room(length: usize) -> usize {
    WRITE + length.div_ceil(WRITE) * WRITE
}

/// Not inlined, so that no write is left out or done later for the sake of another.
#[inline(never)]
fn put(area: &mut [u8], k: usize, bytes: &Write) {
    area[k * WRITE..(k + 1) * WRITE].copy_from_slice(bytes);
}

pub fn save<I: Index>(
    state: &mut [u8],
    disk: &mut [u8],
    flash: &[u8],
    addresses: &mut [u8],
    blocks: &[u8],
    area: &mut [u8],
    answer: &mut [u8],
) -> Result<(), u32> {
    let sizes = checked(&mut I::default(), state, None, disk, flash, addresses, blocks, None, answer, true)?;
    let length = body_length(sizes.m, sizes.d);
    if area.len() < room(length) {
        return Err(14);
    }
    flush::<I>(state, usize::MAX, disk, flash, addresses, blocks, answer)?;
    let mut body = vec![0; 4];
    body.extend(PLACES.iter().flat_map(|k| (number(state, *k) as u32).to_le_bytes()));
    body.extend(label(state));
    body.extend_from_slice(addresses);
    body.extend_from_slice(blocks);
    put(area, 0, &[0; WRITE]);
    for (k, part) in body.chunks(WRITE).enumerate() {
        let mut bytes = [0; WRITE];
        bytes[..part.len()].copy_from_slice(part);
        put(area, 1 + k, &bytes);
    }
    put(area, 0, &header(length));
    Ok(())
}

/// The state of the box in an area, without counters, and its tables.
fn found<I: Index>(area: &[u8]) -> Result<([u8; STATE], &[u8], &[u8]), u32> {
    let word = |place: usize| u32::from_le_bytes(area[place..place + 4].try_into().unwrap()) as usize;
    if area.len() < WRITE || area[..WRITE] != header(word(5)) {
        return Err(15);
    }
    let length = word(5);
    if area.len() < room(length) {
        return Err(14);
    }
    let body = &area[WRITE..WRITE + length];
    if length < NUMBERS || word(WRITE) > 0 || length != body_length(word(WRITE + 12), word(WRITE + 16)) {
        return Err(16);
    }
    let mut state = [0; STATE];
    for (k, place) in PLACES.into_iter().enumerate() {
        set_number(&mut state, place, word(WRITE + 4 + k * 4) as u64);
    }
    set_label(&mut state, &body[NUMBERS..NUMBERS + LABEL]);
    let sizes = sizes(&state).map_err(|_| 16u32)?;
    let (addresses, blocks) = body[NUMBERS + LABEL..].split_at(sizes.m * ROW);
    check(&sizes, addresses, blocks, &mut I::default()).map_err(|_| 16u32)?;
    Ok((state, addresses, blocks))
}

/// Fills all of the state but the counters.
fn set_record(state: &mut [u8], record: &[u8; STATE]) {
    state[..FIRST_COUNTER * 8].copy_from_slice(&record[..FIRST_COUNTER * 8]);
    state[LABEL_START..].copy_from_slice(&record[LABEL_START..]);
}

pub fn restore<I: Index>(state: &mut [u8], area: &mut [u8], addresses: &mut [u8], blocks: &mut [u8], lists: &[u8]) -> Result<(), u32> {
    if state.len() != STATE {
        return Err(2);
    }
    set_record(state, &[0; STATE]);
    let (record, saved_addresses, saved_blocks) = found::<I>(area)?;
    if addresses.len() != saved_addresses.len() || blocks.len() != saved_blocks.len() || !lists.is_empty() {
        return Err(2);
    }
    set_record(state, &record);
    addresses.copy_from_slice(saved_addresses);
    blocks.copy_from_slice(saved_blocks);
    put(area, 0, &[0; WRITE]);
    Ok(())
}
