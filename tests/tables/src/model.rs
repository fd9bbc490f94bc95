//! The two tables as documents 01 and 02 describe them, on lists of records. Written from the documents alone.
use crate::Tables;
use std::collections::HashSet;

pub type Fingerprint = [u8; 32];

/// "An address row: address (4 bytes, little-endian), fingerprint (32), dirty byte, 3 zero bytes." "The first two padding bytes of an address row become a seat
/// number, little-endian" (document 02, U7).
#[derive(Clone, Debug, PartialEq)]
pub struct AddressRow {
    pub address: u32,
    pub fingerprint: Fingerprint,
    pub dirty: u8,
    pub seat: u16,
    pub padding: u8,
}

/// "A block row: fingerprint (32), slot (4, little-endian), used byte (1 or 0), 3 zero bytes."
#[derive(Clone, Debug, PartialEq)]
pub struct BlockRow {
    pub fingerprint: Fingerprint,
    pub slot: u32,
    pub used: u8,
    pub padding: [u8; 3],
}

impl AddressRow {
    pub fn new(address: u32, fingerprint: Fingerprint, dirty: u8, seat: u16) -> AddressRow {
        AddressRow { address, fingerprint, dirty, seat, padding: 0 }
    }

    fn read(row: &[u8]) -> AddressRow {
        AddressRow {
            address: u32::from_le_bytes(row[0..4].try_into().unwrap()),
            fingerprint: row[4..36].try_into().unwrap(),
            dirty: row[36],
            seat: u16::from_le_bytes(row[37..39].try_into().unwrap()),
            padding: row[39],
        }
    }

    fn bytes(&self) -> Vec<u8> {
        [&self.address.to_le_bytes()[..], &self.fingerprint, &[self.dirty], &self.seat.to_le_bytes(), &[self.padding]].concat()
    }
}

impl BlockRow {
    pub fn new(fingerprint: Fingerprint, slot: u32, used: u8) -> BlockRow {
        BlockRow { fingerprint, slot, used, padding: [0; 3] }
    }

    fn read(row: &[u8]) -> BlockRow {
        BlockRow {
            fingerprint: row[0..32].try_into().unwrap(),
            slot: u32::from_le_bytes(row[32..36].try_into().unwrap()),
            used: row[36],
            padding: row[37..40].try_into().unwrap(),
        }
    }

    fn bytes(&self) -> Vec<u8> {
        [&self.fingerprint[..], &self.slot.to_le_bytes(), &[self.used], &self.padding].concat()
    }

    fn caches(&self, g: &[u8]) -> bool {
        self.used == 1 && self.fingerprint[..] == *g
    }
}

/// The first `n` rows of an address table, and all rows of a block table.
pub fn read_addresses(t: &[u8], n: usize) -> Vec<AddressRow> {
    t.chunks(40).take(n).map(AddressRow::read).collect()
}

pub fn read_blocks(t: &[u8]) -> Vec<BlockRow> {
    t.chunks(40).map(BlockRow::read).collect()
}

/// The address table of `m` rows that holds these, and the block table of these.
pub fn write_addresses(rows: &[AddressRow], m: usize) -> Vec<u8> {
    let mut t: Vec<u8> = rows.iter().flat_map(AddressRow::bytes).collect();
    t.resize(m * 40, 0);
    t
}

pub fn write_blocks(rows: &[BlockRow]) -> Vec<u8> {
    rows.iter().flat_map(BlockRow::bytes).collect()
}

/// Refusals 1 and 2 come before 6 and 7: where they would apply, the checks for 6 and 7 refuse.
fn addresses_fit(t: &Tables) -> bool {
    t.p <= 65_536 && t.m <= 1_024 && t.addresses.len() == t.m * 40
}

fn blocks_fit(t: &Tables) -> bool {
    t.d <= 256 && t.blocks.len() == t.d * 40
}

/// "6: address table unsound: n above m, a held address ≥ P or held twice, dirty byte above 1, nonzero padding, or a row from n on not zero." "In a held row
/// refusal 6 now wants only the last padding byte zero." (document 02, U7)
pub fn six(t: &Tables) -> bool {
    if !addresses_fit(t) || t.n > t.m {
        return true;
    }
    let rows = read_addresses(&t.addresses, t.n);
    let distinct: HashSet<u32> = rows.iter().map(|row| row.address).collect();
    rows.iter().any(|row| row.address as usize >= t.p)
        || distinct.len() < rows.len()
        || rows.iter().any(|row| row.dirty > 1)
        || rows.iter().any(|row| row.padding != 0)
        || t.addresses[t.n * 40..].iter().any(|byte| *byte != 0)
}

/// "7: block table unsound: a free row after a used one, used byte above 1, nonzero padding, a free row with a fingerprint, slots not each of
/// 0 to d − 1 once, or a fingerprint used twice."
pub fn seven(t: &Tables) -> bool {
    if !blocks_fit(t) {
        return true;
    }
    let rows = read_blocks(&t.blocks);
    let mut slots: Vec<u32> = rows.iter().map(|row| row.slot).collect();
    slots.sort();
    let used: Vec<&Fingerprint> = rows.iter().filter(|row| row.used == 1).map(|row| &row.fingerprint).collect();
    let distinct: HashSet<&Fingerprint> = used.iter().copied().collect();
    rows.windows(2).any(|pair| pair[0].used == 1 && pair[1].used == 0)
        || rows.iter().any(|row| row.used > 1)
        || rows.iter().any(|row| row.padding != [0; 3])
        || rows.iter().any(|row| row.used == 0 && row.fingerprint != [0; 32])
        || slots.iter().enumerate().any(|(k, slot)| *slot as usize != k)
        || distinct.len() < used.len()
}

/// "8: a dirty row whose fingerprint isn't cached."
pub fn eight(t: &Tables) -> bool {
    let blocks = read_blocks(&t.blocks);
    let cached: HashSet<Fingerprint> = blocks.iter().filter(|row| row.used == 1).map(|row| row.fingerprint).collect();
    read_addresses(&t.addresses, t.n).iter().any(|row| row.dirty == 1 && !cached.contains(&row.fingerprint))
}

/// The first of 6, 7 and 8 that applies, or 0.
pub fn refused(t: &Tables) -> u32 {
    if six(t) {
        6
    } else if seven(t) {
        7
    } else if eight(t) {
        8
    } else {
        0
    }
}

fn index(found: Option<usize>) -> usize {
    found.unwrap_or(crate::probe::NONE)
}

pub fn find_address(rows: &[AddressRow], a: u32) -> usize {
    index(rows.iter().position(|row| row.address == a))
}

pub fn find_fingerprint(rows: &[AddressRow], g: &[u8]) -> usize {
    index(rows.iter().position(|row| row.fingerprint[..] == *g))
}

pub fn find_cached(rows: &[BlockRow], g: &[u8]) -> usize {
    index(rows.iter().position(|row| row.caches(g)))
}

/// "some row other than the newest has a fingerprint that is not cached"
pub fn some_uncached(held: &[AddressRow], blocks: &[BlockRow]) -> usize {
    let older = &held[..held.len().saturating_sub(1)];
    older.iter().any(|row| find_cached(blocks, &row.fingerprint) == crate::probe::NONE) as usize
}

/// "the oldest whose fingerprint no address row has", of the used rows
pub fn oldest_unknown(held: &[AddressRow], blocks: &[BlockRow]) -> usize {
    index(blocks.iter().position(|row| row.used == 1 && held.iter().all(|h| h.fingerprint != row.fingerprint)))
}

/// The block row of a held row, 256 for none.
pub fn place(row: &AddressRow, blocks: &[BlockRow]) -> usize {
    blocks.iter().position(|b| b.caches(&row.fingerprint)).unwrap_or(256)
}

/// "becomes newest"
pub fn to_newest(rows: &mut Vec<BlockRow>, i: usize) {
    let row = rows.remove(i);
    rows.push(row);
}

/// "becomes free and moves to the front"; "A row freed later keeps its slot."
pub fn to_front(rows: &mut Vec<BlockRow>, i: usize) {
    let row = rows.remove(i);
    rows.insert(0, BlockRow::new([0; 32], row.slot, 0));
}

/// "the row with g becomes newest"
pub fn put_block(rows: &mut Vec<BlockRow>, i: usize, g: &Fingerprint) {
    let row = rows.remove(i);
    rows.push(BlockRow::new(*g, row.slot, 1));
}

/// "block rows free with slots 0 to d − 1 in order"
pub fn fresh_blocks(d: usize) -> Vec<u8> {
    write_blocks(&(0..d as u32).map(|slot| BlockRow::new([0; 32], slot, 0)).collect::<Vec<_>>())
}
