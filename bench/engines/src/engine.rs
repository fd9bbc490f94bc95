//! The calls, over any index of the block rows.
use crate::checks::check;
use crate::layout::*;

pub(crate) const HIT: u64 = 1;
pub(crate) const MISS: u64 = 2;
pub(crate) const SAME: u64 = 3;
pub(crate) const NEW: u64 = 4;
pub(crate) const CACHE: u64 = 5;
pub(crate) const DISK: u64 = 6;
pub(crate) const DONE: u64 = 7;

pub(crate) const FIRST_COUNTER: usize = 5;
const MOST_COUNTED: u64 = 1 << 63;
pub(crate) const MOST_ASKED: usize = 64;

/// An index of the used block rows by their fingerprints, made in each call. It is asked while the block rows are where they were.
pub trait Index: Default {
    /// Makes room for `d` rows.
    fn reserve(&mut self, d: usize);
    /// Adds a used row. False where a row that was added has the same fingerprint.
    fn add(&mut self, blocks: &[u8], k: usize) -> bool;
    /// The row that has the fingerprint `g`.
    fn find(&self, blocks: &[u8], g: &Fingerprint) -> Option<usize>;
    fn has(&self, blocks: &[u8], g: &Fingerprint) -> bool;
}

/// The refusals that need no table: 1, 12, 2 and 3. An address is `None` in a call without one, and so is a block.
fn numbers(state: &[u8], lengths: [usize; 4], a: Option<u32>, block: Option<usize>) -> Result<Sizes, u32> {
    let sizes = sizes(state)?;
    let Sizes { b, p, m, d, .. } = sizes;
    if lengths != [p * b, d * b, m * ROW, d * ROW] || block.is_some_and(|length| length != b) {
        return Err(2);
    }
    if a.is_some_and(|a| a as usize >= p) {
        return Err(3);
    }
    Ok(sizes)
}

pub(crate) fn counters_too_large(state: &[u8]) -> bool {
    (FIRST_COUNTER..FIRST_COUNTER + 4).any(|k| number(state, k) > MOST_COUNTED)
}

/// Adds to the counters and fills the answer.
pub(crate) fn done(state: &mut [u8], answer: &mut [u8], word: u64, flash_writes: u64, primary_writes: u64) -> Result<(), u32> {
    let is_read = word == HIT || word == MISS;
    add_counted(state, [is_read as u64, (word == HIT) as u64, flash_writes, primary_writes]);
    fill(answer, word, flash_writes, primary_writes)
}

pub(crate) fn add_counted(state: &mut [u8], counts: [u64; 4]) {
    for (k, more) in counts.into_iter().enumerate() {
        let counter = number(state, FIRST_COUNTER + k);
        set_number(state, FIRST_COUNTER + k, counter + more);
    }
}

pub(crate) fn fill(answer: &mut [u8], word: u64, first: u64, second: u64) -> Result<(), u32> {
    set_number(answer, 0, word);
    set_number(answer, 1, first);
    set_number(answer, 2, second);
    Ok(())
}

pub(crate) fn copy(from: &[u8], i: usize, to: &mut [u8], j: usize, b: usize) {
    to[j * b..(j + 1) * b].copy_from_slice(&from[i * b..(i + 1) * b]);
}

pub(crate) fn held(sizes: &Sizes, addresses: &[u8], a: u32) -> Option<usize> {
    rows(&addresses[..sizes.n * ROW]).position(|row| address(row) == a)
}

/// Whether one of these address rows has the fingerprint `g`.
fn is_wanted(held: &[u8], g: &Fingerprint) -> bool {
    rows(held).any(|row| held_fingerprint(row) == g)
}

/// The oldest of the block rows, all of them used, whose fingerprint none of these address rows has.
fn oldest_unwanted<I: Index>(index: &I, held: &[u8], blocks: &[u8]) -> Option<usize> {
    let mut wanted = [false; 256];
    for place in rows(held).filter_map(|row| index.find(blocks, held_fingerprint(row))) {
        wanted[place] = true;
    }
    wanted[..blocks.len() / ROW].iter().position(|wanted| !wanted)
}

/// What the step takes: the box, with its numbers and an index of its block rows.
struct Taken<'a, I> {
    sizes: Sizes,
    index: &'a I,
    state: &'a mut [u8],
    disk: &'a mut [u8],
    flash: &'a mut [u8],
    addresses: &'a mut [u8],
    blocks: &'a mut [u8],
}

impl<I: Index> Taken<'_, I> {
    /// The step of a request. Answers flash writes and primary writes.
    #[allow(clippy::too_many_arguments)]
    fn step(&mut self, a: u32, held: Option<usize>, g: &Fingerprint, cached: Option<usize>, block: &[u8], dirty: bool, seat: u16) -> (u64, u64) {
        let Sizes { b, m, mut n, .. } = self.sizes;
        let mut primary_writes = 0;
        let mut cached = cached;
        // The fingerprint that went out and its block row, where it may have been the last of its kind.
        let mut gone = None;
        if let Some(k) = held.or((n == m).then_some(0)) {
            let old = *row(self.addresses, k);
            if held.is_none() && is_dirty(&old) {
                let place = self.index.find(self.blocks, held_fingerprint(&old)).unwrap();
                copy(self.flash, slot(row(self.blocks, place)), self.disk, address(&old) as usize, b);
                primary_writes += 1;
            }
            take_out(self.addresses, n, k);
            n -= 1;
            if held_fingerprint(&old) != g && !is_wanted(&self.addresses[..n * ROW], held_fingerprint(&old)) {
                gone = self.index.find(self.blocks, held_fingerprint(&old));
            }
        }
        if let Some(place) = gone {
            let has_block = |row: &Row| self.index.has(self.blocks, held_fingerprint(row));
            if !rows(&self.addresses[..n * ROW]).all(has_block) {
                set_free(self.blocks, place);
                cached = cached.map(|k| if k < place { k + 1 } else { k });
            }
        }
        add(self.addresses, n, a, g, dirty, seat);
        n += 1;
        set_number(self.state, 4, n as u64);

        if let Some(k) = cached {
            to_newest(self.blocks, k);
            return (0, primary_writes);
        }
        let mut place = 0;
        if is_used(row(self.blocks, 0)) {
            place = oldest_unwanted(self.index, &self.addresses[..n * ROW], self.blocks).unwrap_or(0);
            let old = *row(self.blocks, place);
            for k in 0..n {
                let held = row(self.addresses, k);
                if is_dirty(held) && held_fingerprint(held) == cached_fingerprint(&old) {
                    copy(self.flash, slot(&old), self.disk, address(held) as usize, b);
                    self.addresses[k * ROW + 36] = 0;
                    primary_writes += 1;
                }
            }
        }
        let taken = slot(row(self.blocks, place));
        self.flash[taken * b..(taken + 1) * b].copy_from_slice(block);
        self.blocks[place * ROW..place * ROW + 32].copy_from_slice(g);
        self.blocks[place * ROW + 36] = 1;
        to_newest(self.blocks, place);
        (1, primary_writes)
    }

    /// After the step of a write back: where more rows are dirty than the limit, the block of the oldest of them is copied to the disk and the row is clean
    /// then. Answers the primary writes. The index has the places of the block rows before the step, so the block is looked for.
    fn keep_limit(&mut self) -> u64 {
        let Sizes { b, t, .. } = self.sizes;
        let held = &self.addresses[..number(self.state, 4) as usize * ROW];
        if rows(held).filter(|row| is_dirty(row)).count() <= t {
            return 0;
        }
        let k = rows(held).position(is_dirty).unwrap();
        let oldest = *row(held, k);
        let stored = rows(self.blocks).find(|row| is_used(row) && cached_fingerprint(row) == held_fingerprint(&oldest)).unwrap();
        copy(self.flash, slot(stored), self.disk, address(&oldest) as usize, b);
        self.addresses[k * ROW + 36] = 0;
        1
    }
}

pub fn open(state: &mut [u8], label: &[u8], disk: &[u8], flash: &[u8], addresses: &mut [u8], blocks: &mut [u8]) -> Result<(), u32> {
    if state.len() != STATE {
        return Err(2);
    }
    set_number(state, 4, 0);
    set_label(state, &[0; LABEL]);
    numbers(state, [disk.len(), flash.len(), addresses.len(), blocks.len()], None, None)?;
    if label.len() != LABEL {
        return Err(2);
    }
    set_label(state, label);
    state[FIRST_COUNTER * 8..LABEL_START].fill(0);
    addresses.fill(0);
    blocks.fill(0);
    for (k, row) in blocks.chunks_exact_mut(ROW).enumerate() {
        row[32..36].copy_from_slice(&(k as u32).to_le_bytes());
    }
    Ok(())
}

/// The refusals of a call, in their order. Where there is none the index has the used block rows.
#[allow(clippy::too_many_arguments)]
pub(crate) fn checked<I: Index>(
    index: &mut I,
    state: &[u8],
    a: Option<u32>,
    disk: &[u8],
    flash: &[u8],
    addresses: &[u8],
    blocks: &[u8],
    block: Option<usize>,
    answer: &[u8],
    counted: bool,
) -> Result<Sizes, u32> {
    if state.len() != STATE || answer.len() != 24 {
        return Err(2);
    }
    let sizes = numbers(state, [disk.len(), flash.len(), addresses.len(), blocks.len()], a, block)?;
    check(&sizes, addresses, blocks, index)?;
    if counted && counters_too_large(state) {
        return Err(9);
    }
    Ok(sizes)
}

/// A read by itself, without refusals. A miss takes the block that is given, where one is, and otherwise that of the disk. Answers the word, flash
/// writes and primary writes.
#[inline(always)]
fn read_one<I: Index>(mut taken: Taken<I>, a: u32, block: &mut [u8], given: Option<&[u8]>) -> (u64, u64, u64) {
    let b = taken.sizes.b;
    let held = held(&taken.sizes, taken.addresses, a);
    let old = held.map(|k| *row(taken.addresses, k));
    let hit = old.and_then(|old| taken.index.find(taken.blocks, held_fingerprint(&old)).map(|place| (old, place)));
    let (word, g, cached, dirty) = match hit {
        Some((old, place)) => {
            copy(taken.flash, slot(row(taken.blocks, place)), block, 0, b);
            (HIT, *held_fingerprint(&old), Some(place), is_dirty(&old))
        }
        None => {
            match given {
                Some(given) => block.copy_from_slice(given),
                None => copy(taken.disk, a as usize, block, 0, b),
            }
            let g = fingerprint(label(taken.state), block);
            (MISS, g, taken.index.find(taken.blocks, &g), false)
        }
    };
    // A read keeps the seat of a held address; one that is not held gets 0.
    let seat = old.map_or(0, |old| seat(&old));
    let (flash_writes, primary_writes) = taken.step(a, held, &g, cached, block, dirty, seat);
    (word, flash_writes, primary_writes)
}

#[allow(clippy::too_many_arguments)]
pub fn read<I: Index>(
    state: &mut [u8],
    a: u32,
    disk: &mut [u8],
    flash: &mut [u8],
    addresses: &mut [u8],
    blocks: &mut [u8],
    block: &mut [u8],
    answer: &mut [u8],
) -> Result<(), u32> {
    let mut index = I::default();
    let sizes = checked(&mut index, state, Some(a), disk, flash, addresses, blocks, Some(block.len()), answer, true)?;
    let taken = Taken { sizes, index: &index, state, disk, flash, addresses, blocks };
    let (word, flash_writes, primary_writes) = read_one(taken, a, block, None);
    done(state, answer, word, flash_writes, primary_writes)
}

/// Whether a buffer of this length has room for `count` blocks of `b` bytes and no byte more.
pub(crate) fn is_product(length: usize, count: usize, b: usize) -> bool {
    length % b == 0 && length / b == count
}

/// The reads of a list of addresses in turn, with the refusals before the first. The tables are indexed anew before each read.
#[allow(clippy::too_many_arguments)]
pub fn read_many<I: Index>(
    state: &mut [u8],
    asked: &[u32],
    disk: &mut [u8],
    flash: &mut [u8],
    addresses: &mut [u8],
    blocks: &mut [u8],
    buffer: &mut [u8],
    answer: &mut [u8],
) -> Result<(), u32> {
    if state.len() != STATE || answer.len() != 32 {
        return Err(2);
    }
    let sizes = numbers(state, [disk.len(), flash.len(), addresses.len(), blocks.len()], None, None)?;
    let Sizes { b, p, .. } = sizes;
    if !is_product(buffer.len(), asked.len(), b) {
        return Err(2);
    }
    if asked.is_empty() || asked.len() > MOST_ASKED {
        return Err(10);
    }
    if asked.iter().any(|a| *a as usize >= p) {
        return Err(3);
    }
    check(&sizes, addresses, blocks, &mut I::default())?;
    if counters_too_large(state) {
        return Err(9);
    }
    let mut sums = [0; 4];
    for (k, a) in asked.iter().enumerate() {
        let (before, rest) = buffer.split_at_mut(k * b);
        let first = asked[..k].iter().position(|other| other == a);
        let given = first.map(|j| &before[j * b..(j + 1) * b]);
        let sizes = crate::layout::sizes(state)?;
        let mut index = I::default();
        check(&sizes, addresses, blocks, &mut index)?;
        let taken = Taken { sizes, index: &index, state, disk, flash, addresses, blocks };
        let (word, flash_writes, primary_writes) = read_one(taken, *a, &mut rest[..b], given);
        sums[0] += (word == HIT) as u64;
        sums[1] += flash_writes;
        sums[2] += primary_writes;
        sums[3] += (word == MISS && first.is_none()) as u64;
    }
    add_counted(state, [asked.len() as u64, sums[0], sums[1], sums[2]]);
    for (k, sum) in sums.into_iter().enumerate() {
        set_number(answer, k, sum);
    }
    Ok(())
}

#[allow(clippy::too_many_arguments)]
pub fn write<I: Index>(
    state: &mut [u8],
    a: u32,
    seat: u16,
    disk: &mut [u8],
    flash: &mut [u8],
    addresses: &mut [u8],
    blocks: &mut [u8],
    block: &[u8],
    answer: &mut [u8],
    dirty: bool,
) -> Result<(), u32> {
    let mut index = I::default();
    let sizes = checked(&mut index, state, Some(a), disk, flash, addresses, blocks, Some(block.len()), answer, true)?;
    let held = held(&sizes, addresses, a);
    let g = fingerprint(label(state), block);
    let cached = index.find(blocks, &g);
    let word = if cached.is_some() { SAME } else { NEW };
    if !dirty {
        copy(block, 0, disk, a as usize, sizes.b);
    }
    let unchanged = held.is_some_and(|k| !is_dirty(row(addresses, k)) && *held_fingerprint(row(addresses, k)) == g);
    let mut taken = Taken { sizes, index: &index, state, disk, flash, addresses, blocks };
    let (flash_writes, primary_writes) = taken.step(a, held, &g, cached, block, dirty && !unchanged, seat);
    let more = if dirty { taken.keep_limit() } else { 1 };
    done(state, answer, word, flash_writes, primary_writes + more)
}

#[allow(clippy::too_many_arguments)]
pub fn write_invalidate<I: Index>(
    state: &mut [u8],
    a: u32,
    disk: &mut [u8],
    flash: &[u8],
    addresses: &mut [u8],
    blocks: &mut [u8],
    block: &[u8],
    answer: &mut [u8],
) -> Result<(), u32> {
    let mut index = I::default();
    let sizes = checked(&mut index, state, Some(a), disk, flash, addresses, blocks, Some(block.len()), answer, true)?;
    let word = if index.find(blocks, &fingerprint(label(state), block)).is_some() { SAME } else { NEW };
    copy(block, 0, disk, a as usize, sizes.b);
    if let Some(k) = held(&sizes, addresses, a) {
        let old = *row(addresses, k);
        take_out(addresses, sizes.n, k);
        set_number(state, 4, sizes.n as u64 - 1);
        if let Some(place) = index.find(blocks, held_fingerprint(&old)) {
            if (0..sizes.n - 1).all(|k| held_fingerprint(row(addresses, k)) != held_fingerprint(&old)) {
                set_free(blocks, place);
            }
        }
    }
    done(state, answer, word, 0, 1)
}

/// Of at most `most` dirty rows, oldest first.
pub fn flush<I: Index>(
    state: &mut [u8],
    most: usize,
    disk: &mut [u8],
    flash: &[u8],
    addresses: &mut [u8],
    blocks: &[u8],
    answer: &mut [u8],
) -> Result<(), u32> {
    let mut index = I::default();
    let sizes = checked(&mut index, state, None, disk, flash, addresses, blocks, None, answer, true)?;
    let mut primary_writes = 0;
    for k in 0..sizes.n {
        let held = *row(addresses, k);
        if is_dirty(&held) && primary_writes < most {
            let place = index.find(blocks, held_fingerprint(&held)).unwrap();
            copy(flash, slot(row(blocks, place)), disk, address(&held) as usize, sizes.b);
            addresses[k * ROW + 36] = 0;
            primary_writes += 1;
        }
    }
    done(state, answer, DONE, 0, primary_writes as u64)
}

pub fn look<I: Index>(state: &[u8], a: u32, disk: &[u8], flash: &[u8], addresses: &[u8], blocks: &[u8], answer: &mut [u8]) -> Result<(), u32> {
    let mut index = I::default();
    let sizes = checked(&mut index, state, Some(a), disk, flash, addresses, blocks, None, answer, false)?;
    let place = held(&sizes, addresses, a).and_then(|k| index.find(blocks, held_fingerprint(row(addresses, k))));
    match place {
        Some(place) => fill(answer, CACHE, (slot(row(blocks, place)) * sizes.b) as u64, sizes.b as u64),
        None => fill(answer, DISK, a as u64 * sizes.b as u64, sizes.b as u64),
    }
}

/// Address and dirty byte of each held row, oldest first, each with its seat where `seats` says so; zeros follow. Nothing else is changed.
pub fn report<I: Index>(state: &[u8], disk: &[u8], flash: &[u8], addresses: &[u8], blocks: &[u8], report: &mut [u8], seats: bool) -> Result<(), u32> {
    if state.len() != STATE {
        return Err(2);
    }
    let sizes = numbers(state, [disk.len(), flash.len(), addresses.len(), blocks.len()], None, None)?;
    let length = if seats { 7 } else { 5 };
    if report.len() != sizes.m * length {
        return Err(2);
    }
    check(&sizes, addresses, blocks, &mut I::default())?;
    report.fill(0);
    for (into, row) in report.chunks_exact_mut(length).zip(rows(&addresses[..sizes.n * ROW])) {
        into[..4].copy_from_slice(&row[..4]);
        // The dirty byte, and the two of the seat behind it.
        into[4..].copy_from_slice(&row[36..32 + length]);
    }
    Ok(())
}
