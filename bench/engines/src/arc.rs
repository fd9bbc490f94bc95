//! The calls on D-ARC boxes, with the map of `maps` as the index of the block rows. Seats and answers are as in the other engines.
use crate::arc_checks::*;
use crate::arc_lists::*;
use crate::engine::*;
use crate::layout::*;
use crate::maps::Maps;
use crate::number_of;

/// What a step takes: the box, with its numbers, an index of its block rows, and how many addresses of T1 and T2 each of these has.
struct Taken<'a> {
    tables: Sizes,
    index: Maps,
    tops: Tops,
    state: &'a mut [u8],
    disk: &'a mut [u8],
    flash: &'a mut [u8],
    addresses: &'a mut [u8],
    blocks: &'a mut [u8],
    lists: Lists<'a>,
    primary_writes: u64,
}

/// A request: an address, the place of its row where it is held, a fingerprint and the place of its block row where it is cached, and what else its row gets.
struct Request<'a> {
    a: u32,
    held: Option<usize>,
    g: Fingerprint,
    cached: Option<usize>,
    block: &'a [u8],
    dirty: bool,
    seat: u16,
}

impl<'a> Taken<'a> {
    fn new(sizes: ArcSizes, index: Maps, tops: Tops, state: &'a mut [u8], [disk, flash, addresses, blocks, lists]: [&'a mut [u8]; 5]) -> Taken<'a> {
        let lists = Lists { bytes: lists, sizes: sizes.lists, p: sizes.p };
        Taken { tables: sizes.tables, index, tops, state, disk, flash, addresses, blocks, lists, primary_writes: 0 }
    }

    /// The place of the block row that a fingerprint had before the step.
    fn place(&self, g: &Fingerprint) -> Option<usize> {
        self.index.find(self.blocks, g)
    }

    /// The place of the row of a held address.
    fn row_of(&self, a: u32) -> usize {
        held(&self.tables, self.addresses, a).unwrap()
    }

    fn take_row_out(&mut self, k: usize) {
        take_out(self.addresses, self.tables.n, k);
        self.tables.n -= 1;
    }

    /// The step of a request. Answers the flash writes. Block rows keep their places until its end.
    fn step(&mut self, request: &Request) -> u64 {
        let [_, _, b1, b2, _] = self.lists.sizes;
        let mut was = None;
        if let Some(k) = request.held {
            let place = self.place(held_fingerprint(row(self.addresses, k)));
            let list = self.lists.leave(request.a);
            if list == T1 || list == T2 {
                self.tops[place.unwrap()] -= 1;
            }
            self.take_row_out(k);
            was = Some(list);
        }
        self.lists.change_p(was, b1, b2, self.tables.d);
        let place = request.cached.unwrap_or_else(|| self.insert(was, request));
        if matches!(was, None | Some(B1) | Some(B2)) {
            self.check_lists(was);
        }
        self.lists.join(if matches!(was, None | Some(B3)) { T1 } else { T2 }, request.a);
        add(self.addresses, self.tables.n, request.a, &request.g, request.dirty, request.seat);
        self.tables.n += 1;
        to_newest(self.blocks, place);
        self.store_numbers();
        request.cached.is_none() as u64
    }

    fn store_numbers(&mut self) {
        set_number(self.state, 4, self.tables.n as u64);
        set_number(self.state, ADAPTIVE, self.lists.p as u64);
        for (k, size) in self.lists.sizes.into_iter().enumerate() {
            set_number(self.state, LIST_SIZES + k, size as u64);
        }
    }

    /// Stores the block where a row is free, or in the place of a victim. Answers the place of the row.
    fn insert(&mut self, was: Option<usize>, request: &Request) -> usize {
        let Sizes { b, d, .. } = self.tables;
        let mut place = 0;
        if is_used(row(self.blocks, 0)) {
            place = match self.tops[..d].iter().position(|count| *count == 0) {
                Some(place) => place,
                None => self.make_victim(was),
            };
            self.save_dirty(place);
        }
        let taken = slot(row(self.blocks, place));
        self.flash[taken * b..(taken + 1) * b].copy_from_slice(request.block);
        self.blocks[place * ROW..place * ROW + 32].copy_from_slice(&request.g);
        self.blocks[place * ROW + 36] = 1;
        place
    }

    /// Runs the replacement until no address of T1 and T2 has some block row, and answers its place.
    fn make_victim(&mut self, was: Option<usize>) -> usize {
        loop {
            let a = self.replace(was).unwrap();
            let place = self.place(held_fingerprint(row(self.addresses, self.row_of(a)))).unwrap();
            self.tops[place] -= 1;
            if self.tops[place] == 0 {
                return place;
            }
        }
    }

    /// Copies the block of a row to the address of each dirty row that has it.
    fn save_dirty(&mut self, place: usize) {
        let old = *row(self.blocks, place);
        for k in 0..self.tables.n {
            let held = row(self.addresses, k);
            if is_dirty(held) && held_fingerprint(held) == cached_fingerprint(&old) {
                copy(self.flash, slot(&old), self.disk, address(held) as usize, self.tables.b);
                self.addresses[k * ROW + 36] = 0;
                self.primary_writes += 1;
            }
        }
    }

    /// The replacement. Answers the address that left T1 or T2.
    fn replace(&mut self, was: Option<usize>) -> Option<u32> {
        let (from, to) = self.lists.replacement(was)?;
        if self.lists.sizes[B1] + self.lists.sizes[B2] == self.tables.d {
            self.evict(if self.lists.sizes[B1] > 0 { B1 } else { B2 });
        }
        Some(self.lists.move_oldest(from, to))
    }

    /// The metadata subroutine.
    fn manage(&mut self, was: Option<usize>) {
        let c = self.tables.d;
        let [t1, _, b1, b2, _] = self.lists.sizes;
        if t1 >= c {
            if b1 > 0 {
                self.lists.move_oldest(B1, B3);
                self.lists.move_oldest(T1, B1);
            } else {
                self.lists.move_oldest(T1, B3);
            }
            return;
        }
        if t1 + b1 >= c {
            self.lists.move_oldest(B1, B3);
        } else if b1 + b2 >= c {
            self.lists.move_oldest(B2, B3);
        }
        self.replace(was);
    }

    /// Makes room for an address in T1, T2 and B3 together.
    fn check_lists(&mut self, was: Option<usize>) {
        let [t1, t2, _, _, b3] = self.lists.sizes;
        if t1 + t2 + b3 < self.tables.m - self.tables.d {
            return;
        }
        if b3 == 0 {
            self.manage(was);
        }
        if self.lists.sizes[B3] > 0 {
            self.evict(B3);
        }
    }

    /// Takes the oldest address of a list out, after its block is copied to the disk where it is dirty.
    fn evict(&mut self, list: usize) {
        let a = self.lists.oldest_out(list);
        let k = self.row_of(a);
        let old = *row(self.addresses, k);
        if is_dirty(&old) {
            let place = self.place(held_fingerprint(&old)).unwrap();
            copy(self.flash, slot(row(self.blocks, place)), self.disk, a as usize, self.tables.b);
            self.primary_writes += 1;
        }
        self.take_row_out(k);
    }

    /// After the step of a write back: where more rows are dirty than the limit, the oldest of them is copied to the disk and is clean then.
    fn keep_limit(&mut self) {
        let Sizes { b, t, n, .. } = self.tables;
        let held = &self.addresses[..n * ROW];
        if rows(held).filter(|row| is_dirty(row)).count() > t {
            let k = rows(held).position(is_dirty).unwrap();
            let oldest = *row(held, k);
            let stored = rows(self.blocks).find(|row| is_used(row) && cached_fingerprint(row) == held_fingerprint(&oldest)).unwrap();
            copy(self.flash, slot(stored), self.disk, address(&oldest) as usize, b);
            self.addresses[k * ROW + 36] = 0;
            self.primary_writes += 1;
        }
    }

    /// A read by itself. A miss takes the block that is given, where one is, and otherwise that of the disk. Answers the word, flash writes and primary writes.
    fn read(&mut self, a: u32, block: &mut [u8], given: Option<&[u8]>) -> (u64, u64, u64) {
        let b = self.tables.b;
        let held = held(&self.tables, self.addresses, a);
        let old = held.map(|k| *row(self.addresses, k));
        let hit = old.and_then(|old| self.place(held_fingerprint(&old)).map(|place| (old, place)));
        let (word, g, cached, dirty) = match hit {
            Some((old, place)) => {
                copy(self.flash, slot(row(self.blocks, place)), block, 0, b);
                (HIT, *held_fingerprint(&old), Some(place), is_dirty(&old))
            }
            None => {
                match given {
                    Some(given) => block.copy_from_slice(given),
                    None => copy(self.disk, a as usize, block, 0, b),
                }
                let g = fingerprint(label(self.state), block);
                (MISS, g, self.place(&g), false)
            }
        };
        let flash_writes = self.step(&Request { a, held, g, cached, block, dirty, seat: old.map_or(0, |old| seat(&old)) });
        (word, flash_writes, self.primary_writes)
    }

    /// A write through, or a write back where `back` says so.
    fn write(&mut self, a: u32, seat: u16, block: &[u8], back: bool) -> (u64, u64, u64) {
        let held = held(&self.tables, self.addresses, a);
        let g = fingerprint(label(self.state), block);
        let cached = self.place(&g);
        let unchanged = held.is_some_and(|k| !is_dirty(row(self.addresses, k)) && *held_fingerprint(row(self.addresses, k)) == g);
        if !back {
            copy(block, 0, self.disk, a as usize, self.tables.b);
            self.primary_writes += 1;
        }
        let flash_writes = self.step(&Request { a, held, g, cached, block, dirty: back && !unchanged, seat });
        if back {
            self.keep_limit();
        }
        (if cached.is_some() { SAME } else { NEW }, flash_writes, self.primary_writes)
    }

    fn invalidate(&mut self, a: u32, block: &[u8]) -> (u64, u64, u64) {
        let word = if self.place(&fingerprint(label(self.state), block)).is_some() { SAME } else { NEW };
        copy(block, 0, self.disk, a as usize, self.tables.b);
        if let Some(k) = held(&self.tables, self.addresses, a) {
            let old = *row(self.addresses, k);
            self.take_row_out(k);
            self.lists.leave(a);
            self.store_numbers();
            let wanted = rows(&self.addresses[..self.tables.n * ROW]).any(|row| held_fingerprint(row) == held_fingerprint(&old));
            if let Some(place) = self.place(held_fingerprint(&old)).filter(|_| !wanted) {
                set_free(self.blocks, place);
            }
        }
        (word, 0, 1)
    }
}

/// The bytes that a call only looks at, to ask for its refusals.
struct Given<'a> {
    state: &'a [u8],
    disk: &'a [u8],
    flash: &'a [u8],
    addresses: &'a [u8],
    blocks: &'a [u8],
    lists: &'a [u8],
}

impl Given<'_> {
    fn numbers(&self, a: Option<u32>, block: Option<usize>) -> Result<ArcSizes, u32> {
        let lengths = [self.disk, self.flash, self.addresses, self.blocks, self.lists].map(|bytes| bytes.len());
        numbers(self.state, lengths, a, block)
    }

    /// 6, 7, 8, 13 and, where it counts, 9.
    fn tables(&self, sizes: &ArcSizes, counted: bool) -> Result<(Maps, Tops), u32> {
        let mut index = Maps::default();
        let tops = check(sizes, self.addresses, self.blocks, self.lists, &mut index)?;
        if counted && counters_too_large(self.state) {
            return Err(9);
        }
        Ok((index, tops))
    }

    /// The refusals of a call, in their order.
    fn checked(&self, a: Option<u32>, block: Option<usize>, answer: &[u8], counted: bool) -> Result<(ArcSizes, Maps, Tops), u32> {
        if self.state.len() != ARC_STATE || answer.len() != 24 {
            return Err(2);
        }
        let sizes = self.numbers(a, block)?;
        let (index, tops) = self.tables(&sizes, counted)?;
        Ok((sizes, index, tops))
    }
}

fn opened(state: &mut [u8], label: &[u8], lengths: [usize; 5], addresses: &mut [u8], blocks: &mut [u8], lists: &mut [u8]) -> Result<(), u32> {
    if state.len() != ARC_STATE {
        return Err(2);
    }
    set_number(state, 4, 0);
    set_label(state, &[0; LABEL]);
    state[ADAPTIVE * 8..].fill(0);
    numbers(state, lengths, None, None)?;
    if label.len() != LABEL {
        return Err(2);
    }
    set_label(state, label);
    state[FIRST_COUNTER * 8..LABEL_START].fill(0);
    addresses.fill(0);
    lists.fill(0);
    blocks.fill(0);
    for (k, row) in blocks.chunks_exact_mut(ROW).enumerate() {
        row[32..36].copy_from_slice(&(k as u32).to_le_bytes());
    }
    Ok(())
}

pub fn open(state: &mut [u8], label: &[u8], disk: &[u8], flash: &[u8], addresses: &mut [u8], blocks: &mut [u8], lists: &mut [u8]) -> u32 {
    let lengths = [disk.len(), flash.len(), addresses.len(), blocks.len(), lists.len()];
    number_of(opened(state, label, lengths, addresses, blocks, lists))
}

/// A read or a write: its refusals, then what is done, which answers the word, flash writes and primary writes.
fn request(
    state: &mut [u8],
    a: u32,
    buffers: [&mut [u8]; 5],
    block: usize,
    answer: &mut [u8],
    serve: impl FnOnce(&mut Taken) -> (u64, u64, u64),
) -> Result<(), u32> {
    let [disk, flash, addresses, blocks, lists] = buffers;
    let given = Given { state, disk, flash, addresses, blocks, lists };
    let (sizes, index, tops) = given.checked(Some(a), Some(block), answer, true)?;
    let mut taken = Taken::new(sizes, index, tops, state, [disk, flash, addresses, blocks, lists]);
    let (word, flash_writes, primary_writes) = serve(&mut taken);
    done(state, answer, word, flash_writes, primary_writes)
}

#[allow(clippy::too_many_arguments)]
pub fn read(
    state: &mut [u8],
    a: u32,
    disk: &mut [u8],
    flash: &mut [u8],
    addresses: &mut [u8],
    blocks: &mut [u8],
    lists: &mut [u8],
    block: &mut [u8],
    answer: &mut [u8],
) -> u32 {
    let length = block.len();
    number_of(request(state, a, [disk, flash, addresses, blocks, lists], length, answer, |taken| taken.read(a, block, None)))
}

macro_rules! writes {
    ($($name:ident $serve:expr;)*) => { $(
        #[allow(clippy::too_many_arguments)]
        pub fn $name(
            state: &mut [u8],
            a: u32,
            seat: u16,
            disk: &mut [u8],
            flash: &mut [u8],
            addresses: &mut [u8],
            blocks: &mut [u8],
            lists: &mut [u8],
            block: &[u8],
            answer: &mut [u8],
        ) -> u32 {
            let serve: fn(&mut Taken, u32, u16, &[u8]) -> (u64, u64, u64) = $serve;
            number_of(request(state, a, [disk, flash, addresses, blocks, lists], block.len(), answer, |taken| serve(taken, a, seat, block)))
        }
    )* };
}

writes! {
    write_through |taken, a, seat, block| taken.write(a, seat, block, false);
    write_back |taken, a, seat, block| taken.write(a, seat, block, true);
    write_invalidate |taken, a, _, block| taken.invalidate(a, block);
}

/// The reads of a list of addresses in turn, with the refusals before the first. The tables are indexed anew before each read.
fn many(state: &mut [u8], asked: &[u32], buffers: [&mut [u8]; 5], buffer: &mut [u8], answer: &mut [u8]) -> Result<(), u32> {
    let [disk, flash, addresses, blocks, lists] = buffers;
    if state.len() != ARC_STATE || answer.len() != 32 {
        return Err(2);
    }
    let given = Given { state, disk, flash, addresses, blocks, lists };
    let sizes = given.numbers(None, None)?;
    let Sizes { b, p, .. } = sizes.tables;
    if !is_product(buffer.len(), asked.len(), b) {
        return Err(2);
    }
    if asked.is_empty() || asked.len() > MOST_ASKED {
        return Err(10);
    }
    if asked.iter().any(|a| *a as usize >= p) {
        return Err(3);
    }
    given.tables(&sizes, true)?;
    let mut sums = [0; 4];
    for (k, a) in asked.iter().enumerate() {
        let (before, rest) = buffer.split_at_mut(k * b);
        let first = asked[..k].iter().position(|other| other == a);
        let sizes = arc_sizes(state)?;
        let (index, tops) = Given { state, disk, flash, addresses, blocks, lists }.tables(&sizes, false)?;
        let mut taken = Taken::new(sizes, index, tops, state, [&mut *disk, &mut *flash, &mut *addresses, &mut *blocks, &mut *lists]);
        let (word, flash_writes, primary_writes) = taken.read(*a, &mut rest[..b], first.map(|j| &before[j * b..(j + 1) * b]));
        let counts = [(word == HIT) as u64, flash_writes, primary_writes, (word == MISS && first.is_none()) as u64];
        sums.iter_mut().zip(counts).for_each(|(sum, count)| *sum += count);
    }
    add_counted(state, [asked.len() as u64, sums[0], sums[1], sums[2]]);
    sums.into_iter().enumerate().for_each(|(k, sum)| set_number(answer, k, sum));
    Ok(())
}

#[allow(clippy::too_many_arguments)]
pub fn read_many(
    state: &mut [u8],
    asked: &[u32],
    disk: &mut [u8],
    flash: &mut [u8],
    addresses: &mut [u8],
    blocks: &mut [u8],
    lists: &mut [u8],
    buffer: &mut [u8],
    answer: &mut [u8],
) -> u32 {
    number_of(many(state, asked, [disk, flash, addresses, blocks, lists], buffer, answer))
}

#[allow(clippy::too_many_arguments)]
fn flushed(
    state: &mut [u8],
    most: usize,
    disk: &mut [u8],
    flash: &[u8],
    addresses: &mut [u8],
    blocks: &[u8],
    lists: &[u8],
    answer: &mut [u8],
) -> Result<(), u32> {
    let (sizes, index, _) = Given { state, disk, flash, addresses, blocks, lists }.checked(None, None, answer, true)?;
    let mut primary_writes = 0;
    for k in 0..sizes.tables.n {
        let held = *row(addresses, k);
        if is_dirty(&held) && primary_writes < most {
            let place = index.find(blocks, held_fingerprint(&held)).unwrap();
            copy(flash, slot(row(blocks, place)), disk, address(&held) as usize, sizes.tables.b);
            addresses[k * ROW + 36] = 0;
            primary_writes += 1;
        }
    }
    done(state, answer, DONE, 0, primary_writes as u64)
}

pub fn flush(state: &mut [u8], disk: &mut [u8], flash: &[u8], addresses: &mut [u8], blocks: &[u8], lists: &[u8], answer: &mut [u8]) -> u32 {
    number_of(flushed(state, usize::MAX, disk, flash, addresses, blocks, lists, answer))
}

#[allow(clippy::too_many_arguments)]
pub fn flush_some(state: &mut [u8], most: usize, disk: &mut [u8], flash: &[u8], addresses: &mut [u8], blocks: &[u8], lists: &[u8], answer: &mut [u8]) -> u32 {
    number_of(flushed(state, most, disk, flash, addresses, blocks, lists, answer))
}

#[allow(clippy::too_many_arguments)]
fn looked(state: &[u8], a: u32, disk: &[u8], flash: &[u8], addresses: &[u8], blocks: &[u8], lists: &[u8], answer: &mut [u8]) -> Result<(), u32> {
    let (sizes, index, _) = Given { state, disk, flash, addresses, blocks, lists }.checked(Some(a), None, answer, false)?;
    let b = sizes.tables.b;
    match held(&sizes.tables, addresses, a).and_then(|k| index.find(blocks, held_fingerprint(row(addresses, k)))) {
        Some(place) => fill(answer, CACHE, (slot(row(blocks, place)) * b) as u64, b as u64),
        None => fill(answer, DISK, a as u64 * b as u64, b as u64),
    }
}

#[allow(clippy::too_many_arguments)]
pub fn look(state: &[u8], a: u32, disk: &[u8], flash: &[u8], addresses: &[u8], blocks: &[u8], lists: &[u8], answer: &mut [u8]) -> u32 {
    number_of(looked(state, a, disk, flash, addresses, blocks, lists, answer))
}

/// Address and dirty byte of each held row, oldest first, each with its seat where rows are of 7 bytes; zeros follow.
fn reported(given: Given, report: &mut [u8], length: usize) -> Result<(), u32> {
    if given.state.len() != ARC_STATE {
        return Err(2);
    }
    let sizes = given.numbers(None, None)?;
    if report.len() != sizes.tables.m * length {
        return Err(2);
    }
    given.tables(&sizes, false)?;
    report.fill(0);
    for (into, row) in report.chunks_exact_mut(length).zip(rows(&given.addresses[..sizes.tables.n * ROW])) {
        into[..4].copy_from_slice(&row[..4]);
        into[4..].copy_from_slice(&row[36..32 + length]);
    }
    Ok(())
}

pub fn manager_report(state: &[u8], disk: &[u8], flash: &[u8], addresses: &[u8], blocks: &[u8], lists: &[u8], report: &mut [u8]) -> u32 {
    number_of(reported(Given { state, disk, flash, addresses, blocks, lists }, report, 7))
}

pub fn desk_report(state: &[u8], disk: &[u8], flash: &[u8], addresses: &[u8], blocks: &[u8], lists: &[u8], report: &mut [u8]) -> u32 {
    number_of(reported(Given { state, disk, flash, addresses, blocks, lists }, report, 5))
}
