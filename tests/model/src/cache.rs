//! The cache: which addresses are held is a map with a queue beside it, and so are the cached blocks.
use crate::arc::Lists;
use crate::*;
use std::collections::{BTreeMap, HashMap, HashSet, VecDeque};

/// Numbered blocks: those that were there at first and, over them, those written since.
#[derive(Clone)]
pub struct Store {
    size: usize,
    first: Vec<u8>,
    written: BTreeMap<usize, Vec<u8>>,
}

impl Store {
    pub fn new(size: usize, first: Vec<u8>) -> Store {
        Store { size, first, written: BTreeMap::new() }
    }

    pub fn block(&self, k: usize) -> &[u8] {
        match self.written.get(&k) {
            Some(block) => block,
            None => &self.first[k * self.size..(k + 1) * self.size],
        }
    }

    pub fn put(&mut self, k: usize, block: &[u8]) {
        assert!(block.len() == self.size && (k + 1) * self.size <= self.first.len());
        self.written.insert(k, block.to_vec());
    }

    pub fn into_bytes(self) -> Vec<u8> {
        let mut bytes = self.first;
        for (k, block) in self.written {
            bytes[k * self.size..(k + 1) * self.size].copy_from_slice(&block);
        }
        bytes
    }

    /// Whether these are the bytes of all blocks.
    pub fn is(&self, bytes: &[u8]) -> bool {
        let mut from = 0;
        bytes.len() == self.first.len()
            && self.written.iter().all(|(k, block)| {
                let (start, end) = (k * self.size, (k + 1) * self.size);
                let same = bytes[from..start] == self.first[from..start] && bytes[start..end] == block[..];
                from = end;
                same
            })
            && bytes[from..] == self.first[from..]
    }
}

#[derive(Clone, Copy, Debug, Default, PartialEq, Eq)]
pub struct Counters {
    pub reads: u64,
    pub hits: u64,
    pub flash: u64,
    pub primary: u64,
}

/// A word and two numbers: flash writes and primary writes; for a look where its part starts, and its length.
#[derive(Clone, Copy, Debug, PartialEq, Eq)]
pub struct Answer {
    pub word: u64,
    pub first: u64,
    pub second: u64,
}

/// The answer of one call for a folder. A fetch is a block that a read of it has taken from the disk.
#[derive(Clone, Copy, Debug, Default, PartialEq, Eq)]
pub struct ManyAnswer {
    pub hits: u64,
    pub flash: u64,
    pub primary: u64,
    pub fetches: u64,
}

#[derive(Clone, Copy, Debug, PartialEq, Eq)]
pub struct Held {
    pub fingerprint: Fingerprint,
    pub dirty: bool,
    /// The seat that last wrote the address, 0 where the address was read when it was not held, and not written since.
    pub seat: u16,
}

impl Held {
    /// The row of an address in a report.
    fn reported(&self, address: u32, report: Report) -> Vec<u8> {
        let [low, high] = self.seat.to_le_bytes();
        let mut bytes = [&address.to_le_bytes()[..], &[self.dirty as u8, low, high]].concat();
        bytes.truncate(report.row());
        bytes
    }
}

#[derive(Clone, Copy, Default)]
pub(crate) struct Writes {
    pub(crate) flash: u64,
    pub(crate) primary: u64,
}

#[derive(Clone)]
pub struct Cache {
    pub b: usize,
    pub p: usize,
    pub m: usize,
    pub d: usize,
    /// The most rows that are dirty after a call.
    pub t: usize,
    pub label: Label,
    /// Held addresses, oldest use first, and what is known of each.
    pub(crate) addresses: VecDeque<u32>,
    pub(crate) held: HashMap<u32, Held>,
    /// Slots of free rows, in the order of the rows.
    pub(crate) free: VecDeque<u32>,
    /// Cached fingerprints, oldest use first, and the slot of each.
    pub(crate) cached: VecDeque<Fingerprint>,
    pub(crate) slots: HashMap<Fingerprint, u32>,
    pub(crate) disk: Store,
    pub(crate) flash: Store,
    pub counters: Counters,
    /// The lists of a D-ARC box; none in a D-LRU box.
    pub lists: Option<Lists>,
}

impl Cache {
    /// A fresh box over the disk and flash given. The numbers are in their sets and the lengths are right.
    #[allow(clippy::too_many_arguments)]
    pub fn fresh(b: usize, p: usize, m: usize, d: usize, t: usize, label: Label, disk: Vec<u8>, flash: Vec<u8>) -> Cache {
        assert!(disk.len() == p * b && flash.len() == d * b);
        Cache {
            b,
            p,
            m,
            d,
            t,
            label,
            addresses: VecDeque::new(),
            held: HashMap::new(),
            free: (0..d as u32).collect(),
            cached: VecDeque::new(),
            slots: HashMap::new(),
            disk: Store::new(b, disk),
            flash: Store::new(b, flash),
            counters: Counters::default(),
            lists: None,
        }
    }

    /// A call on this box: the number of a refusal, or the answer. A read leaves its block in `block`, a write takes it from there.
    pub fn call(&mut self, call: Call, address: u32, block: &mut Vec<u8>) -> Result<Answer, u32> {
        if call.takes_block() && block.len() != self.b {
            return Err(2);
        }
        if call.takes_address() && address as usize >= self.p {
            return Err(3);
        }
        if call != Call::Look && self.counter_too_large() {
            return Err(9);
        }
        Ok(match call {
            Call::Open => panic!("opening makes a cache"),
            Call::Read => self.read(address, block, None),
            Call::Through(seat) => self.write_through(address, seat, block),
            Call::Back(seat) => self.write_back(address, seat, block),
            Call::Invalidate(_) => self.invalidate(address, block),
            Call::Flush => self.flush(self.m),
            Call::FlushSome(most) => self.flush(most),
            Call::Look => self.look(address),
        })
    }

    /// One call for a folder (document 02, U2): the reads of these addresses in turn, their blocks one behind the other in `buffer`.
    pub fn read_many(&mut self, asked: &[u32], buffer: &mut Vec<u8>) -> Result<ManyAnswer, u32> {
        // Numbers of 128 bits, in which no product is too large.
        if buffer.len() as u128 != asked.len() as u128 * self.b as u128 {
            return Err(2);
        }
        // "It refuses with 10 an empty list or one above 64, checked after 2, and with 3 if any address is too large."
        if asked.is_empty() || asked.len() > MOST_ASKED {
            return Err(10);
        }
        if asked.iter().any(|address| *address as usize >= self.p) {
            return Err(3);
        }
        // "with 9 checked only before the first"
        if self.counter_too_large() {
            return Err(9);
        }
        let mut answer = ManyAnswer::default();
        let mut first_blocks: HashMap<u32, Vec<u8>> = HashMap::new();
        buffer.clear();
        for a in asked {
            // "a repeat that misses takes the block that its address's first read put in the buffer"
            let first = first_blocks.get(a).cloned();
            let repeat = first.is_some();
            let mut block = Vec::new();
            let Answer { word, first: flash, second: primary } = self.read(*a, &mut block, first);
            answer.hits += (word == HIT) as u64;
            answer.flash += flash;
            answer.primary += primary;
            // "A disk fetch is made for the first read of each distinct address in the list exactly where that read is a miss"
            answer.fetches += (word == MISS && !repeat) as u64;
            buffer.extend(&block);
            if !repeat {
                first_blocks.insert(*a, block);
            }
        }
        Ok(answer)
    }

    fn counter_too_large(&self) -> bool {
        let Counters { reads, hits, flash, primary } = self.counters;
        [reads, hits, flash, primary].iter().any(|counter| *counter > MOST_COUNTED)
    }

    /// A read. Where it misses, it takes the block that is given, or that of the disk where none is.
    fn read(&mut self, a: u32, block: &mut Vec<u8>, given: Option<Vec<u8>>) -> Answer {
        let held = self.held.get(&a).copied();
        // "reads keep it, a read of an address not held sets 0" (document 02, U7)
        let seat = held.map_or(0, |row| row.seat);
        let (word, fingerprint, dirty) = match held.filter(|row| self.slots.contains_key(&row.fingerprint)) {
            Some(row) => {
                *block = self.flash.block(self.slots[&row.fingerprint] as usize).to_vec();
                (HIT, row.fingerprint, row.dirty)
            }
            None => {
                *block = given.unwrap_or_else(|| self.disk.block(a as usize).to_vec());
                (MISS, self.fingerprint(block), false)
            }
        };
        let writes = self.step(a, Held { fingerprint, dirty, seat }, block);
        self.counters.reads += 1;
        self.counters.hits += (word == HIT) as u64;
        self.counted(word, writes)
    }

    fn write_through(&mut self, a: u32, seat: u16, block: &[u8]) -> Answer {
        let fingerprint = self.fingerprint(block);
        let word = self.same_or_new(&fingerprint);
        self.disk.put(a as usize, block);
        let mut writes = self.step(a, Held { fingerprint, dirty: false, seat }, block);
        writes.primary += 1;
        self.counted(word, writes)
    }

    fn write_back(&mut self, a: u32, seat: u16, block: &[u8]) -> Answer {
        let fingerprint = self.fingerprint(block);
        let word = self.same_or_new(&fingerprint);
        // "a write back to a held, clean address with the same fingerprint leaves the row clean" (document 02, U1)
        let unchanged = self.held.get(&a).is_some_and(|row| row.fingerprint == fingerprint && !row.dirty);
        let mut writes = self.step(a, Held { fingerprint, dirty: !unchanged, seat }, block);
        // "After the step of a write back, if more than t rows are dirty, the oldest dirty one is copied to disk and made clean." (document 02, U8)
        let dirty = self.dirty();
        if dirty.len() > self.t {
            self.clean(dirty[0]);
            writes.primary += 1;
        }
        self.counted(word, writes)
    }

    /// The dirty addresses, oldest use first.
    pub fn dirty(&self) -> Vec<u32> {
        self.addresses.iter().copied().filter(|a| self.held[a].dirty).collect()
    }

    fn invalidate(&mut self, a: u32, block: &[u8]) -> Answer {
        let word = self.same_or_new(&self.fingerprint(block));
        self.disk.put(a as usize, block);
        if self.held.contains_key(&a) {
            let q = self.take_out(a);
            if let Some(lists) = &mut self.lists {
                lists.leave(a);
            }
            if !self.has_address(&q) && self.slots.contains_key(&q) {
                self.set_free(&q);
            }
        }
        self.counted(word, Writes { flash: 0, primary: 1 })
    }

    /// "one call cleans at most k dirty rows, oldest first, and says how many it cleaned" (document 02, U3)
    fn flush(&mut self, most: usize) -> Answer {
        let dirty: Vec<u32> = self.dirty().into_iter().take(most).collect();
        for a in &dirty {
            self.clean(*a);
        }
        self.counted(DONE, Writes { flash: 0, primary: dirty.len() as u64 })
    }

    fn look(&self, a: u32) -> Answer {
        let slot = self.held.get(&a).and_then(|row| self.slots.get(&row.fingerprint));
        let (word, place) = match slot {
            Some(slot) => (CACHE, *slot),
            None => (DISK, a),
        };
        Answer { word, first: place as u64 * self.b as u64, second: self.b as u64 }
    }

    /// The step of one request, under the document's numbers: the row that address a is to have, and its block.
    fn step(&mut self, a: u32, new: Held, b: &[u8]) -> Writes {
        if self.lists.is_some() {
            return self.arc_step(a, new, b);
        }
        let g = new.fingerprint;
        let mut writes = Writes::default();
        // 1
        let mut q = None;
        if self.held.contains_key(&a) {
            q = Some(self.take_out(a));
        } else if self.addresses.len() == self.m {
            let oldest = self.addresses[0];
            if self.held[&oldest].dirty {
                self.clean(oldest);
                writes.primary += 1;
            }
            q = Some(self.take_out(oldest));
        }
        // 2
        self.addresses.push_back(a);
        self.held.insert(a, new);
        // 3
        if let Some(q) = q {
            let without_block = |x: &u32| *x != a && !self.slots.contains_key(&self.held[x].fingerprint);
            if self.slots.contains_key(&q) && !self.has_address(&q) && self.addresses.iter().any(without_block) {
                self.set_free(&q);
            }
        }
        // 4
        if self.slots.contains_key(&g) {
            self.cached.retain(|other| *other != g);
            self.cached.push_back(g);
            return writes;
        }
        let slot = match self.free.pop_front() {
            Some(slot) => slot,
            None => {
                let wanted: HashSet<Fingerprint> = self.held.values().map(|row| row.fingerprint).collect();
                let victim = self.cached.iter().find(|other| !wanted.contains(*other)).unwrap_or(&self.cached[0]).to_owned();
                for x in self.addresses.clone() {
                    if self.held[&x].fingerprint == victim && self.held[&x].dirty {
                        self.clean(x);
                        writes.primary += 1;
                    }
                }
                self.cached.retain(|other| *other != victim);
                self.slots.remove(&victim).unwrap()
            }
        };
        self.flash.put(slot as usize, b);
        writes.flash += 1;
        self.slots.insert(g, slot);
        self.cached.push_back(g);
        writes
    }

    fn fingerprint(&self, block: &[u8]) -> Fingerprint {
        fingerprint(&self.label, block)
    }

    fn same_or_new(&self, g: &Fingerprint) -> u64 {
        if self.slots.contains_key(g) {
            SAME
        } else {
            NEW
        }
    }

    fn has_address(&self, g: &Fingerprint) -> bool {
        self.held.values().any(|row| row.fingerprint == *g)
    }

    /// Takes the row of a held address out and gives its fingerprint.
    pub(crate) fn take_out(&mut self, a: u32) -> Fingerprint {
        self.addresses.retain(|other| *other != a);
        self.held.remove(&a).unwrap().fingerprint
    }

    /// Copies the block of a dirty row to the disk; the row is clean then.
    pub(crate) fn clean(&mut self, a: u32) {
        let row = self.held.get_mut(&a).unwrap();
        row.dirty = false;
        let block = self.flash.block(self.slots[&row.fingerprint] as usize).to_vec();
        self.disk.put(a as usize, &block);
    }

    /// The row of a cached block becomes free and the first of all.
    fn set_free(&mut self, g: &Fingerprint) {
        self.cached.retain(|other| other != g);
        self.free.push_front(self.slots.remove(g).unwrap());
    }

    fn counted(&mut self, word: u64, writes: Writes) -> Answer {
        self.counters.flash += writes.flash;
        self.counters.primary += writes.primary;
        Answer { word, first: writes.flash, second: writes.primary }
    }

    pub fn disk_block(&self, a: u32) -> &[u8] {
        self.disk.block(a as usize)
    }

    /// Held addresses, oldest first, with what is known of each.
    pub fn rows(&self) -> Vec<(u32, Held)> {
        self.addresses.iter().map(|a| (*a, self.held[a])).collect()
    }

    /// A report on the held rows.
    pub fn report(&self, report: Report) -> Vec<u8> {
        let mut bytes: Vec<u8> = self.rows().iter().flat_map(|(a, row)| row.reported(*a, report)).collect();
        // "zeros follow"
        bytes.resize(self.m * report.row(), 0);
        bytes
    }

    /// The cached blocks' bytes, oldest first.
    pub fn cached_blocks(&self) -> Vec<&[u8]> {
        self.cached.iter().map(|g| self.flash.block(self.slots[g] as usize)).collect()
    }
}
