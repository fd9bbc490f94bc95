//! Refuses nothing and keeps its maps from call to call. The lent tables are read once, by `load`, and written by `store` alone; the state is
//! not looked at. Disk, flash, block and answer are used as by the service.
use crate::layout::*;
use crate::maps::ByFingerprint;
use std::collections::{BTreeMap, HashMap};

struct Held {
    fingerprint: Fingerprint,
    dirty: bool,
    seat: u16,
    stamp: u64,
}

struct Cached {
    slot: u32,
    stamp: u64,
}

pub struct Persistent {
    b: usize,
    m: usize,
    /// The limit.
    t: usize,
    label: Label,
    clock: u64,
    held: HashMap<u32, Held>,
    addresses: BTreeMap<u64, u32>,
    /// The dirty ones among them.
    dirty: BTreeMap<u64, u32>,
    /// The first free row comes last.
    free: Vec<u32>,
    cached: ByFingerprint<Cached>,
    fingerprints: BTreeMap<u64, Fingerprint>,
    /// The addresses that have a fingerprint, where there are any.
    users: ByFingerprint<Vec<u32>>,
    /// Cached fingerprints that no address has, by age.
    unwanted: BTreeMap<u64, Fingerprint>,
    rows_without_block: usize,
    counters: [u64; 4],
}

impl Persistent {
    fn empty(b: usize, m: usize, t: usize, label: Label, counters: [u64; 4]) -> Persistent {
        Persistent {
            b,
            m,
            t,
            label,
            clock: 0,
            held: HashMap::new(),
            addresses: BTreeMap::new(),
            dirty: BTreeMap::new(),
            free: Vec::new(),
            cached: ByFingerprint::default(),
            fingerprints: BTreeMap::new(),
            users: ByFingerprint::default(),
            unwanted: BTreeMap::new(),
            rows_without_block: 0,
            counters,
        }
    }

    pub fn load(state: &[u8], addresses: &[u8], blocks: &[u8]) -> Persistent {
        let Sizes { b, m, d, n, t, .. } = sizes(state).expect("a box that the service takes");
        let mut engine = Persistent::empty(b, m, t, *label(state), std::array::from_fn(|k| number(state, 5 + k)));
        for k in (0..d).rev().filter(|k| !is_used(row(blocks, *k))) {
            engine.free.push(slot(row(blocks, k)) as u32);
        }
        for k in (0..d).filter(|k| is_used(row(blocks, *k))) {
            engine.put_block(*cached_fingerprint(row(blocks, k)), slot(row(blocks, k)) as u32);
        }
        for k in 0..n {
            let row = row(addresses, k);
            engine.add(address(row), *held_fingerprint(row), is_dirty(row), seat(row));
        }
        engine
    }

    /// Writes the number of held rows, the counters and both tables.
    pub fn store(&self, state: &mut [u8], addresses: &mut [u8], blocks: &mut [u8]) {
        set_number(state, 4, self.held.len() as u64);
        for (k, counter) in self.counters.into_iter().enumerate() {
            set_number(state, 5 + k, counter);
        }
        addresses.fill(0);
        for (k, a) in self.addresses.values().enumerate() {
            let Held { fingerprint, dirty, seat, .. } = &self.held[a];
            add(addresses, k, *a, fingerprint, *dirty, *seat);
        }
        blocks.fill(0);
        let free = self.free.iter().rev().map(|slot| ([0; 32], *slot, 0));
        let used = self.fingerprints.values().map(|g| (*g, self.cached[g].slot, 1));
        for (row, (g, slot, flag)) in blocks.chunks_exact_mut(ROW).zip(free.chain(used)) {
            row[..32].copy_from_slice(&g);
            row[32..36].copy_from_slice(&slot.to_le_bytes());
            row[36] = flag;
        }
    }

    fn stamp(&mut self) -> u64 {
        self.clock += 1;
        self.clock
    }

    fn add(&mut self, a: u32, g: Fingerprint, dirty: bool, seat: u16) {
        let stamp = self.stamp();
        self.held.insert(a, Held { fingerprint: g, dirty, seat, stamp });
        self.addresses.insert(stamp, a);
        if dirty {
            self.dirty.insert(stamp, a);
        }
        self.users.entry(g).or_default().push(a);
        match self.cached.get(&g) {
            Some(cached) => drop(self.unwanted.remove(&cached.stamp)),
            None => self.rows_without_block += 1,
        }
    }

    fn take_out(&mut self, a: u32) -> Fingerprint {
        let row = self.held.remove(&a).unwrap();
        self.addresses.remove(&row.stamp);
        self.dirty.remove(&row.stamp);
        let users = self.users.get_mut(&row.fingerprint).unwrap();
        users.retain(|other| *other != a);
        let last = users.is_empty();
        if last {
            self.users.remove(&row.fingerprint);
        }
        match self.cached.get(&row.fingerprint) {
            Some(cached) if last => drop(self.unwanted.insert(cached.stamp, row.fingerprint)),
            Some(_) => {}
            None => self.rows_without_block -= 1,
        }
        row.fingerprint
    }

    fn put_block(&mut self, g: Fingerprint, slot: u32) {
        let stamp = self.stamp();
        self.cached.insert(g, Cached { slot, stamp });
        self.fingerprints.insert(stamp, g);
        match self.users.get(&g) {
            Some(users) => self.rows_without_block -= users.len(),
            None => drop(self.unwanted.insert(stamp, g)),
        }
    }

    fn take_block(&mut self, g: &Fingerprint) -> u32 {
        let cached = self.cached.remove(g).unwrap();
        self.fingerprints.remove(&cached.stamp);
        self.unwanted.remove(&cached.stamp);
        self.rows_without_block += self.users.get(g).map_or(0, |users| users.len());
        cached.slot
    }

    fn clean(&mut self, a: u32, disk: &mut [u8], flash: &[u8]) {
        let b = self.b;
        let row = self.held.get_mut(&a).unwrap();
        row.dirty = false;
        self.dirty.remove(&row.stamp);
        let slot = self.cached[&row.fingerprint].slot as usize;
        disk[a as usize * b..(a as usize + 1) * b].copy_from_slice(&flash[slot * b..(slot + 1) * b]);
    }

    #[allow(clippy::too_many_arguments)]
    fn step(&mut self, a: u32, g: Fingerprint, block: &[u8], dirty: bool, seat: u16, disk: &mut [u8], flash: &mut [u8]) -> [u64; 2] {
        let mut primary_writes = 0;
        let mut q = None;
        if self.held.contains_key(&a) {
            q = Some(self.take_out(a));
        } else if self.held.len() == self.m {
            let oldest = *self.addresses.first_key_value().unwrap().1;
            if self.held[&oldest].dirty {
                self.clean(oldest, disk, flash);
                primary_writes += 1;
            }
            q = Some(self.take_out(oldest));
        }
        self.add(a, g, dirty, seat);
        if let Some(q) = q {
            let newest_has_none = !self.cached.contains_key(&g);
            if self.cached.contains_key(&q) && !self.users.contains_key(&q) && self.rows_without_block > newest_has_none as usize {
                let slot = self.take_block(&q);
                self.free.push(slot);
            }
        }
        if self.cached.contains_key(&g) {
            let slot = self.take_block(&g);
            self.put_block(g, slot);
            return [0, primary_writes];
        }
        let slot = self.free.pop().unwrap_or_else(|| {
            let victim = *self.unwanted.first_key_value().or(self.fingerprints.first_key_value()).unwrap().1;
            for x in self.users.get(&victim).cloned().unwrap_or_default() {
                if self.held[&x].dirty {
                    self.clean(x, disk, flash);
                    primary_writes += 1;
                }
            }
            self.take_block(&victim)
        });
        flash[slot as usize * self.b..(slot as usize + 1) * self.b].copy_from_slice(block);
        self.put_block(g, slot);
        [1, primary_writes]
    }

    fn done(&mut self, answer: &mut [u8], word: u64, writes: [u64; 2]) -> u32 {
        for (counter, more) in self.counters.iter_mut().zip([(word <= 2) as u64, (word == 1) as u64, writes[0], writes[1]]) {
            *counter += more;
        }
        set_number(answer, 0, word);
        set_number(answer, 1, writes[0]);
        set_number(answer, 2, writes[1]);
        0
    }

    pub fn read(&mut self, a: u32, disk: &mut [u8], flash: &mut [u8], block: &mut [u8], answer: &mut [u8]) -> u32 {
        let b = self.b;
        let hit = self.held.get(&a).and_then(|row| self.cached.get(&row.fingerprint).map(|cached| (row.fingerprint, row.dirty, cached.slot as usize)));
        let (word, g, dirty) = match hit {
            Some((g, dirty, slot)) => {
                block.copy_from_slice(&flash[slot * b..(slot + 1) * b]);
                (1, g, dirty)
            }
            None => {
                block.copy_from_slice(&disk[a as usize * b..(a as usize + 1) * b]);
                (2, fingerprint(&self.label, block), false)
            }
        };
        let seat = self.held.get(&a).map_or(0, |row| row.seat);
        let writes = self.step(a, g, block, dirty, seat, disk, flash);
        self.done(answer, word, writes)
    }

    fn same_or_new(&self, g: &Fingerprint) -> u64 {
        3 + !self.cached.contains_key(g) as u64
    }

    pub fn write_through(&mut self, a: u32, seat: u16, disk: &mut [u8], flash: &mut [u8], block: &[u8], answer: &mut [u8]) -> u32 {
        let g = fingerprint(&self.label, block);
        let word = self.same_or_new(&g);
        disk[a as usize * self.b..(a as usize + 1) * self.b].copy_from_slice(block);
        let [flash_writes, primary_writes] = self.step(a, g, block, false, seat, disk, flash);
        self.done(answer, word, [flash_writes, primary_writes + 1])
    }

    pub fn write_back(&mut self, a: u32, seat: u16, disk: &mut [u8], flash: &mut [u8], block: &[u8], answer: &mut [u8]) -> u32 {
        let g = fingerprint(&self.label, block);
        let word = self.same_or_new(&g);
        let unchanged = self.held.get(&a).is_some_and(|row| !row.dirty && row.fingerprint == g);
        let [flash_writes, mut primary_writes] = self.step(a, g, block, !unchanged, seat, disk, flash);
        if self.dirty.len() > self.t {
            let oldest = *self.dirty.first_key_value().unwrap().1;
            self.clean(oldest, disk, flash);
            primary_writes += 1;
        }
        self.done(answer, word, [flash_writes, primary_writes])
    }

    pub fn write_invalidate(&mut self, a: u32, disk: &mut [u8], block: &[u8], answer: &mut [u8]) -> u32 {
        let word = self.same_or_new(&fingerprint(&self.label, block));
        disk[a as usize * self.b..(a as usize + 1) * self.b].copy_from_slice(block);
        if self.held.contains_key(&a) {
            let q = self.take_out(a);
            if !self.users.contains_key(&q) && self.cached.contains_key(&q) {
                let slot = self.take_block(&q);
                self.free.push(slot);
            }
        }
        self.done(answer, word, [0, 1])
    }

    pub fn flush(&mut self, disk: &mut [u8], flash: &[u8], answer: &mut [u8]) -> u32 {
        self.flush_some(usize::MAX, disk, flash, answer)
    }

    pub fn flush_some(&mut self, most: usize, disk: &mut [u8], flash: &[u8], answer: &mut [u8]) -> u32 {
        let dirty: Vec<u32> = self.dirty.values().copied().take(most).collect();
        for a in &dirty {
            self.clean(*a, disk, flash);
        }
        self.done(answer, 7, [0, dirty.len() as u64])
    }

    pub fn look(&self, a: u32, answer: &mut [u8]) -> u32 {
        let slot = self.held.get(&a).and_then(|row| self.cached.get(&row.fingerprint));
        let (word, place) = slot.map_or((6, a), |cached| (5, cached.slot));
        set_number(answer, 0, word);
        set_number(answer, 1, place as u64 * self.b as u64);
        set_number(answer, 2, self.b as u64);
        0
    }
}
