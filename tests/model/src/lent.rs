//! A box as it is lent: bytes. Which of them are refused, and the way into maps and queues and back.
use crate::arc::ArcNumbers;
use crate::cache::{Held, Store};
use crate::*;
use std::collections::{BTreeSet, HashMap, HashSet};

/// All memory that is lent to a call. A call that takes no block or no answer leaves that one alone, and opening alone takes the label.
#[derive(Clone, Default, PartialEq, Eq)]
pub struct Lent {
    pub state: Vec<u8>,
    pub disk: Vec<u8>,
    pub flash: Vec<u8>,
    pub addresses: Vec<u8>,
    pub blocks: Vec<u8>,
    pub block: Vec<u8>,
    pub answer: Vec<u8>,
    pub label: Vec<u8>,
}

/// What one call for a folder is lent beside a box, whose block and answer it leaves alone.
#[derive(Clone, Debug, PartialEq, Eq)]
pub struct Folder {
    pub asked: Vec<u32>,
    pub buffer: Vec<u8>,
    pub answer: Vec<u8>,
}

impl Folder {
    /// Where this differs from what was expected.
    pub fn difference(&self, expected: &Folder) -> Option<String> {
        let place = |one: &[u8], two: &[u8]| one.iter().zip(two).position(|(x, y)| x != y).unwrap_or(one.len().min(two.len()));
        if self.asked != expected.asked {
            Some("the list of addresses".to_string())
        } else if self.buffer != expected.buffer {
            Some(format!("buffer: byte {}", place(&self.buffer, &expected.buffer)))
        } else if self.answer != expected.answer {
            Some(format!("answer: {:?} where {:?} is expected", self.answer, expected.answer))
        } else {
            None
        }
    }
}

/// The state: numbers, all of 64 bits, and the label.
#[derive(Clone, Copy, Debug, PartialEq, Eq)]
pub struct Numbers {
    pub b: u64,
    pub p: u64,
    pub m: u64,
    pub d: u64,
    pub n: u64,
    pub counters: [u64; 4],
    pub label: Label,
    /// The limit.
    pub t: u64,
}

impl Numbers {
    pub fn from_bytes(state: &[u8]) -> Numbers {
        assert_eq!(state.len(), STATE);
        let number = |bytes: &[u8]| u64::from_le_bytes(bytes.try_into().unwrap());
        let [b, p, m, d, n, c0, c1, c2, c3] = std::array::from_fn(|k| number(&state[k * 8..k * 8 + 8]));
        let (label, t) = (state[STATE_LABEL].try_into().unwrap(), number(&state[STATE_LIMIT]));
        Numbers { b, p, m, d, n, counters: [c0, c1, c2, c3], label, t }
    }

    pub fn to_bytes(self) -> Vec<u8> {
        let numbers = [&[self.b, self.p, self.m, self.d, self.n][..], &self.counters].concat();
        numbers.iter().flat_map(|number| number.to_le_bytes()).chain(self.label).chain(self.t.to_le_bytes()).collect()
    }
}

impl Lent {
    pub fn numbers(&self) -> Numbers {
        Numbers::from_bytes(&self.state)
    }

    /// The buffers by name, to say which one differs.
    pub fn buffers(&self) -> [(&'static str, &Vec<u8>); 8] {
        [
            ("state", &self.state),
            ("disk", &self.disk),
            ("flash", &self.flash),
            ("address table", &self.addresses),
            ("block table", &self.blocks),
            ("lent block", &self.block),
            ("answer", &self.answer),
            ("lent label", &self.label),
        ]
    }

    /// Where this differs from what was expected: the buffer and the first byte.
    pub fn difference(&self, expected: &Lent) -> Option<String> {
        self.buffers().into_iter().zip(expected.buffers()).find(|(one, two)| one.1 != two.1).map(|((name, bytes), (_, wanted))| {
            let place = bytes.iter().zip(wanted).position(|(x, y)| x != y).unwrap_or(bytes.len().min(wanted.len()));
            format!("{name}: byte {place} is {:?} where {:?} is expected", bytes.get(place), wanted.get(place))
        })
    }
}

#[derive(Clone, Copy, Debug, PartialEq, Eq)]
pub struct AddressRow {
    pub address: u32,
    pub fingerprint: Fingerprint,
    pub dirty: u8,
    /// "The first two padding bytes of an address row become a seat number, little-endian" (document 02, U7)
    pub seat: u16,
    pub padding: u8,
}

#[derive(Clone, Copy, Debug, PartialEq, Eq)]
pub struct BlockRow {
    pub fingerprint: Fingerprint,
    pub slot: u32,
    pub used: u8,
    pub padding: [u8; 3],
}

impl AddressRow {
    pub fn from_bytes(row: &[u8]) -> AddressRow {
        AddressRow {
            address: u32::from_le_bytes(row[..4].try_into().unwrap()),
            fingerprint: row[4..36].try_into().unwrap(),
            dirty: row[36],
            seat: u16::from_le_bytes(row[37..39].try_into().unwrap()),
            padding: row[39],
        }
    }

    pub fn to_bytes(&self) -> Vec<u8> {
        [&self.address.to_le_bytes()[..], &self.fingerprint, &[self.dirty], &self.seat.to_le_bytes(), &[self.padding]].concat()
    }
}

impl BlockRow {
    pub fn from_bytes(row: &[u8]) -> BlockRow {
        BlockRow {
            fingerprint: row[..32].try_into().unwrap(),
            slot: u32::from_le_bytes(row[32..36].try_into().unwrap()),
            used: row[36],
            padding: row[37..].try_into().unwrap(),
        }
    }

    pub fn to_bytes(&self) -> Vec<u8> {
        [&self.fingerprint[..], &self.slot.to_le_bytes(), &[self.used], &self.padding].concat()
    }
}

/// All rows of both tables as they are written, held or not, sound or not.
pub fn read_tables(lent: &Lent) -> (Vec<AddressRow>, Vec<BlockRow>) {
    (lent.addresses.chunks_exact(ROW).map(AddressRow::from_bytes).collect(), lent.blocks.chunks_exact(ROW).map(BlockRow::from_bytes).collect())
}

fn one(numbers: &Numbers) -> bool {
    let inside = |number: u64, most: usize| 1 <= number && number <= most as u64;
    !(BLOCK_SIZES.iter().any(|size| *size as u64 == numbers.b) && inside(numbers.p, MOST_P) && inside(numbers.m, MOST_M) && inside(numbers.d, MOST_D))
}

/// "a limit outside its range", which is "from 1 to m" (document 02, U8)
pub(crate) fn twelve(numbers: &Numbers) -> bool {
    !(1..=numbers.m).contains(&numbers.t)
}

/// Asked after 1, so that no product is too large.
pub(crate) fn two(numbers: &Numbers, lent: &Lent) -> bool {
    let wrong = |bytes: &Vec<u8>, length: u64| bytes.len() as u64 != length;
    wrong(&lent.disk, numbers.p * numbers.b)
        || wrong(&lent.flash, numbers.d * numbers.b)
        || wrong(&lent.addresses, numbers.m * ROW as u64)
        || wrong(&lent.blocks, numbers.d * ROW as u64)
}

pub(crate) fn six(numbers: &Numbers, rows: &[AddressRow], bytes: &[u8]) -> bool {
    if numbers.n > numbers.m {
        return true;
    }
    let n = numbers.n as usize;
    let held = &rows[..n];
    let different: BTreeSet<u32> = held.iter().map(|row| row.address).collect();
    different.len() < n
        || different.iter().any(|address| *address as u64 >= numbers.p)
        // "In a held row refusal 6 now wants only the last padding byte zero." (document 02, U7)
        || held.iter().any(|row| row.dirty > 1 || row.padding != 0)
        || bytes[n * ROW..].iter().any(|byte| *byte != 0)
}

pub(crate) fn seven(numbers: &Numbers, rows: &[BlockRow]) -> bool {
    let free: Vec<&BlockRow> = rows.iter().take_while(|row| row.used == 0).collect();
    let used = &rows[free.len()..];
    let slots: BTreeSet<u32> = rows.iter().map(|row| row.slot).collect();
    let fingerprints: HashSet<Fingerprint> = used.iter().map(|row| row.fingerprint).collect();
    used.iter().any(|row| row.used != 1)
        || rows.iter().any(|row| row.padding != [0; 3])
        || free.iter().any(|row| row.fingerprint != [0; 32])
        || !slots.into_iter().eq(0..numbers.d as u32)
        || fingerprints.len() < used.len()
}

pub(crate) fn eight(numbers: &Numbers, rows: &[AddressRow], blocks: &[BlockRow]) -> bool {
    let cached: HashSet<Fingerprint> = blocks.iter().filter(|row| row.used == 1).map(|row| row.fingerprint).collect();
    rows[..numbers.n as usize].iter().any(|row| row.dirty == 1 && !cached.contains(&row.fingerprint))
}

/// "a state with more than t dirty rows" (document 02, U8)
pub(crate) fn thirteen(numbers: &Numbers, rows: &[AddressRow]) -> bool {
    rows[..numbers.n as usize].iter().filter(|row| row.dirty == 1).count() as u64 > numbers.t
}

/// The number with which a call is refused, 0 where it is served. A state or an answer of another length comes before all.
pub fn refusal(call: Call, address: u32, lent: &Lent) -> u32 {
    if lent.state.len() != STATE || call != Call::Open && lent.answer.len() != ANSWER {
        return 2;
    }
    let numbers = lent.numbers();
    let own = |number: u32| match number {
        2 => call.takes_block() && lent.block.len() as u64 != numbers.b || call == Call::Open && lent.label.len() != LABEL,
        _ => address as u64 >= numbers.p,
    };
    first_of(call.checks(), lent, own)
}

/// The number with which one call for a folder is refused, 0 where it is served. A state or an answer of another length comes before all.
pub fn refusal_many(lent: &Lent, folder: &Folder) -> u32 {
    if lent.state.len() != STATE || folder.answer.len() != MANY_ANSWER {
        return 2;
    }
    let numbers = lent.numbers();
    let count = folder.asked.len();
    let own = |number: u32| match number {
        // In numbers of 128 bits, in which no product is too large.
        2 => folder.buffer.len() as u128 != count as u128 * numbers.b as u128,
        10 => count == 0 || count > MOST_ASKED,
        _ => folder.asked.iter().any(|address| *address as u64 >= numbers.p),
    };
    first_of(&MANY_CHECKS, lent, own)
}

/// The number with which a report into so many bytes is refused, 0 where it is made. A state of another length comes before all.
pub fn refusal_report(report: Report, lent: &Lent, length: usize) -> u32 {
    if lent.state.len() != STATE {
        return 2;
    }
    let most = lent.numbers().m as u128 * report.row() as u128;
    first_of(&REPORT_CHECKS, lent, |_| length as u128 != most)
}

/// The first of these checks that applies, 0 where none does. `own` is the call's own part of 2, of 3 and of 10.
pub(crate) fn first_of(checks: &[u32], lent: &Lent, own: impl Fn(u32) -> bool) -> u32 {
    let numbers = lent.numbers();
    let (rows, blocks) = read_tables(lent);
    let applies = |number: &&u32| match **number {
        1 => one(&numbers),
        2 => two(&numbers, lent) || own(2),
        3 => own(3),
        6 => six(&numbers, &rows, &lent.addresses),
        7 => seven(&numbers, &blocks),
        8 => eight(&numbers, &rows, &blocks),
        9 => numbers.counters.iter().any(|counter| *counter > MOST_COUNTED),
        12 => twelve(&numbers),
        13 => thirteen(&numbers, &rows),
        _ => own(10),
    };
    checks.iter().find(applies).copied().unwrap_or(0)
}

/// Carries a call out on lent bytes: gives the number of the refusal or 0, and leaves in every buffer what it must hold afterwards.
pub fn carry_out(call: Call, address: u32, lent: &mut Lent) -> u32 {
    let number = refusal(call, address, lent);
    if call == Call::Open {
        if lent.state.len() == STATE {
            // "The box record carries the label, given at opening (zeros if refused)." (document 02, U6)
            let label = if number == 0 { lent.label[..].try_into().unwrap() } else { ZEROS };
            lent.state = Numbers { n: 0, label, ..lent.numbers() }.to_bytes();
        }
        if number == 0 {
            let Numbers { b, p, m, d, t, label, .. } = lent.numbers();
            let [b, p, m, d, t] = [b, p, m, d, t].map(|number| number as usize);
            let (disk, flash) = (std::mem::take(&mut lent.disk), std::mem::take(&mut lent.flash));
            Cache::fresh(b, p, m, d, t, label, disk, flash).store(lent);
        }
        return number;
    }
    if number != 0 {
        return number;
    }
    let mut cache = Cache::load(lent);
    let answer = cache.call(call, address, &mut lent.block).expect("every refusal has been asked for");
    cache.store(lent);
    lent.answer = answer.to_bytes();
    0
}

/// The same for one call for a folder.
pub fn carry_out_many(lent: &mut Lent, folder: &mut Folder) -> u32 {
    let number = refusal_many(lent, folder);
    if number == 0 {
        let mut cache = Cache::load(lent);
        let answer = cache.read_many(&folder.asked, &mut folder.buffer).expect("every refusal has been asked for");
        cache.store(lent);
        folder.answer = answer.to_bytes();
    }
    number
}

/// The same for a report, which is lent its bytes and changes nothing else.
pub fn carry_out_report(report: Report, lent: &Lent, bytes: &mut Vec<u8>) -> u32 {
    let number = refusal_report(report, lent, bytes.len());
    if number == 0 {
        *bytes = Cache::load(&mut lent.clone()).report(report);
    }
    number
}

impl ManyAnswer {
    pub fn to_bytes(self) -> Vec<u8> {
        [self.hits, self.flash, self.primary, self.fetches].iter().flat_map(|number| number.to_le_bytes()).collect()
    }

    pub fn from_bytes(bytes: &[u8]) -> ManyAnswer {
        let [hits, flash, primary, fetches] = std::array::from_fn(|k| u64::from_le_bytes(bytes[k * 8..k * 8 + 8].try_into().unwrap()));
        ManyAnswer { hits, flash, primary, fetches }
    }
}

impl Answer {
    pub fn to_bytes(self) -> Vec<u8> {
        [self.word, self.first, self.second].iter().flat_map(|number| number.to_le_bytes()).collect()
    }

    pub fn from_bytes(bytes: &[u8]) -> Answer {
        let [word, first, second] = std::array::from_fn(|k| u64::from_le_bytes(bytes[k * 8..k * 8 + 8].try_into().unwrap()));
        Answer { word, first, second }
    }
}

impl Cache {
    /// A box out of bytes that no check refuses. Takes disk and flash away from the bytes; `store` gives them back.
    pub fn load(lent: &mut Lent) -> Cache {
        Cache::load_as(lent.numbers(), lent)
    }

    /// The same where the numbers of the box are known already, and the bytes of the state are not looked at.
    pub(crate) fn load_as(numbers: Numbers, lent: &mut Lent) -> Cache {
        let (rows, blocks) = read_tables(lent);
        let held = &rows[..numbers.n as usize];
        let (free, used): (Vec<BlockRow>, Vec<BlockRow>) = blocks.into_iter().partition(|row| row.used == 0);
        let b = numbers.b as usize;
        let [reads, hits, flash, primary] = numbers.counters;
        Cache {
            b,
            p: numbers.p as usize,
            m: numbers.m as usize,
            d: numbers.d as usize,
            t: numbers.t as usize,
            label: numbers.label,
            addresses: held.iter().map(|row| row.address).collect(),
            held: held.iter().map(|row| (row.address, Held { fingerprint: row.fingerprint, dirty: row.dirty == 1, seat: row.seat })).collect(),
            free: free.iter().map(|row| row.slot).collect(),
            cached: used.iter().map(|row| row.fingerprint).collect(),
            slots: used.iter().map(|row| (row.fingerprint, row.slot)).collect::<HashMap<_, _>>(),
            disk: Store::new(b, std::mem::take(&mut lent.disk)),
            flash: Store::new(b, std::mem::take(&mut lent.flash)),
            counters: Counters { reads, hits, flash, primary },
            lists: None,
        }
    }

    pub(crate) fn numbers(&self) -> Numbers {
        let Counters { reads, hits, flash, primary } = self.counters;
        let [b, p, m, d, n, t] = [self.b, self.p, self.m, self.d, self.addresses.len(), self.t].map(|number| number as u64);
        Numbers { b, p, m, d, n, counters: [reads, hits, flash, primary], label: self.label, t }
    }

    fn state_bytes(&self) -> Vec<u8> {
        match &self.lists {
            Some(lists) => ArcNumbers::of(self.numbers(), lists).to_bytes(),
            None => self.numbers().to_bytes(),
        }
    }

    fn address_bytes(&self) -> Vec<u8> {
        let mut bytes = Vec::with_capacity(self.m * ROW);
        for (address, row) in self.rows() {
            let Held { fingerprint, dirty, seat } = row;
            bytes.extend(AddressRow { address, fingerprint, dirty: dirty as u8, seat, padding: 0 }.to_bytes());
        }
        bytes.resize(self.m * ROW, 0);
        bytes
    }

    fn block_bytes(&self) -> Vec<u8> {
        let free = self.free.iter().map(|slot| BlockRow { fingerprint: [0; 32], slot: *slot, used: 0, padding: [0; 3] });
        let used = self.cached.iter().map(|g| BlockRow { fingerprint: *g, slot: self.slots[g], used: 1, padding: [0; 3] });
        free.chain(used).flat_map(|row| row.to_bytes()).collect()
    }

    /// Writes the box into bytes: every buffer but the lent block, the answer and the lent label.
    pub fn store(self, lent: &mut Lent) {
        lent.state = self.state_bytes();
        lent.addresses = self.address_bytes();
        lent.blocks = self.block_bytes();
        lent.disk = self.disk.into_bytes();
        lent.flash = self.flash.into_bytes();
    }

    /// The name of a buffer whose bytes are not this box's, if there is one. The lent block, the answer and the lent label are not looked at.
    pub fn difference(&self, lent: &Lent) -> Option<&'static str> {
        [
            ("state", lent.state == self.state_bytes()),
            ("address table", lent.addresses == self.address_bytes()),
            ("block table", lent.blocks == self.block_bytes()),
            ("flash", self.flash.is(&lent.flash)),
            ("disk", self.disk.is(&lent.disk)),
        ]
        .into_iter()
        .find(|(_, same)| !same)
        .map(|(name, _)| name)
    }
}
