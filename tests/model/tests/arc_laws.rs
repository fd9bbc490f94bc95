//! The laws of U5 on random lists of calls on D-ARC boxes of the model, with those of U2, U3, U7 and U8 that are about these boxes too.
use common::Random;
use model::arc::{carry_out, carry_out_many, carry_out_report, ArcLent, ArcNumbers, Lists, B1, B2, B3, T1, T2, WORD};
use model::machines::PlainDisk;
use model::{fingerprint, read_tables, AddressRow, Answer, BlockRow, Cache, Call, Fingerprint, Folder, Label, Lent, ManyAnswer, Report};
use model::{ANSWER, DISK, HIT, LABEL, MANY_ANSWER, ROW};
use std::collections::{HashMap, HashSet};

const B: usize = 64;
const OFFICE: Label = [0x4F; LABEL];

/// What the lists met, to say where they would say little.
#[derive(Default)]
struct Met {
    calls: usize,
    refused: usize,
    /// Reads and writes by the list that held the address before, in the order of the lists; those of an address that was not held come last.
    from: [usize; 6],
    raised: usize,
    lowered: usize,
    /// p changed by more than 1.
    by_more: usize,
    /// Two or more other addresses left T1 and T2 in one call.
    again: usize,
    evicted_dirty: usize,
    /// States in which an address of B1, B2 or B3 is dirty, and in which it shares its cached block with one of T1 or T2.
    dirty_ghosts: usize,
    shared: usize,
    /// States with an address in B3.
    in_b3: usize,
    folders: usize,
}

/// A box as bytes and as a cache, beside the plain disk.
struct Beside {
    lent: ArcLent,
    cache: Cache,
    plain: PlainDisk,
}

/// Numbers of small boxes.
#[derive(Clone, Copy, Debug)]
struct Shape {
    c: usize,
    x: usize,
    p: usize,
    t: usize,
    contents: usize,
}

impl Shape {
    fn any(random: &mut Random) -> Shape {
        let (c, x, p) = (1 + random.below(4), random.below(4), 1 + random.below(12));
        let m = 2 * c + x;
        Shape { c, x, p, t: if random.below(2) == 0 { m } else { 1 + random.below(m) }, contents: 1 + random.below(c + x + 3) }
    }

    fn m(&self) -> usize {
        2 * self.c + self.x
    }

    fn disk(&self, random: &mut Random) -> Vec<u8> {
        (0..self.p).flat_map(|_| [random.below(self.contents) as u8; B]).collect()
    }

    /// Of a box with n held addresses.
    fn numbers(&self, n: usize, adaptive: usize, sizes: [u64; 5]) -> ArcNumbers {
        let [b, p, c, x, n, t, adaptive] = [B, self.p, self.c, self.x, n, self.t, adaptive].map(|number| number as u64);
        ArcNumbers { b, p, c, x, n, counters: [5; 4], label: OFFICE, t, adaptive, sizes }
    }
}

fn memory(numbers: ArcNumbers, disk: &[u8], flash: &[u8], tables: [Vec<u8>; 3]) -> ArcLent {
    let (state, disk, flash, [addresses, blocks, lists]) = (numbers.to_bytes(), disk.to_vec(), flash.to_vec(), tables);
    ArcLent { base: Lent { state, disk, flash, addresses, blocks, block: vec![0; B], answer: vec![0; ANSWER], label: OFFICE.to_vec() }, lists }
}

/// A fresh box over other bytes, in bytes and as a cache.
fn opened(shape: Shape, disk: &[u8], flash: &[u8]) -> (ArcLent, Cache) {
    let Shape { c, x, p, t, .. } = shape;
    let m = shape.m();
    let before = ArcNumbers { label: [1; LABEL], ..shape.numbers(77, 99, [3; 5]) };
    let mut lent = memory(before, disk, flash, [vec![0xBB; m * ROW], vec![0xCC; c * ROW], vec![0xDD; m * WORD]]);
    assert_eq!(carry_out(Call::Open, 0, &mut lent), 0);
    let cache = Cache::fresh_arc(B, p, c, x, t, OFFICE, disk.to_vec(), flash.to_vec());
    assert_eq!(cache.difference_arc(&lent), None);
    (lent, cache)
}

fn shuffled<T>(random: &mut Random, list: impl IntoIterator<Item = T>) -> Vec<T> {
    let mut list: Vec<T> = list.into_iter().collect();
    for k in (1..list.len()).rev() {
        list.swap(k, random.below(k + 1));
    }
    list
}

/// A box that is sound and under the premise faithful, which no list need reach, and its plain disk.
fn faithful(random: &mut Random, shape: Shape) -> (ArcLent, Vec<u8>) {
    let Shape { c, p, t, contents, .. } = shape;
    let (m, plain, mut disk) = (shape.m(), shape.disk(random), shape.disk(random));
    let print = |content: u8| fingerprint(&OFFICE, &[content; B]);
    let most = random.below(c + 1);
    let cached: Vec<u8> = shuffled(random, 0..contents as u8).into_iter().take(most).collect();
    let slots = shuffled(random, 0..c as u32);
    let mut flash = random.bytes(c * B);
    let mut blocks = Vec::new();
    for (k, slot) in slots.iter().enumerate() {
        let content = (k + cached.len()).checked_sub(c).map(|k| cached[k]);
        content.iter().for_each(|content| flash[*slot as usize * B..][..B].fill(*content));
        let fingerprint = content.map_or([0; 32], print);
        blocks.extend(BlockRow { fingerprint, slot: *slot, used: content.is_some() as u8, padding: [0; 3] }.to_bytes());
    }
    let n = random.below(m.min(p) + 1);
    let (mut addresses, mut named, mut dirty) = (Vec::new(), Vec::new(), 0);
    for address in shuffled(random, 0..p as u32) {
        let content = plain[address as usize * B];
        let (has_block, is_held) = (cached.contains(&content), named.len() < n);
        let is_dirty = is_held && has_block && dirty < t && random.below(2) == 0;
        dirty += is_dirty as usize;
        if !is_dirty {
            disk[address as usize * B..][..B].fill(content);
        }
        if is_held {
            addresses.extend(AddressRow { address, fingerprint: print(content), dirty: is_dirty as u8, seat: random.number() as u16, padding: 0 }.to_bytes());
            named.push((address, has_block));
        }
    }
    addresses.resize(m * ROW, 0);
    let lists = Lists::any(&named, c, shape.x, |end| random.below(end));
    let numbers = shape.numbers(n, lists.p, lists.sizes());
    (memory(numbers, &disk, &flash, [addresses, blocks, lists.to_bytes(m)]), plain)
}

/// The named addresses of each list, read from the bytes.
fn lists(lent: &ArcLent) -> [Vec<u32>; 5] {
    let mut words = lent.words().into_iter();
    lent.numbers().sizes.map(|size| words.by_ref().take(size as usize).collect())
}

fn held(lent: &ArcLent) -> Vec<AddressRow> {
    read_tables(&lent.base).0[..lent.numbers().n as usize].to_vec()
}

fn used(lent: &ArcLent) -> Vec<BlockRow> {
    read_tables(&lent.base).1.into_iter().filter(|row| row.used == 1).collect()
}

/// "each address of T1 and T2 has its block, T1, T2 and B3 hold at most C + X together, B1 and B2 together at most C"; the lists name each held address once
/// and no other, zeros follow, and p is at most C.
fn laws_of_the_lists(lent: &ArcLent, context: &str) {
    let ArcNumbers { c, x, adaptive, sizes, .. } = lent.numbers();
    let lists = lists(lent);
    assert!(sizes[T1] + sizes[T2] + sizes[B3] <= c + x && sizes[B1] + sizes[B2] <= c && adaptive <= c, "{sizes:?}, p {adaptive}, {context}");
    let cached: HashSet<Fingerprint> = used(lent).iter().map(|row| row.fingerprint).collect();
    let prints: HashMap<u32, Fingerprint> = held(lent).iter().map(|row| (row.address, row.fingerprint)).collect();
    assert!(lists[T1].iter().chain(&lists[T2]).all(|a| cached.contains(&prints[a])), "an address of T1 or T2 without its block, {context}");
    let mut named: Vec<u32> = lists.concat();
    assert!(lent.words()[named.len()..].iter().all(|word| *word == 0), "zeros after the lists, {context}");
    named.sort();
    let mut addresses: Vec<u32> = prints.into_keys().collect();
    addresses.sort();
    assert_eq!(named, addresses, "{context}");
}

/// Under the premise each held row has the fingerprint of the plain disk's block and each used block row that of the block in its slot; at most t rows are
/// dirty; and where none is, the disk is the plain disk's.
fn laws_of_the_tables(lent: &ArcLent, plain: &PlainDisk, context: &str) {
    let rows = held(lent);
    assert!(rows.iter().all(|row| row.fingerprint == fingerprint(&OFFICE, plain.block(row.address))), "{context}");
    let stored = |row: &BlockRow| &lent.base.flash[row.slot as usize * B..][..B];
    assert!(used(lent).iter().all(|row| row.fingerprint == fingerprint(&OFFICE, stored(row))), "{context}");
    let dirty = rows.iter().filter(|row| row.dirty == 1).count() as u64;
    assert!(dirty <= lent.numbers().t, "{dirty} dirty rows, {context}");
    assert!(dirty > 0 || plain.is(&lent.base.disk), "no row is dirty, and the disk is another, {context}");
}

impl Met {
    /// Sees what a read or a write of this address did.
    fn see(&mut self, before: &ArcLent, after: &ArcLent, address: u32) {
        let (old, new) = (lists(before), lists(after));
        let from = old.iter().position(|list| list.contains(&address)).unwrap_or(5);
        self.from[from] += 1;
        let (p, q) = (before.numbers().adaptive, after.numbers().adaptive);
        self.raised += (q > p) as usize;
        self.lowered += (q < p) as usize;
        self.by_more += (q.abs_diff(p) > 1) as usize;
        let left = old[T1].iter().chain(&old[T2]).filter(|a| **a != address && !new[T1].contains(a) && !new[T2].contains(a)).count();
        self.again += (left > 1) as usize;
        let now: HashSet<u32> = new.concat().into_iter().collect();
        self.evicted_dirty += held(before).iter().filter(|row| row.dirty == 1 && row.address != address && !now.contains(&row.address)).count();
        let prints: HashMap<u32, AddressRow> = held(after).iter().map(|row| (row.address, *row)).collect();
        let tops: HashSet<Fingerprint> = new[T1].iter().chain(&new[T2]).map(|a| prints[a].fingerprint).collect();
        let ghosts: Vec<&AddressRow> = new[B1].iter().chain(&new[B2]).chain(&new[B3]).map(|a| &prints[a]).collect();
        self.in_b3 += !new[B3].is_empty() as usize;
        self.dirty_ghosts += ghosts.iter().any(|row| row.dirty == 1) as usize;
        self.shared += ghosts.iter().any(|row| tops.contains(&row.fingerprint)) as usize;
    }

    fn show(&self, name: &str, seed: u64) {
        let Met { calls, refused, from: [t1, t2, b1, b2, b3, new], raised, lowered, by_more, again, evicted_dirty, dirty_ghosts, shared, in_b3, folders } =
            *self;
        println!("{name}: {calls} calls, {refused} of them refused, {folders} folders, keep the laws of U5 (seed {seed})");
        println!("  requests of T1 {t1}, T2 {t2}, B1 {b1}, B2 {b2}, B3 {b3}, new {new}; p raised {raised}, lowered {lowered}, by more than 1 {by_more}");
        println!("  the replacement more than once in {again} calls, {evicted_dirty} dirty addresses evicted");
        println!("  an address of B1, B2 or B3 is dirty after {dirty_ghosts} calls, and shares its block with one of T1 or T2 after {shared}");
        println!("  an address is in B3 after {in_b3} calls");
        let all = [t1, t2, b1, b2, new, raised, lowered, by_more, again, evicted_dirty, dirty_ghosts, shared, folders, refused];
        assert!(all.iter().all(|count| *count > calls / 10_000), "a kind of call hardly came: {all:?}");
    }
}

/// One call on bytes and on the cache, beside the plain disk. Numbers 6, 7, 8, 9, 11, 12 and 13 don't occur.
fn one(both: &mut Beside, call: Call, address: u32, block: &[u8], met: &mut Met, context: &str) -> (u32, Vec<u8>) {
    let Beside { lent, cache, plain } = both;
    let before = lent.clone();
    lent.base.block = block.to_vec();
    let number = carry_out(call, address, lent);
    assert!([0, 2, 3].contains(&number), "number {number}, {context}");
    let mut own = block.to_vec();
    assert_eq!(cache.call(call, address, &mut own).err().unwrap_or(0), number, "{context}");
    assert!(own == lent.base.block && cache.difference_arc(lent).is_none(), "{context}");
    let answer = Answer::from_bytes(&lent.base.answer);
    let returned = match call {
        Call::Look if number == 0 => {
            let part = if answer.word == DISK { &lent.base.disk } else { &lent.base.flash };
            Some(part[answer.first as usize..][..answer.second as usize].to_vec())
        }
        Call::Read if number == 0 => Some(lent.base.block.clone()),
        _ => None,
    };
    assert_eq!(plain.feed(call, address, block, number != 0), returned.as_deref(), "{context}");
    met.refused += (number != 0) as usize;
    if number == 0 && call.takes_block() {
        met.see(&before, lent, address);
    }
    (number, if number == 0 { lent.base.answer.clone() } else { vec![] })
}

/// One call for a folder: blocks, flash, tables, lists, counters and disk are those of the reads done in turn.
fn folder(both: &mut Beside, asked: &[u32], met: &mut Met, context: &str) -> (u32, Vec<u8>) {
    let Beside { lent, cache, plain } = both;
    let mut many = Folder { asked: asked.to_vec(), buffer: vec![0xEE; asked.len() * B], answer: vec![0; MANY_ANSWER] };
    let mut single = lent.clone();
    let number = carry_out_many(lent, &mut many);
    let mut own = vec![0xEE; asked.len() * B];
    assert_eq!(cache.read_many(asked, &mut own).err().unwrap_or(0), number, "{context}");
    assert!(own == many.buffer && cache.difference_arc(lent).is_none(), "{context}");
    if number != 0 {
        assert!(number == 3 || number == 10, "number {number}, {context}");
        met.refused += 1;
        return (number, vec![]);
    }
    let (mut expected, mut blocks) = (ManyAnswer::default(), Vec::new());
    for (k, a) in asked.iter().enumerate() {
        single.base.block = vec![0; B];
        assert_eq!(carry_out(Call::Read, *a, &mut single), 0, "{context}");
        let Answer { word, first, second } = Answer::from_bytes(&single.base.answer);
        expected.hits += (word == HIT) as u64;
        expected.flash += first;
        expected.primary += second;
        expected.fetches += (word != HIT && !asked[..k].contains(a)) as u64;
        assert_eq!(single.base.block, plain.block(*a), "{context}");
        blocks.extend(&single.base.block);
    }
    (single.base.block, single.base.answer) = (lent.base.block.clone(), lent.base.answer.clone());
    assert_eq!((ManyAnswer::from_bytes(&many.answer), many.buffer == blocks), (expected, true), "{context}");
    assert_eq!(lent.difference(&single), None, "{context}");
    met.folders += 1;
    (0, many.answer)
}

/// A random call: mostly few addresses and few contents.
fn choose(random: &mut Random, p: usize, m: usize) -> (Call, u32) {
    let seat = random.number() as u16;
    let call = match random.below(100) {
        0..=39 => Call::Read,
        40..=56 => Call::Through(seat),
        57..=81 => Call::Back(seat),
        82..=85 => Call::Invalidate(seat),
        86 => Call::Flush,
        87 | 88 => Call::FlushSome(random.below(m + 2)),
        _ => Call::Look,
    };
    (call, if random.below(40) == 0 { p + random.below(3) } else { random.below(p) } as u32)
}

/// One call or folder on a box.
#[derive(Clone)]
enum Asked {
    One(Call, u32, Vec<u8>),
    Many(Vec<u32>),
}

fn ask(random: &mut Random, p: usize, m: usize, contents: usize) -> Asked {
    if random.below(10) == 0 {
        let count = [1, 2, 3, 5, 8, 64, 0, 65][random.below(8)];
        let near = p + (random.below(8) == 0) as usize;
        return Asked::Many((0..count).map(|_| random.below(near) as u32).collect());
    }
    let (call, address) = choose(random, p, m);
    let length = if random.below(60) == 0 { B - 1 } else { B };
    Asked::One(call, address, vec![random.below(contents) as u8; length])
}

fn asked(both: &mut Beside, asked: &Asked, met: &mut Met, context: &str) -> (u32, Vec<u8>) {
    met.calls += 1;
    match asked {
        Asked::One(call, address, block) => one(both, *call, *address, block, met, context),
        Asked::Many(addresses) => folder(both, addresses, met, context),
    }
}

/// A list of calls from this box; the laws hold after each.
fn list(random: &mut Random, shape: Shape, mut both: Beside, length: usize, met: &mut Met, context: &str) {
    for turn in 0..length {
        let what = ask(random, shape.p, shape.m(), shape.contents);
        let context = format!("{shape:?}, call {turn}, {context}");
        asked(&mut both, &what, met, &context);
        laws_of_the_lists(&both.lent, &context);
        laws_of_the_tables(&both.lent, &both.plain, &context);
        if matches!(what, Asked::One(Call::Flush, _, _)) {
            assert!(both.plain.is(&both.lent.base.disk), "{context}");
        }
    }
}

/// From fresh boxes. B3 is empty after each call of these: only the metadata subroutine puts an address there, it runs only where B3 is empty, and B3's oldest
/// is evicted right after it.
#[test]
fn from_fresh_boxes() {
    let seed = 51;
    let mut random = Random(seed);
    let mut met = Met::default();
    for number in 0..1_200 {
        let shape = Shape::any(&mut random);
        let (disk, flash) = (shape.disk(&mut random), random.bytes(shape.c * B));
        let (lent, cache) = opened(shape, &disk, &flash);
        let both = Beside { lent, cache, plain: PlainDisk::new(&disk, B) };
        list(&mut random, shape, both, 100, &mut met, &format!("list {number}, seed {seed}"));
    }
    assert_eq!((met.from[B3], met.in_b3), (0, 0), "addresses in B3");
    met.show("from fresh boxes", seed);
}

/// From sound and faithful boxes that no list need reach, with addresses in B3.
#[test]
fn from_faithful_boxes() {
    let seed = 54;
    let mut random = Random(seed);
    let mut met = Met::default();
    for number in 0..8_000 {
        let shape = Shape::any(&mut random);
        let (mut lent, plain) = faithful(&mut random, shape);
        let before = lent.clone();
        let cache = Cache::load_arc(&mut lent);
        let both = Beside { lent: before, cache, plain: PlainDisk::new(&plain, B) };
        laws_of_the_lists(&both.lent, "a faithful box");
        laws_of_the_tables(&both.lent, &both.plain, "a faithful box");
        list(&mut random, shape, both, 8, &mut met, &format!("list {number}, seed {seed}"));
    }
    met.show("from faithful boxes", seed);
    assert!(met.from[B3] > 1_000 && met.in_b3 > 10_000);
}

/// C 256 and X 512, the largest lists, and others of that size.
#[test]
fn large_boxes() {
    let seed = 52;
    let mut random = Random(seed);
    let mut met = Met::default();
    for (c, x) in [(256, 512), (256, 0), (100, 824), (1, 1_022)] {
        let shape = Shape { c, x, p: 1_500, t: 2 * c + x, contents: 3 * c + 100 };
        let pool: Vec<Vec<u8>> = (0..shape.contents).map(|_| random.bytes(B)).collect();
        let disk: Vec<u8> = (0..shape.p).flat_map(|_| pool[random.below(shape.contents)].clone()).collect();
        let (lent, cache) = opened(shape, &disk, &vec![0; c * B]);
        let mut both = Beside { lent, cache, plain: PlainDisk::new(&disk, B) };
        for turn in 0..3_000 {
            let (call, address) = choose(&mut random, if turn % 3 == 0 { shape.p } else { c + 60 }, shape.m());
            let call = if call == Call::Flush && turn % 10 != 0 { Call::Read } else { call };
            let context = format!("{shape:?}, call {turn}, seed {seed}");
            one(&mut both, call, address.min(shape.p as u32 - 1), &pool[random.below(shape.contents)], &mut met, &context);
            met.calls += 1;
            if turn % 50 == 0 {
                laws_of_the_lists(&both.lent, &context);
                laws_of_the_tables(&both.lent, &both.plain, &context);
            }
        }
    }
    let Met { calls, from, raised, lowered, again, evicted_dirty, .. } = met;
    println!("large boxes: {calls} calls keep the laws of U5 (seed {seed}); requests by their list {from:?}, p raised {raised}, lowered {lowered}");
    println!("  the replacement more than once in {again} calls, {evicted_dirty} dirty addresses evicted");
    assert!([T1, T2, B1, B2, 5].iter().all(|list| from[*list] > 100) && [raised, lowered, again].iter().all(|count| *count > 100) && evicted_dirty > 0);
}

/// U7: "Two runs from one state, with the same calls but different seat numbers, must give the desk identical reports, answers and counts." U8: "From
/// fresh [..] each read's block and its hit or miss are as without the limit."
#[test]
fn other_seats_and_no_limit() {
    let seed = 53;
    let mut random = Random(seed);
    let (mut met, mut reports) = (Met::default(), 0);
    for number in 0..300 {
        let shape = Shape::any(&mut random);
        let disk = shape.disk(&mut random);
        let boxes = [shape.t, shape.t, shape.m()].map(|t| opened(Shape { t, ..shape }, &disk, &vec![0; shape.c * B]));
        let [mut one, mut other, mut free] = boxes.map(|(lent, cache)| Beside { lent, cache, plain: PlainDisk::new(&disk, B) });
        for turn in 0..80 {
            let what = ask(&mut random, shape.p, shape.m(), shape.contents);
            let seated = match &what {
                Asked::One(call, address, block) => Asked::One(call.by_seat(random.number() as u16), *address, block.clone()),
                many => many.clone(),
            };
            let context = format!("{shape:?}, list {number}, call {turn}, seed {seed}");
            let answers = [(&mut one, &what), (&mut other, &seated), (&mut free, &what)].map(|(both, what)| asked(both, what, &mut met, &context));
            assert_eq!(answers[0], answers[1], "{context}");
            assert!(answers[0].0 == answers[2].0 && answers[0].1.get(..8) == answers[2].1.get(..8), "without the limit, {context}");
            assert_eq!(lists(&one.lent), lists(&free.lent), "{context}");
            assert_eq!(one.lent.numbers(), other.lent.numbers(), "{context}");
            let mut desks = [vec![1; shape.m() * 5], vec![2; shape.m() * 5]];
            for (desk, both) in desks.iter_mut().zip([&one, &other]) {
                assert_eq!(carry_out_report(Report::Desk, &both.lent, desk), 0, "{context}");
            }
            assert_eq!(desks[0], desks[1], "{context}");
            reports += 1;
        }
    }
    println!("{} calls on boxes with two choices of seats, and with a limit and none: {reports} pairs of reports are the same (seed {seed})", met.calls);
}
