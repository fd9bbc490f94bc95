//! What the documents say of a whole list of calls, asked of the running service: the plain disk, the orphan law, the limit, flushes in parts and the printed
//! D-LRU.
//! The model of the cache takes no part.
use common::Random;
use model::machines::{PlainDisk, PrintedDlru};
use model::{fingerprint, read_tables, Answer, Call, Fingerprint, Folder, Label, Lent, ManyAnswer, CACHE, CALLS, DONE, HIT};
use service::boxes::{any_seat, bytes, folder, folder_count, most, office, pick, pick_call, unopened, Contents, Shape};
use service::calls::{call, call_many};
use service::progress::{count, seed, Progress};
use std::collections::{HashMap, HashSet};

/// Fingerprints under an office's label, of blocks that come again and again.
struct Fingerprints {
    label: Label,
    known: HashMap<Vec<u8>, Fingerprint>,
}

impl Fingerprints {
    fn new(label: Label) -> Fingerprints {
        Fingerprints { label, known: HashMap::new() }
    }

    fn of(&mut self, block: &[u8]) -> Fingerprint {
        if let Some(g) = self.known.get(block) {
            return *g;
        }
        let g = fingerprint(&self.label, block);
        self.known.insert(block.to_vec(), g);
        g
    }
}

/// The addresses of the dirty rows, oldest first.
fn dirty(lent: &Lent) -> Vec<u32> {
    read_tables(lent).0[..lent.numbers().n as usize].iter().filter(|row| row.dirty == 1).map(|row| row.address).collect()
}

/// The laws of a state: fingerprints on both sides are those of the blocks under the label of the opening, the two kinds of orphan never occur together, at
/// most t rows are dirty, and the disk is the plain disk where none is.
fn state_laws(lent: &Lent, plain: &PlainDisk, known: &mut Fingerprints, context: &str) {
    let (rows, blocks) = read_tables(lent);
    let (n, b) = (lent.numbers().n as usize, lent.numbers().b as usize);
    let used: Vec<_> = blocks.iter().filter(|row| row.used == 1).collect();
    for row in &rows[..n] {
        assert_eq!(row.fingerprint, known.of(plain.block(row.address)), "fingerprint of address {}, {context}", row.address);
    }
    for row in &used {
        let place = row.slot as usize * b;
        assert_eq!(row.fingerprint, known.of(&lent.flash[place..place + b]), "fingerprint of slot {}, {context}", row.slot);
    }
    let cached: HashSet<Fingerprint> = used.iter().map(|row| row.fingerprint).collect();
    let wanted: HashSet<Fingerprint> = rows[..n].iter().map(|row| row.fingerprint).collect();
    assert!(cached.is_subset(&wanted) || wanted.is_subset(&cached), "orphan law, {context}");
    assert!(dirty(lent).len() as u64 <= lent.numbers().t, "dirty rows, {context}");
    assert!(!dirty(lent).is_empty() || plain.is(&lent.disk), "disk where no row is dirty, {context}");
}

/// The single reads of a folder in turn, on a copy of the box before it: one call has left the same in every buffer, and answered their sums. A fetch is
/// the first read of an address where that misses. Gives the repeats that miss.
fn as_single_reads(before: &Lent, after: &Lent, many: &Folder, context: &str) -> u64 {
    let mut single = before.clone();
    let b = before.numbers().b as usize;
    let (mut blocks, mut answer, mut seen) = (Vec::new(), ManyAnswer::default(), HashSet::new());
    for a in &many.asked {
        single.block = vec![0; b];
        assert_eq!(call(Call::Read, *a, &mut single), 0, "single read {a}, {context}");
        let Answer { word, first, second } = Answer::from_bytes(&single.answer);
        answer.hits += (word == HIT) as u64;
        answer.flash += first;
        answer.primary += second;
        answer.fetches += (seen.insert(*a) && word != HIT) as u64;
        blocks.extend_from_slice(&single.block);
    }
    assert!(many.buffer == blocks, "blocks of the folder, {context}");
    assert_eq!(ManyAnswer::from_bytes(&many.answer), answer, "answer of the folder, {context}");
    let misses = many.asked.len() as u64 - answer.hits;
    assert!(answer.fetches <= misses, "fetches, {context}");
    // The block and the answer of single reads are no part of the folder's call.
    (single.block, single.answer) = (after.block.clone(), after.answer.clone());
    assert_eq!(after.difference(&single), None, "against single reads, {context}");
    misses - answer.fetches
}

/// What the lists beside the plain disk have met.
#[derive(Default)]
struct Beside {
    served: usize,
    folders: usize,
    missed_repeats: u64,
}

/// A folder beside the plain disk, which is fed its reads. In such a list only the buffer, the count and an address can be refused.
fn folder_beside(random: &mut Random, lent: &mut Lent, plain: &mut PlainDisk, beside: &mut Beside, context: &str) {
    let (b, p) = (lent.numbers().b as usize, lent.numbers().p as usize);
    let near = 1 + random.below(p.min(12));
    let mut some: Vec<u32> = (0..near).map(|_| random.below(p) as u32).collect();
    if random.below(12) == 0 {
        some.push(p as u32 + random.below(3) as u32);
    }
    let count = folder_count(random);
    let mut many = folder(random, &some, b, count);
    if random.below(30) == 0 {
        many.buffer.push(0);
    }
    let before = lent.clone();
    let number = call_many(lent, &mut many);
    let expected = if many.buffer.len() != count * b {
        2
    } else if count == 0 || count > 64 {
        10
    } else if many.asked.iter().any(|a| *a as usize >= p) {
        3
    } else {
        0
    };
    assert_eq!(number, expected, "{context}");
    if number != 0 {
        assert_eq!(lent.difference(&before), None, "refused, {context}");
        return;
    }
    for (a, block) in many.asked.iter().zip(many.buffer.chunks_exact(b)) {
        assert_eq!(Some(block), plain.feed(Call::Read, *a, &[], false), "block of {a} in the folder, {context}");
    }
    beside.missed_repeats += as_single_reads(&before, lent, &many, context);
    beside.folders += 1;
    beside.served += 1;
}

/// A list of all calls beside the plain disk.
fn beside_plain_disk(random: &mut Random, shape: Shape, length: usize, seed: u64, beside: &mut Beside) {
    let Shape { b, p, d, .. } = shape;
    let pool = 1 + random.below(2 * d + 2);
    let contents = Contents::new(random, b, pool);
    let mut lent = unopened(random, shape, &contents);
    let mut plain = PlainDisk::new(&lent.disk, b);
    let mut known = Fingerprints::new(office(&lent));
    assert_eq!(call(Call::Open, 0, &mut lent), 0);
    state_laws(&lent, &plain, &mut known, &format!("{shape:?} fresh, seed {seed}"));
    for turn in 0..length {
        if random.below(8) == 0 {
            let context = format!("{shape:?}, call {turn}: a folder, seed {seed}");
            folder_beside(random, &mut lent, &mut plain, beside, &context);
            state_laws(&lent, &plain, &mut known, &context);
            continue;
        }
        let kind = match random.below(22) {
            0..=6 => Call::Read,
            7..=9 => Call::Through(any_seat(random)),
            10..=13 => Call::Back(any_seat(random)),
            14 | 15 => Call::Invalidate(any_seat(random)),
            16 => Call::Flush,
            17 | 18 => Call::FlushSome(most(random, shape.m)),
            _ => Call::Look,
        };
        let address = random.below(p + p / 16 + 1) as u32;
        // A block of any bytes and length.
        let block = match random.below(40) {
            0 => bytes(random, b - 1),
            1 => bytes(random, b + 40),
            2 | 3 => bytes(random, b),
            _ => contents.one(random).clone(),
        };
        lent.block.clone_from(&block);
        let context = format!("{shape:?}, call {turn}: {kind:?} {address}, seed {seed}");
        let dirty_before = dirty(&lent);
        let number = call(kind, address, &mut lent);
        // In such a list no state is refused: only a length and an address can be.
        let expected = if kind.takes_block() && block.len() != b {
            2
        } else if kind.takes_address() && address as usize >= p {
            3
        } else {
            0
        };
        assert_eq!(number, expected, "{context}");
        let expected = plain.feed(kind, address, &block, number != 0);
        if number == 0 && kind == Call::Read {
            assert_eq!(Some(&lent.block[..]), expected, "block read, {context}");
        }
        if number == 0 && kind == Call::Look {
            let Answer { word, first, second } = Answer::from_bytes(&lent.answer);
            let (first, second) = (first as usize, second as usize);
            let part = if word == CACHE { &lent.flash[first..first + second] } else { &lent.disk[first..first + second] };
            assert_eq!(Some(part), expected, "look's part, {context}");
        }
        let asked = match kind {
            Call::Flush => Some(shape.m),
            Call::FlushSome(most) => Some(most),
            _ => None,
        };
        if let Some(most) = asked.filter(|_| number == 0) {
            // The count is the smaller of k and the dirty rows before; the rows still dirty are the newest of these.
            let count = most.min(dirty_before.len());
            assert_eq!(Answer::from_bytes(&lent.answer), Answer { word: DONE, first: 0, second: count as u64 }, "answer of a flush, {context}");
            assert_eq!(dirty(&lent), dirty_before[count..], "rows still dirty, {context}");
        }
        if number == 0 && kind == Call::Flush {
            assert!(plain.is(&lent.disk), "disk after a flush, {context}");
        }
        state_laws(&lent, &plain, &mut known, &context);
        beside.served += (number == 0) as usize;
    }
}

#[test]
fn plain_disk_and_orphan_law() {
    let (seed, total) = (seed(401), count(60_000));
    let mut random = Random(seed);
    let (mut calls, mut lists, mut beside) = (0, 0, Beside::default());
    let mut progress = Progress::new("plain disk", total);
    while calls < total {
        let b = pick(&mut random, &[64, 64, 128, 256]);
        let most = pick(&mut random, &[Shape { b, p: 5, m: 4, d: 3 }, Shape { b, p: 20, m: 10, d: 6 }, Shape { b, p: 60, m: 40, d: 24 }]);
        let shape = Shape::below(&mut random, most);
        beside_plain_disk(&mut random, shape, 150, seed, &mut beside);
        calls += 150;
        lists += 1;
        progress.at(calls);
    }
    let large = Shape { b: 64, p: 2_000, m: 1_024, d: 256 };
    beside_plain_disk(&mut random, large, 5_000, seed, &mut beside);
    calls += 5_000;
    lists += 1;
    let Beside { served, folders, missed_repeats } = beside;
    assert!(folders > 0 && missed_repeats > 0);
    println!("{folders} folders, with {missed_repeats} repeats that miss, are as their single reads in turn");
    println!("{calls} calls in {lists} lists, {served} served (seed {seed}, {:.1} s)", progress.seconds());
    println!("  blocks returned, and the disk after each full flush and wherever no row is dirty, are the plain disk's");
    println!("  a flush counts the smaller of k and the dirty rows and leaves the newest; the orphan law and the fingerprints hold in every state");
}

/// The tables have the addresses and the fingerprints of the printed lists, in their order.
fn same_lists(lent: &Lent, printed: &PrintedDlru, context: &str) {
    let (rows, blocks) = read_tables(lent);
    let held = rows[..lent.numbers().n as usize].iter().map(|row| row.address);
    assert!(held.eq(printed.addresses.iter().copied()), "held addresses, {context}");
    let cached = blocks.iter().filter(|row| row.used == 1).map(|row| row.fingerprint);
    assert!(cached.eq(printed.fingerprints.iter().copied()), "cached fingerprints, {context}");
}

/// A folder beside the printed D-LRU, which is fed its reads; refused now and then. Gives the hits.
fn folder_beside_printed(random: &mut Random, lent: &mut Lent, printed: &mut PrintedDlru, context: &str) -> usize {
    let (b, p, m) = (lent.numbers().b as usize, lent.numbers().p as usize, lent.numbers().m as usize);
    let near = if random.below(3) == 0 { p } else { (m + 2).min(p) };
    let mut some: Vec<u32> = (0..1 + random.below(16)).map(|_| random.below(near) as u32).collect();
    if random.below(12) == 0 {
        some.push(p as u32);
    }
    let count = folder_count(random);
    let mut many = folder(random, &some, b, count);
    let refused = call_many(lent, &mut many) != 0;
    assert_eq!(refused, count == 0 || count > 64 || many.asked.iter().any(|a| *a as usize >= p), "{context}");
    let expected: Vec<Option<bool>> = many.asked.iter().map(|a| printed.feed(*a, refused)).collect();
    let hits = expected.iter().filter(|hit| **hit == Some(true)).count();
    if !refused {
        assert_eq!(ManyAnswer::from_bytes(&many.answer).hits, hits as u64, "hits of {:?}, {context}", many.asked);
    }
    hits
}

/// Reads and folders, with looks, flushes and refused calls of every kind between them, beside the printed D-LRU. Gives its hits.
fn beside_printed(random: &mut Random, shape: Shape, length: usize, seed: u64) -> usize {
    let Shape { b, p, m, d } = shape;
    let pool = 1 + random.below(3 * d + 2);
    let contents = Contents::new(random, b, pool);
    let mut lent = unopened(random, shape, &contents);
    let mut printed = PrintedDlru::new(&office(&lent), &lent.disk, b, m, d);
    let mut hits = 0;
    assert_eq!(call(Call::Open, 0, &mut lent), 0);
    for turn in 0..length {
        if random.below(12) == 0 {
            let context = format!("{shape:?}, call {turn}: a folder, seed {seed}");
            hits += folder_beside_printed(random, &mut lent, &mut printed, &context);
            same_lists(&lent, &printed, &context);
            continue;
        }
        let mut kind = match random.below(10) {
            0 => Call::Look,
            1 if random.below(2) == 0 => Call::FlushSome(random.below(m + 2)),
            1 => Call::Flush,
            2 => pick_call(random, &CALLS[1..5]),
            _ => Call::Read,
        };
        let mut address = if random.below(3) == 0 { random.below(p) } else { random.below((m + 2).min(p)) } as u32;
        lent.block = vec![0; b];
        if kind.is_write() || random.below(30) == 0 {
            // Refused, by the address or by the length of the block.
            if random.below(2) == 0 && kind.takes_block() {
                lent.block.pop();
            } else {
                address = p as u32 + random.below(3) as u32;
                if matches!(kind, Call::Flush | Call::FlushSome(_)) {
                    kind = Call::Read;
                }
            }
        }
        let number = call(kind, address, &mut lent);
        if kind != Call::Read {
            continue;
        }
        let context = format!("{shape:?}, call {turn}: read {address}, seed {seed}");
        let hit = printed.feed(address, number != 0);
        if number == 0 {
            assert_eq!(Some(Answer::from_bytes(&lent.answer).word == HIT), hit, "hit, {context}");
            hits += (hit == Some(true)) as usize;
        }
        same_lists(&lent, &printed, &context);
    }
    hits
}

#[test]
fn printed_dlru() {
    let (seed, total) = (seed(402), count(60_000));
    let mut random = Random(seed);
    let (mut calls, mut hits, mut lists) = (0, 0, 0);
    let mut progress = Progress::new("printed D-LRU", total);
    while calls < total {
        let b = pick(&mut random, &[64, 64, 128, 256]);
        let most = pick(&mut random, &[Shape { b, p: 6, m: 4, d: 3 }, Shape { b, p: 30, m: 12, d: 10 }, Shape { b, p: 100, m: 60, d: 40 }]);
        let shape = Shape::below(&mut random, most);
        hits += beside_printed(&mut random, shape, 200, seed);
        calls += 200;
        lists += 1;
        progress.at(calls);
    }
    for shape in [Shape { b: 64, p: 2_000, m: 1_024, d: 256 }, Shape { b: 64, p: 1_100, m: 1_024, d: 200 }] {
        hits += beside_printed(&mut random, shape, 4_000, seed);
        calls += 4_000;
        lists += 1;
    }
    println!("{calls} calls in {lists} lists of reads, {hits} hits (seed {seed}, {:.1} s)", progress.seconds());
    println!("  held addresses, cached fingerprints and hits are the printed D-LRU's after each read");
}
