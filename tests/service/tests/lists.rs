//! Random lists of calls from fresh boxes: after each call every number and every byte is the model's.
use common::Random;
use model::{Answer, Cache, Call, Lent, ManyAnswer, BLOCK_SIZES, CALLS, LABEL, MANY_ANSWER, REPORTS, STATE_LABEL};
use service::boxes::{any_label, any_seat, bytes, folder, folder_count, most, office, pick, unopened, Contents, Shape};
use service::calls::{call, call_many, call_report};
use service::progress::{count, seed, Progress};

/// What the folders were that were opened with one call each.
#[derive(Default)]
struct Folders {
    calls: usize,
    reads: u64,
    hits: u64,
    fetches: u64,
}

/// What a run has met, so that it shows where a list would say little.
#[derive(Default)]
struct Met {
    calls: usize,
    refused: [usize; 11],
    words: [usize; 8],
    folders: Folders,
    flash_writes: u64,
    primary_writes: u64,
    /// Flushes in parts that left a row dirty.
    left_dirty: usize,
    /// Blocks copied to the disk by a read or a write back, which happens only where a dirty row or block has to go, or for the limit.
    written_back: u64,
    /// Writes back that leave as many dirty rows as a limit below m allows.
    at_limit: usize,
    lists: usize,
    reports: usize,
    /// Held rows in them with a seat that is not 0.
    seats: usize,
}

impl Met {
    fn show(&self, name: &str, seed: u64, progress: &Progress) {
        let [_, hit, miss, same, new, cache, disk, done] = self.words;
        println!(
            "{name}: {} calls in {} lists agree with the model in every byte (seed {seed}, {:.1} s)",
            self.calls,
            self.lists,
            progress.seconds()
        );
        println!(
            "  {hit} hits, {miss} misses, {same} same, {new} new, {cache} looks in flash, {disk} on disk, {done} flushes, {} refused with 2, {} with 3",
            self.refused[2], self.refused[3]
        );
        println!(
            "  {} flash writes, {} primary writes, {} of them by reads and writes back; {} writes back leave as many dirty rows as the limit",
            self.flash_writes, self.primary_writes, self.written_back, self.at_limit
        );
        println!("  {} flushes in parts left a row dirty; {} reports, {} rows in them with a seat", self.left_dirty, self.reports, self.seats);
        let Folders { calls, reads, hits, fetches } = self.folders;
        let missed_repeats = reads - hits - fetches;
        let refused = self.refused[10];
        println!("  {calls} calls for folders: {reads} reads, {hits} hits, {fetches} fetches, {missed_repeats} repeats that miss; {refused} refused with 10");
        assert!(hits > 0 && fetches > 0 && self.refused[10] > 0, "a kind of folder never came");
        assert!(self.reports > 0 && self.seats > self.reports, "hardly a seat in the reports");
        assert!(self.words[1..].iter().all(|count| *count > 0) && self.written_back > 0, "a kind of answer never came");
    }
}

/// A call of a list and its address: mostly few addresses, sometimes any, sometimes none of the box.
fn choose(random: &mut Random, shape: Shape) -> (Call, u32) {
    let call = match random.below(100) {
        0..=36 => Call::Read,
        37..=54 => Call::Through(any_seat(random)),
        55..=76 => Call::Back(any_seat(random)),
        77..=84 => Call::Invalidate(any_seat(random)),
        // Seldom where the tables are large: dirty rows shall come to be the oldest.
        85 if random.below(1 + shape.m / 32) == 0 => Call::Flush,
        86 | 87 if random.below(1 + shape.m / 32) == 0 => Call::FlushSome(most(random, shape.m)),
        88 => Call::FlushSome(random.below(3)),
        85..=87 => Call::Back(any_seat(random)),
        _ => Call::Look,
    };
    let near = (shape.m + 2).min(shape.p);
    let address = match random.below(40) {
        0 => pick(random, &[shape.p as u32, shape.p as u32 + 1, u32::MAX, 65_536]).max(shape.p as u32),
        1..=12 => random.below(shape.p) as u32,
        _ => random.below(near) as u32,
    };
    (call, address)
}

fn buffer(lent: &mut Lent, which: usize) -> &mut Vec<u8> {
    [&mut lent.disk, &mut lent.flash, &mut lent.addresses, &mut lent.blocks].into_iter().nth(which).unwrap()
}

/// Opens a folder with one call, of few addresses or of many near each other, and compares every byte with the model.
fn open_folder(random: &mut Random, shape: Shape, lent: &mut Lent, cache: &mut Cache, met: &mut Met) {
    let near = 1 + random.below(shape.m + 2).min(shape.p - 1);
    let different = pick(random, &[1, 2, 3, 5, 8, 64]);
    let mut some: Vec<u32> = (0..different).map(|_| random.below(near) as u32).collect();
    match random.below(12) {
        0 => some.push(shape.p as u32),
        1..=4 => some.push(random.below(shape.p) as u32),
        _ => {}
    }
    let count = folder_count(random);
    let mut folder = folder(random, &some, shape.b, count);
    if random.below(40) == 0 {
        folder.buffer.push(0);
    }
    let mut expected = folder.clone();
    let number = call_many(lent, &mut folder);
    let context = || format!("{shape:?}, call {} of list {}: the folder {:?}", met.calls, met.lists, folder.asked);
    match cache.read_many(&expected.asked, &mut expected.buffer) {
        Err(refused) => {
            assert_eq!(number, refused, "{}", context());
            met.refused[number as usize] += 1;
        }
        Ok(answer) => {
            assert_eq!(number, 0, "{}", context());
            expected.answer = answer.to_bytes();
            met.folders.reads += count as u64;
            met.folders.hits += answer.hits;
            met.folders.fetches += answer.fetches;
            met.flash_writes += answer.flash;
            met.primary_writes += answer.primary;
            met.written_back += answer.primary;
        }
    }
    assert_eq!(folder.difference(&expected), None, "{}", context());
    assert_eq!(cache.difference(lent), None, "{}", context());
    met.folders.calls += 1;
    met.calls += 1;
}

/// One of the reports is the model's, and changes nothing else. Into bytes of another length it is refused with 2 and keeps them.
fn report(random: &mut Random, lent: &mut Lent, cache: &Cache, met: &mut Met, context: &dyn Fn() -> String) {
    let kind = pick(random, &REPORTS);
    let length = cache.m * kind.row();
    let mut given = bytes(random, length);
    if random.below(20) == 0 {
        given.resize(pick(random, &[0, length - 1, length + 1, length + 40]), 0x5A);
        let kept = given.clone();
        assert_eq!((call_report(kind, lent, &mut given), given), (2, kept), "{kind:?}, {}", context());
        met.refused[2] += 1;
    } else {
        assert_eq!((call_report(kind, lent, &mut given), &given), (0, &cache.report(kind)), "{kind:?}, {}", context());
        met.reports += 1;
        met.seats += given.chunks_exact(kind.row()).filter(|row| row.get(5..).is_some_and(|seat| seat != [0; 2])).count();
    }
    assert_eq!(cache.difference(lent), None, "after the report {kind:?}, {}", context());
}

/// Lends a buffer of a wrong length: refused with 2, and nothing moves.
fn wrong_length(random: &mut Random, kind: Call, address: u32, lent: &mut Lent) {
    let which = random.below(4);
    let last = buffer(lent, which).pop().unwrap();
    let before = lent.clone();
    assert_eq!(call(kind, address, lent), 2);
    assert_eq!(lent.difference(&before), None);
    buffer(lent, which).push(last);
}

/// Opens a box with a label of a wrong length: refused with 2, n and the state's label are zeros then, and nothing else is another.
fn wrong_label(random: &mut Random, lent: &mut Lent) {
    let label = lent.label.clone();
    lent.label.resize(pick(random, &[0, 1, 32, 63, 65, 72, 128, 136, 144]), 0);
    let mut expected = lent.clone();
    expected.state[32..40].fill(0);
    expected.state[STATE_LABEL].fill(0);
    assert_eq!(call(Call::Open, 0, lent), 2);
    assert_eq!(lent.difference(&expected), None);
    lent.label = label;
}

/// A list of calls from a fresh box.
fn list(random: &mut Random, shape: Shape, length: usize, met: &mut Met) {
    let Shape { b, p, m, d } = shape;
    // Fewer contents than slots, about as many, or more; more where the tables are large.
    let pool = match random.below(4) {
        0 if d < 64 => 1 + random.below(3),
        1 => 1 + random.below(d + 1),
        2 => d + 1 + random.below(d + 2),
        _ => m + d,
    };
    let contents = Contents::new(random, b, pool);
    let mut lent = unopened(random, shape, &contents);
    if random.below(4) == 0 {
        wrong_label(random, &mut lent);
        met.refused[2] += 1;
    }
    let mut cache = Cache::fresh(b, p, m, d, lent.numbers().t as usize, office(&lent), lent.disk.clone(), lent.flash.clone());
    let (block, answer) = (lent.block.clone(), lent.answer.clone());
    assert_eq!(call(Call::Open, 0, &mut lent), 0, "opening {shape:?}");
    assert_eq!(cache.difference(&lent), None, "opening {shape:?}");
    assert!(lent.block == block && lent.answer == answer);
    met.lists += 1;
    for turn in 0..length {
        if random.below(8) == 0 {
            open_folder(random, shape, &mut lent, &mut cache, met);
            continue;
        }
        let (kind, address) = choose(random, shape);
        if random.below(100) == 0 && p * b < 100_000 {
            wrong_length(random, kind, address, &mut lent);
            met.refused[2] += 1;
        }
        let mut block = contents.one(random).clone();
        match random.below(80) {
            0 => block.truncate(b - 1),
            1 => block.push(0),
            _ => {}
        }
        lent.block.clone_from(&block);
        let answer = lent.answer.clone();
        let number = call(kind, address, &mut lent);
        let lists = met.lists;
        let context = || format!("{shape:?}, call {turn} of list {lists}: {kind:?} {address}");
        match cache.call(kind, address, &mut block) {
            Err(expected) => {
                assert_eq!(number, expected, "{}", context());
                assert_eq!(lent.answer, answer, "answer of a refused call, {}", context());
                met.refused[number as usize] += 1;
            }
            Ok(expected) => {
                assert_eq!(number, 0, "{}", context());
                assert_eq!(Answer::from_bytes(&lent.answer), expected, "{}", context());
                met.words[expected.word as usize] += 1;
                if kind != Call::Look {
                    met.flash_writes += expected.first;
                    met.primary_writes += expected.second;
                }
                if matches!(kind, Call::Read | Call::Back(_)) {
                    met.written_back += expected.second;
                }
                if matches!(kind, Call::Back(_)) {
                    met.at_limit += (cache.t < m && cache.dirty().len() == cache.t) as usize;
                }
                if matches!(kind, Call::FlushSome(_)) {
                    met.left_dirty += !cache.dirty().is_empty() as usize;
                }
            }
        }
        assert!(lent.block == block, "lent block, {}", context());
        if let Some(name) = cache.difference(&lent) {
            panic!("{name} differs after {}", context());
        }
        if random.below(4) == 0 {
            report(random, &mut lent, &cache, met, &context);
        }
        met.calls += 1;
    }
}

#[test]
fn small_boxes() {
    let (seed, total) = (seed(101), count(170_000));
    let mut random = Random(seed);
    let mut met = Met::default();
    let mut progress = Progress::new("small boxes", total);
    while met.calls < total {
        let b = pick(&mut random, &[64, 64, 64, 128, 256]);
        let most = pick(&mut random, &[Shape { b, p: 4, m: 3, d: 2 }, Shape { b, p: 12, m: 6, d: 4 }, Shape { b, p: 40, m: 12, d: 8 }]);
        let shape = Shape::below(&mut random, most);
        list(&mut random, shape, 200, &mut met);
        progress.at(met.calls);
    }
    met.show("small boxes", seed, &progress);
    assert!(met.folders.hits + met.folders.fetches < met.folders.reads, "no repeat missed");
    assert!(met.at_limit > total / 50, "{} writes back at the limit", met.at_limit);
}

#[test]
fn every_block_size() {
    let (seed, total) = (seed(102), count(28_000));
    let mut random = Random(seed);
    let mut met = Met::default();
    let mut progress = Progress::new("every block size", total);
    while met.calls < total {
        for b in BLOCK_SIZES {
            let shape = Shape::below(&mut random, Shape { b, p: 30, m: 20, d: 12 });
            list(&mut random, shape, 200, &mut met);
            progress.at(met.calls);
        }
    }
    met.show("every block size", seed, &progress);
}

/// Tables up to the largest, on disks of some thousand blocks: the first list has the largest tables, and is long enough to fill them.
#[test]
fn large_tables() {
    let (seed, total) = (seed(103), count(40_000));
    let mut random = Random(seed);
    let mut met = Met::default();
    let mut progress = Progress::new("large tables", total);
    while met.calls < total {
        let shape = match met.lists % 4 {
            0 => Shape { b: 64, p: 3_000, m: 1_024, d: 256 },
            1 => Shape { b: 64, p: 5_000, m: 1 + random.below(1_024), d: 256 },
            2 => Shape { b: 128, p: 1 + random.below(2_000), m: 1_024, d: 1 + random.below(256) },
            _ => Shape::below(&mut random, Shape { b: 64, p: 4_000, m: 1_024, d: 256 }),
        };
        list(&mut random, shape, 4_000, &mut met);
        progress.at(met.calls);
    }
    met.show("large tables", seed, &progress);
}

/// The largest disk in blocks, by a list long enough that dirty rows have to go, and the largest box of all.
#[test]
fn largest_boxes() {
    let seed = seed(104);
    let mut random = Random(seed);
    let mut met = Met::default();
    let progress = Progress::new("largest boxes", 0);
    list(&mut random, Shape { b: 64, p: 65_536, m: 1_024, d: 256 }, 4_000, &mut met);

    let (b, p, m, d) = (4_096, 65_536, 1_024, 256);
    let shape = Shape { b, p, m, d };
    let mut lent = Lent {
        state: shape.numbers(any_label(&mut random)).to_bytes(),
        disk: vec![0; p * b],
        flash: vec![0; d * b],
        addresses: vec![0; m * 40],
        blocks: vec![0; d * 40],
        block: vec![0; b],
        answer: vec![0; 24],
        label: bytes(&mut random, LABEL),
    };
    let mut cache = Cache::fresh(b, p, m, d, m, office(&lent), vec![0; p * b], vec![0; d * b]);
    assert_eq!(call(Call::Open, 0, &mut lent), 0);
    // Each kind of write has a content of its own, so that the second write back saves an unchanged page.
    for k in [1, 2, 6, 3, 7, 6, 3, 1, 5, 4, 6, 1] {
        let (kind, mut block) = (CALLS[k], vec![k as u8; b]);
        lent.block.clone_from(&block);
        assert_eq!(call(kind, 65_535, &mut lent), 0);
        let expected = cache.call(kind, 65_535, &mut block).unwrap();
        assert_eq!(Answer::from_bytes(&lent.answer), expected, "{kind:?}");
        assert!(lent.block == block, "{kind:?}");
        assert_eq!(cache.difference(&lent), None, "{kind:?}");
        met.words[expected.word as usize] += 1;
        met.calls += 1;
    }
    let mut many = model::Folder { asked: (0..64).map(|k| 65_535 - k * k).collect(), buffer: bytes(&mut random, 64 * b), answer: vec![0; MANY_ANSWER] };
    let mut buffer = many.buffer.clone();
    assert_eq!(call_many(&mut lent, &mut many), 0);
    assert_eq!(ManyAnswer::from_bytes(&many.answer), cache.read_many(&many.asked, &mut buffer).unwrap());
    assert!(many.buffer == buffer && cache.difference(&lent).is_none());
    met.lists += 1;
    met.show("largest boxes", seed, &progress);
}
