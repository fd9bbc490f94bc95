//! D-ARC boxes on the service: the worked states, and random lists of all calls from fresh boxes, beside the model. Every byte of every buffer is compared
//! after every call.
use common::Random;
use model::arc::worked::play;
use model::arc::{ArcLent, B1, B2, T1, T2};
use model::{Answer, Cache, Call, BLOCK_SIZES, REPORTS};
use service::arc_boxes::{unopened, ArcShape};
use service::arc_calls::{call, call_many, call_report};
use service::boxes::{any_seat, bytes, folder, folder_count, most, office, pick, Contents};
use service::progress::{count, seed, Progress};

#[test]
fn worked_states() {
    let (states, calls) = play(call, call_many);
    println!("{calls} calls lead to {states} worked states of D-ARC, and answer as these say");
}

/// What the lists met, to say where a list would say little.
#[derive(Default)]
struct Met {
    calls: usize,
    lists: usize,
    refused: [usize; 17],
    words: [usize; 8],
    folders: usize,
    reports: usize,
    flash_writes: u64,
    /// Blocks copied to the disk by a read or a write back.
    written_back: u64,
    /// Reads and writes by the list that held the address before; those of an address that was not held come last.
    from: [usize; 6],
    raised: usize,
    lowered: usize,
    /// Calls in which more than one other address left T1 and T2.
    again: usize,
}

impl Met {
    fn show(&self, name: &str, seed: u64, progress: &Progress) {
        let Met { calls, lists, folders, reports, raised, lowered, again, flash_writes, written_back, .. } = self;
        let [_, hit, miss, same, new, cache, disk, done] = self.words;
        let [t1, t2, b1, b2, _, unheld] = self.from;
        println!("{name}: {calls} calls in {lists} lists agree with the model in every byte (seed {seed}, {:.1} s)", progress.seconds());
        println!(
            "  {hit} hits, {miss} misses, {same} same, {new} new, {cache} looks in flash, {disk} on disk, {done} flushes; {folders} folders, {reports} reports"
        );
        println!("  requests of T1 {t1}, T2 {t2}, B1 {b1}, B2 {b2}, new {unheld}; p raised {raised}, lowered {lowered}");
        println!("  the replacement more than once in {again}; {flash_writes} flash writes, {written_back} primary writes by reads and writes back");
        println!("  {} refused with 2, {} with 3, {} with 10", self.refused[2], self.refused[3], self.refused[10]);
        assert!(self.words[1..].iter().all(|count| *count > 0) && [T1, T2, B1, B2, 5].iter().all(|list| self.from[*list] > 0), "a kind of call never came");
        assert!(*again > 0 && *raised > 0 && *lowered > 0 && *folders > 0 && *reports > 0 && *written_back > 0, "a kind of call never came");
        assert!([2, 3, 10].iter().all(|number| self.refused[*number] > 0), "a refusal never came");
    }

    /// Sees what a call did to the lists.
    fn see(&mut self, before: &Cache, after: &Cache, call: Call, address: u32) {
        let (old, new) = (before.lists.as_ref().unwrap(), after.lists.as_ref().unwrap());
        if call.takes_block() {
            self.from[old.holding(address).unwrap_or(5)] += 1;
        }
        self.raised += (new.p > old.p) as usize;
        self.lowered += (new.p < old.p) as usize;
        let left = |a: &&u32| **a != address && !matches!(new.holding(**a), Some(T1 | T2));
        self.again += (old.of[T1].iter().chain(&old.of[T2]).filter(left).count() > 1) as usize;
    }
}

/// A call of a list and its address: mostly few addresses, sometimes any, sometimes none of the box.
fn choose(random: &mut Random, shape: ArcShape) -> (Call, u32) {
    let call = match random.below(100) {
        0..=38 => Call::Read,
        39..=55 => Call::Through(any_seat(random)),
        56..=77 => Call::Back(any_seat(random)),
        78..=82 => Call::Invalidate(any_seat(random)),
        83 if random.below(1 + shape.m() / 32) == 0 => Call::Flush,
        84 | 85 if random.below(1 + shape.m() / 32) == 0 => Call::FlushSome(most(random, shape.m())),
        86 => Call::FlushSome(random.below(3)),
        83..=85 => Call::Back(any_seat(random)),
        _ => Call::Look,
    };
    let near = (shape.m() + 2).min(shape.p);
    let address = match random.below(40) {
        0 => pick(random, &[shape.p as u32, shape.p as u32 + 1, u32::MAX, 65_536]).max(shape.p as u32),
        1..=12 => random.below(shape.p) as u32,
        13..=25 => random.below(near.min(shape.c + 1)) as u32,
        _ => random.below(near) as u32,
    };
    (call, address)
}

/// A box of the service beside the model's cache.
struct Beside {
    lent: ArcLent,
    cache: Cache,
}

/// Opens a folder with one call and compares every byte.
fn open_folder(random: &mut Random, shape: ArcShape, both: &mut Beside, met: &mut Met) {
    let near = 1 + random.below(shape.m() + 2).min(shape.p - 1);
    let different = pick(random, &[1, 2, 3, 5, 8, 64]);
    let mut some: Vec<u32> = (0..different).map(|_| random.below(near) as u32).collect();
    if random.below(12) == 0 {
        some.push(shape.p as u32);
    }
    let count = folder_count(random);
    let mut many = folder(random, &some, shape.b, count);
    if random.below(40) == 0 {
        many.buffer.push(0);
    }
    let mut expected = many.clone();
    let number = call_many(&mut both.lent, &mut many);
    let context = || format!("{shape:?}, call {} of list {}: the folder {:?}", met.calls, met.lists, many.asked);
    match both.cache.read_many(&expected.asked, &mut expected.buffer) {
        Err(refused) => assert_eq!(number, refused, "{}", context()),
        Ok(answer) => {
            assert_eq!(number, 0, "{}", context());
            expected.answer = answer.to_bytes();
            met.folders += 1;
        }
    }
    assert_eq!(many.difference(&expected), None, "{}", context());
    assert_eq!(both.cache.difference_arc(&both.lent), None, "{}", context());
    met.refused[number as usize] += 1;
    met.calls += 1;
}

/// One of the reports is the model's, and changes nothing else. Into bytes of another length it is refused with 2 and keeps them.
fn report(random: &mut Random, both: &mut Beside, met: &mut Met, context: &str) {
    let Beside { lent, cache } = both;
    let kind = pick(random, &REPORTS);
    let mut given = bytes(random, cache.m * kind.row());
    if random.below(20) == 0 {
        given.push(0x5A);
        let kept = given.clone();
        assert_eq!((call_report(kind, lent, &mut given), given), (2, kept), "{kind:?}, {context}");
        met.refused[2] += 1;
    } else {
        assert_eq!((call_report(kind, lent, &mut given), &given), (0, &cache.report(kind)), "{kind:?}, {context}");
        met.reports += 1;
    }
    assert_eq!(cache.difference_arc(lent), None, "after the report {kind:?}, {context}");
}

/// One call on both, with a block that now and then has another length.
fn step(random: &mut Random, shape: ArcShape, contents: &Contents, both: &mut Beside, met: &mut Met, context: &str) {
    let (kind, address) = choose(random, shape);
    let context = format!("{kind:?} {address}, {context}");
    let mut block = contents.one(random).clone();
    match random.below(80) {
        0 => block.truncate(shape.b - 1),
        1 => block.push(0),
        _ => {}
    }
    let Beside { lent, cache } = both;
    lent.base.block.clone_from(&block);
    let (answer, before) = (lent.base.answer.clone(), if shape.m() < 100 { Some(cache.clone()) } else { None });
    let number = call(kind, address, lent);
    match cache.call(kind, address, &mut block) {
        Err(expected) => {
            assert_eq!(number, expected, "{context}");
            assert_eq!(lent.base.answer, answer, "answer of a refused call, {context}");
        }
        Ok(expected) => {
            assert_eq!((number, Answer::from_bytes(&lent.base.answer)), (0, expected), "{context}");
            met.words[expected.word as usize] += 1;
            met.flash_writes += if kind == Call::Look { 0 } else { expected.first };
            met.written_back += if matches!(kind, Call::Read | Call::Back(_)) { expected.second } else { 0 };
            before.into_iter().for_each(|before| met.see(&before, cache, kind, address));
        }
    }
    met.refused[number as usize] += 1;
    assert!(lent.base.block == block, "lent block, {context}");
    if let Some(name) = cache.difference_arc(lent) {
        panic!("{name} differs after {context}");
    }
    if random.below(4) == 0 {
        report(random, both, met, &context);
    }
    met.calls += 1;
}

/// A list of calls from a fresh box.
fn list(random: &mut Random, shape: ArcShape, length: usize, met: &mut Met) {
    let ArcShape { b, p, c, x } = shape;
    // Fewer contents than slots, about as many, or more.
    let pool = match random.below(4) {
        0 if c < 64 => 1 + random.below(3),
        1 => 1 + random.below(c + x + 1),
        2 => c + 1 + random.below(c + 2),
        _ => shape.m() + c,
    };
    let contents = Contents::new(random, b, pool);
    let mut lent = unopened(random, shape, &contents);
    let cache = Cache::fresh_arc(b, p, c, x, lent.numbers().t as usize, office(&lent.base), lent.base.disk.clone(), lent.base.flash.clone());
    let (block, answer) = (lent.base.block.clone(), lent.base.answer.clone());
    assert_eq!(call(Call::Open, 0, &mut lent), 0, "opening {shape:?}");
    assert_eq!(cache.difference_arc(&lent), None, "opening {shape:?}");
    assert!(lent.base.block == block && lent.base.answer == answer);
    met.lists += 1;
    let mut both = Beside { lent, cache };
    for turn in 0..length {
        if random.below(8) == 0 {
            open_folder(random, shape, &mut both, met);
        } else {
            let context = format!("{shape:?}, call {turn} of list {}", met.lists);
            step(random, shape, &contents, &mut both, met, &context);
        }
    }
}

#[test]
fn small_boxes() {
    let (seed, total) = (seed(501), count(110_000));
    let mut random = Random(seed);
    let mut met = Met::default();
    let mut progress = Progress::new("small D-ARC boxes", total);
    while met.calls < total {
        let b = pick(&mut random, &[64, 64, 64, 128]);
        let most = pick(&mut random, &[ArcShape { b, p: 8, c: 2, x: 1 }, ArcShape { b, p: 12, c: 4, x: 3 }, ArcShape { b, p: 40, c: 8, x: 12 }]);
        let shape = ArcShape::below(&mut random, most);
        list(&mut random, shape, 200, &mut met);
        progress.at(met.calls);
    }
    met.show("small D-ARC boxes", seed, &progress);
}

#[test]
fn every_block_size() {
    let (seed, total) = (seed(502), count(7_000));
    let mut random = Random(seed);
    let mut met = Met::default();
    let mut progress = Progress::new("D-ARC boxes of every block size", total);
    while met.calls < total {
        for b in BLOCK_SIZES {
            let shape = ArcShape::below(&mut random, ArcShape { b, p: 30, c: 6, x: 8 });
            list(&mut random, shape, 200, &mut met);
            progress.at(met.calls);
        }
    }
    met.show("D-ARC boxes of every block size", seed, &progress);
}

/// The largest lists, and others of that size.
#[test]
fn large_boxes() {
    let (seed, total) = (seed(503), count(10_000));
    let mut random = Random(seed);
    let mut met = Met::default();
    let mut progress = Progress::new("large D-ARC boxes", total);
    // The largest disk in blocks is among them.
    let shapes = [(256, 512, 1_500), (256, 0, 1_500), (1, 1_022, 1_500), (100, 300, 1_500), (256, 512, 65_536)];
    while met.calls < total {
        let (c, x, p) = shapes[met.lists % shapes.len()];
        list(&mut random, ArcShape { b: 64, p, c, x }, 2_000, &mut met);
        progress.at(met.calls);
    }
    let Met { calls, lists, words, folders, .. } = met;
    println!("large D-ARC boxes: {calls} calls in {lists} lists agree with the model in every byte (seed {seed}, {:.1} s)", progress.seconds());
    println!("  {} hits, {} misses, {} same, {} new, {folders} folders", words[1], words[2], words[3], words[4]);
    assert!(words[1..].iter().all(|count| *count > 0) && folders > 0, "a kind of answer never came");
}
