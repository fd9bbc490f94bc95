//! Sound D-ARC boxes that no list of calls need reach, served: every byte is the model's, for a few calls from each. Their lists, sizes and p are any that are
//! sound, B3 among them, which is empty in every box that a list reaches.
use common::Random;
use model::arc::{ArcLent, B1, B2, B3, T1, T2};
use model::{read_tables, Cache, Call, CALLS, REPORTS};
use service::arc_boxes::{damage, sound, sound_at, ArcDamage, ArcShape};
use service::arc_compare::{compare, compare_many, compare_report};
use service::boxes::{any_seat, bytes, folder, most, pick, pick_call};
use service::progress::{count, seed, Progress};

/// How many requests came from each list, and boxes had what lists from fresh boxes do not show.
#[derive(Default)]
struct Had {
    boxes: usize,
    calls: usize,
    folders: usize,
    from: [usize; 6],
    in_b3: usize,
    dirty_in_b3: usize,
    full: usize,
    raised: usize,
    lowered: usize,
}

fn load(lent: &ArcLent) -> Cache {
    Cache::load_arc(&mut lent.clone())
}

impl Had {
    fn see(&mut self, lent: &ArcLent) {
        let cache = load(lent);
        let lists = cache.lists.as_ref().unwrap();
        self.boxes += 1;
        self.in_b3 += (lists.size(B3) > 0) as usize;
        self.dirty_in_b3 += cache.dirty().iter().any(|a| lists.holding(*a) == Some(B3)) as usize;
        self.full +=
            ([T1, T2, B3].map(|list| lists.size(list)).iter().sum::<usize>() == cache.m - cache.d && lists.size(B1) + lists.size(B2) == cache.d) as usize;
    }

    fn show(&self, name: &str, seed: u64, progress: &Progress) {
        let Had { boxes, calls, folders, from: [t1, t2, b1, b2, b3, new], in_b3, dirty_in_b3, full, raised, lowered } = *self;
        println!("{name}: {calls} calls and {folders} folders on {boxes} sound D-ARC boxes agree with the model in every byte");
        println!("  requests of T1 {t1}, T2 {t2}, B1 {b1}, B2 {b2}, B3 {b3}, new {new}; p raised {raised}, lowered {lowered}");
        println!("  B3 is not empty in {in_b3}, has a dirty address in {dirty_in_b3}; all lists are full in {full} (seed {seed}, {:.1} s)", progress.seconds());
        let counts = [t1, t2, b1, b2, b3, new, in_b3, dirty_in_b3, full, raised, lowered, folders];
        assert!(counts.iter().all(|count| *count > boxes / 200), "a kind of box or call hardly came: {counts:?}");
    }
}

/// Makes a box usable again once a counter has passed its largest.
fn reset(lent: &mut ArcLent, number: u32) {
    // 9 comes once a counter has passed its largest; the box is used on with other counters.
    assert!(number == 0 || number == 9, "number {number}");
    if number == 9 {
        lent.base.state[40..72].fill(0);
    }
}

/// A call on a sound box. The block lent comes from the box, so that it is cached often.
fn call_on(random: &mut Random, shape: ArcShape, lent: &mut ArcLent, had: &mut Had, context: &dyn Fn() -> String) {
    let call = match random.below(14) {
        0..=3 => Call::Read,
        4..=5 => Call::Through(any_seat(random)),
        6..=8 => Call::Back(any_seat(random)),
        9 | 10 => Call::Invalidate(any_seat(random)),
        11 => Call::Flush,
        12 => Call::FlushSome(most(random, shape.m())),
        _ => Call::Look,
    };
    let n = lent.numbers().n as usize;
    let address = match random.below(3) {
        0 | 1 if n > 0 => read_tables(&lent.base).0[random.below(n)].address,
        _ => random.below(shape.p) as u32,
    };
    let source = if random.below(2) == 0 { &lent.base.disk } else { &lent.base.flash };
    let place = random.below(source.len() / shape.b) * shape.b;
    lent.base.block = source[place..place + shape.b].to_vec();
    if random.below(8) == 0 {
        lent.base.block[0] ^= 1;
    }
    let (from, p) = (load(lent).lists.unwrap().holding(address).unwrap_or(5), lent.numbers().adaptive);
    let number = compare(call, address, lent, random.below(32), context);
    let q = lent.numbers().adaptive;
    had.from[from] += (number == 0 && call.takes_block()) as usize;
    had.raised += (q > p) as usize;
    had.lowered += (q < p) as usize;
    had.calls += 1;
    reset(lent, number);
}

/// Some calls, one after the other, on a box, with a report after each and folders among them.
fn calls_from(random: &mut Random, shape: ArcShape, lent: &mut ArcLent, length: usize, had: &mut Had, seed: u64) {
    had.see(lent);
    for turn in 0..length {
        let context = || format!("call {turn}, {shape:?}, seed {seed}");
        if random.below(8) == 0 {
            let some: Vec<u32> = (0..3).map(|_| random.below(shape.p) as u32).collect();
            let held = if lent.numbers().n > 0 { pick(random, &read_tables(&lent.base).0[..lent.numbers().n as usize]).address } else { 0 };
            let size = 1 + random.below(8);
            let mut many = folder(random, &[&some[..], &[held]].concat(), shape.b, size);
            let number = compare_many(lent, &mut many, random.below(32), &context);
            reset(lent, number);
            had.folders += 1;
        } else {
            call_on(random, shape, lent, had, &context);
        }
        let report = pick(random, &REPORTS);
        let mut into = bytes(random, shape.m() * report.row());
        assert_eq!(compare_report(report, lent, &mut into, random.below(32), &context), 0);
    }
}

#[test]
fn small_boxes() {
    let (seed, total) = (seed(701), count(90_000));
    let mut random = Random(seed);
    let mut had = Had::default();
    let mut progress = Progress::new("sound D-ARC boxes", total);
    while had.calls < total {
        let b = pick(&mut random, &[64, 64, 64, 128]);
        let most = pick(&mut random, &[ArcShape { b, p: 8, c: 2, x: 2 }, ArcShape { b, p: 12, c: 4, x: 3 }, ArcShape { b, p: 30, c: 8, x: 8 }]);
        let shape = ArcShape::below(&mut random, most);
        let mut lent = sound(&mut random, shape);
        let length = 1 + random.below(8);
        calls_from(&mut random, shape, &mut lent, length, &mut had, seed);
        progress.at(had.calls);
    }
    had.show("small boxes", seed, &progress);
}

#[test]
fn large_boxes() {
    let (seed, total) = (seed(702), count(3_000));
    let mut random = Random(seed);
    let mut had = Had::default();
    let mut progress = Progress::new("large sound D-ARC boxes", total);
    while had.calls < total {
        let (c, x) = pick(&mut random, &[(256, 512), (256, 512), (256, 0), (90, 300), (2, 1_020)]);
        let p = if random.below(30) == 0 { 65_536 } else { 1_024 + random.below(600) };
        let shape = ArcShape { b: 64, p, c, x };
        let mut lent = sound(&mut random, shape);
        calls_from(&mut random, shape, &mut lent, 10, &mut had, seed);
        progress.at(had.calls);
    }
    had.show("large boxes", seed, &progress);
}

/// Fingerprints that differ in one byte alone, for each of the 32: they are told apart wherever they are compared.
#[test]
fn every_byte_of_a_fingerprint() {
    let (seed, turns) = (seed(703), count(250));
    let mut random = Random(seed);
    let (mut had, mut refused) = (Had::default(), 0);
    let mut progress = Progress::new("every byte of a fingerprint", turns);
    for turn in 0..turns {
        for place in 0..32 {
            let shape = ArcShape::below(&mut random, ArcShape { b: 64, p: 14, c: 5, x: 4 });
            let mut lent = sound_at(&mut random, shape, Some(place));
            // An address of T1 or T2 whose fingerprint is nearly that of a block is refused still.
            let mut bad = lent.clone();
            if damage(&mut random, &mut bad, &mut 0, ArcDamage::TopUncached) {
                let call = pick_call(&mut random, &CALLS[1..]);
                assert_eq!(compare(call, 0, &mut bad, 0, &|| format!("byte {place}, turn {turn}, {shape:?}, seed {seed}")), 8);
                refused += 1;
            }
            let length = 1 + random.below(6);
            calls_from(&mut random, shape, &mut lent, length, &mut had, seed);
        }
        progress.at(turn);
    }
    had.show("fingerprints that differ in one byte", seed, &progress);
    println!("  {refused} such boxes are refused with 8");
    assert!(refused > turns);
}
