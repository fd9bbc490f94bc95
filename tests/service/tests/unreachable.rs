//! Sound boxes that no list of calls need reach, served: every byte is the model's, for a few calls from each, with a report after each call.
use common::Random;
use model::{fingerprint, read_tables, Call, Lent, CALLS, REPORTS};
use service::boxes::{any_seat, bytes, damage, most, pick, pick_call, sound, sound_at, Damage, Shape};
use service::compare::{compare, compare_report};
use service::progress::{count, seed, Progress};
use std::collections::HashSet;

/// How many boxes had what the lists from fresh boxes do not show.
#[derive(Default)]
struct Had {
    both_orphans: usize,
    shared_dirty: usize,
    slots_out_of_order: usize,
    zero_fingerprint: usize,
    other_content: usize,
}

impl Had {
    fn see(&mut self, lent: &Lent) {
        let (rows, blocks) = read_tables(lent);
        let held = &rows[..lent.numbers().n as usize];
        let b = lent.numbers().b as usize;
        let cached: HashSet<[u8; 32]> = blocks.iter().filter(|row| row.used == 1).map(|row| row.fingerprint).collect();
        let wanted: HashSet<[u8; 32]> = held.iter().map(|row| row.fingerprint).collect();
        let dirty: Vec<[u8; 32]> = held.iter().filter(|row| row.dirty == 1).map(|row| row.fingerprint).collect();
        let free: Vec<u32> = blocks.iter().filter(|row| row.used == 0).map(|row| row.slot).collect();
        self.both_orphans += (!cached.is_subset(&wanted) && !wanted.is_subset(&cached)) as usize;
        self.shared_dirty += (dirty.iter().collect::<HashSet<_>>().len() < dirty.len()) as usize;
        self.slots_out_of_order += free.windows(2).any(|pair| pair[0] > pair[1]) as usize;
        self.zero_fingerprint += cached.contains(&[0; 32]) as usize;
        let first = blocks.iter().find(|row| row.used == 1);
        let stored = |slot: usize| fingerprint(&lent.numbers().label, &lent.flash[slot * b..(slot + 1) * b]);
        self.other_content += first.is_some_and(|row| stored(row.slot as usize) != row.fingerprint) as usize;
    }
}

/// Some calls, one after the other, on a sound box. The blocks lent come from the box, so that they are cached often.
fn calls_on(random: &mut Random, shape: Shape, length: usize, had: &mut Had, seed: u64) -> usize {
    let mut lent = sound(random, shape);
    had.see(&lent);
    calls_from(random, shape, &mut lent, length, seed)
}

fn calls_from(random: &mut Random, shape: Shape, lent: &mut Lent, length: usize, seed: u64) -> usize {
    for turn in 0..length {
        let call = match random.below(13) {
            0..=2 => Call::Read,
            3 | 4 => Call::Through(any_seat(random)),
            5..=7 => Call::Back(any_seat(random)),
            8 | 9 => Call::Invalidate(any_seat(random)),
            10 => Call::Flush,
            11 => Call::FlushSome(most(random, shape.m)),
            _ => Call::Look,
        };
        let n = lent.numbers().n as usize;
        let address = match random.below(3) {
            0 if n > 0 => read_tables(lent).0[random.below(n)].address,
            _ => random.below(shape.p) as u32,
        };
        let source = if random.below(2) == 0 { &lent.disk } else { &lent.flash };
        let place = random.below(source.len() / shape.b) * shape.b;
        lent.block = source[place..place + shape.b].to_vec();
        if random.below(8) == 0 {
            lent.block[0] ^= 1;
        }
        let number = compare(call, address, lent, random.below(32), &|| format!("call {turn}, {shape:?}, seed {seed}"));
        // 9 comes once a counter has passed its largest; the box is used on with other counters.
        assert!(number == 0 || number == 9);
        let report = pick(random, &REPORTS);
        let mut bytes = bytes(random, shape.m * report.row());
        assert_eq!(compare_report(report, lent, &mut bytes, random.below(32), &|| format!("after call {turn}, {shape:?}, seed {seed}")), 0);
        if number == 9 {
            lent.state[40..72].fill(0);
        }
    }
    length
}

#[test]
fn small_boxes() {
    let (seed, total) = (seed(301), count(120_000));
    let mut random = Random(seed);
    let (mut calls, mut boxes, mut had) = (0, 0, Had::default());
    let mut progress = Progress::new("sound boxes", total);
    while calls < total {
        let b = pick(&mut random, &[64, 64, 64, 128, 256]);
        let most = pick(&mut random, &[Shape { b, p: 5, m: 4, d: 3 }, Shape { b, p: 16, m: 10, d: 8 }]);
        let shape = Shape::below(&mut random, most);
        let length = 1 + random.below(8);
        calls += calls_on(&mut random, shape, length, &mut had, seed);
        boxes += 1;
        progress.at(calls);
    }
    let Had { both_orphans, shared_dirty, slots_out_of_order, zero_fingerprint, other_content } = had;
    println!("{calls} calls on {boxes} sound boxes agree with the model in every byte (seed {seed}, {:.1} s)", progress.seconds());
    println!("  both kinds of orphan in {both_orphans}, dirty rows sharing a block in {shared_dirty}, free slots out of order in {slots_out_of_order}");
    println!("  a used fingerprint of zeros in {zero_fingerprint}, a slot with another content in {other_content}");
    assert!([both_orphans, shared_dirty, slots_out_of_order, zero_fingerprint, other_content].iter().all(|count| *count > boxes / 50));
}

#[test]
fn large_boxes() {
    let (seed, total) = (seed(302), count(3_000));
    let mut random = Random(seed);
    let (mut calls, mut boxes, mut had) = (0, 0, Had::default());
    let mut progress = Progress::new("large sound boxes", total);
    while calls < total {
        let p = if random.below(50) == 0 { 65_536 } else { 1_024 + random.below(1_000) };
        let shape = Shape { b: 64, p, m: pick(&mut random, &[1_024, 1_024, 600]), d: pick(&mut random, &[256, 256, 130]) };
        calls += calls_on(&mut random, shape, 10, &mut had, seed);
        boxes += 1;
        progress.at(calls);
    }
    println!("{calls} calls on {boxes} large sound boxes agree with the model in every byte (seed {seed}, {:.1} s)", progress.seconds());
}

/// Fingerprints that differ in one byte alone, for each of the 32: they are told apart wherever they are compared.
#[test]
fn every_byte_of_a_fingerprint() {
    let (seed, turns) = (seed(303), count(1_500));
    let mut random = Random(seed);
    let (mut calls, mut refused) = (0, 0);
    let mut progress = Progress::new("every byte of a fingerprint", turns);
    for turn in 0..turns {
        for place in 0..32 {
            let shape = Shape::below(&mut random, Shape { b: 64, p: 12, m: 8, d: 6 });
            let mut lent = sound_at(&mut random, shape, Some(place));
            // A dirty row whose fingerprint is nearly that of a block is refused still.
            let mut bad = lent.clone();
            if damage(&mut random, &mut bad, &mut 0, Damage::DirtyUncached) {
                let call = pick_call(&mut random, &CALLS[1..]);
                assert_eq!(compare(call, 0, &mut bad, 0, &|| format!("byte {place}, turn {turn}, {shape:?}, seed {seed}")), 8);
                refused += 1;
            }
            let length = 1 + random.below(6);
            calls += calls_from(&mut random, shape, &mut lent, length, seed);
        }
        progress.at(turn);
    }
    println!("{calls} calls on sound boxes whose fingerprints differ in one byte, for each of the 32, agree with the model in every byte");
    println!("  {refused} such boxes are refused with 8 (seed {seed}, {:.1} s)", progress.seconds());
}
