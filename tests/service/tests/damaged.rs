//! Boxes that must be refused: the number is right and every byte is kept.
use common::Random;
use model::{Call, CALLS, STATE_LABEL, STATE_LIMIT};
use service::boxes::{any_seat, damaged, fill, noise, number_of, pick, pick_call, small, sound, Counts, Damage, Shape, DAMAGES};
use service::compare::compare;
use service::progress::{count, seed, Progress};

/// Tries damages with every call and gives how many calls were refused with each number.
fn try_all(random: &mut Random, damages: &[Damage], shape: fn(&mut Random) -> Shape, numbers: &mut Counts, seed: u64) -> usize {
    let (lent, address) = damaged(random, damages, shape);
    for call in CALLS.map(|call| call.by_seat(any_seat(random))) {
        let mut lent = lent.clone();
        let expected = number_of(call, damages);
        let context = || format!("damages {damages:?}, seed {seed}");
        let number = compare(call, address, &mut lent, random.below(32), &context);
        assert_eq!(number, expected, "{call:?} with {damages:?}, seed {seed}");
        numbers[number as usize] += 1;
    }
    1
}

fn show(name: &str, boxes: usize, numbers: &Counts, seed: u64, progress: &Progress) {
    let refused: Vec<String> = [1, 12, 2, 3, 6, 7, 8, 13, 9].iter().map(|k| format!("{k}: {}", numbers[*k])).collect();
    println!("{name}: {boxes} boxes, calls refused with {}; served {} (seed {seed}, {:.1} s)", refused.join(", "), numbers[0], progress.seconds());
    assert!([1, 12, 2, 3, 6, 7, 8, 13, 9].iter().all(|k| numbers[*k] > 0));
}

#[test]
fn each_alone() {
    let (seed, turns) = (seed(201), count(500));
    let mut random = Random(seed);
    let (mut boxes, mut numbers) = (0, Counts::default());
    let mut progress = Progress::new("each damage alone", turns * DAMAGES.len());
    for _ in 0..turns {
        for (kind, _) in DAMAGES {
            boxes += try_all(&mut random, &[kind], small, &mut numbers, seed);
            progress.at(boxes);
        }
    }
    show("each damage alone, every call", boxes, &numbers, seed, &progress);
}

/// Every two damages, which says the order of the checks; and more of them.
#[test]
fn together() {
    let (seed, turns) = (seed(202), count(20));
    let mut random = Random(seed);
    let (mut boxes, mut numbers) = (0, Counts::default());
    let mut progress = Progress::new("damages together", turns * (DAMAGES.len() * (DAMAGES.len() - 1) / 2 + 150));
    for _ in 0..turns {
        for k in 0..DAMAGES.len() {
            for j in 0..k {
                boxes += try_all(&mut random, &[DAMAGES[j].0, DAMAGES[k].0], small, &mut numbers, seed);
            }
        }
        for _ in 0..150 {
            let many: Vec<Damage> = (0..3 + random.below(3)).map(|_| pick(&mut random, &DAMAGES).0).collect();
            boxes += try_all(&mut random, &many, small, &mut numbers, seed);
        }
        progress.at(boxes);
    }
    show("every two damages and more, every call", boxes, &numbers, seed, &progress);
}

/// Large tables: a damage in any of many rows is seen.
#[test]
fn in_large_tables() {
    let (seed, turns) = (seed(203), count(60));
    let mut random = Random(seed);
    let (mut boxes, mut numbers) = (0, Counts::default());
    let mut progress = Progress::new("damages in large tables", turns * DAMAGES.len());
    let large = |random: &mut Random| Shape { b: 64, p: 1_024 + random.below(500), m: pick(random, &[1_024, 700, 257]), d: pick(random, &[256, 255, 100]) };
    for _ in 0..turns {
        for (kind, _) in DAMAGES {
            let (lent, address) = damaged(&mut random, &[kind], large);
            let call = pick_call(&mut random, &CALLS);
            let mut lent = lent.clone();
            let number = compare(call, address, &mut lent, random.below(32), &|| format!("{kind:?}, seed {seed}"));
            assert_eq!(number, number_of(call, &[kind]), "{call:?} with {kind:?}, seed {seed}");
            numbers[number as usize] += 1;
            boxes += 1;
            progress.at(boxes);
        }
    }
    show("each damage in large tables", boxes, &numbers, seed, &progress);
}

/// One to three bytes of a sound box changed anywhere in the state, the label and the limit among it, or the tables. Some boxes are sound still.
#[test]
fn changed_bytes() {
    let (seed, total) = (seed(204), count(84_000));
    let mut random = Random(seed);
    let mut numbers = Counts::default();
    let mut progress = Progress::new("changed bytes", total);
    for turn in 0..total {
        let shape = small(&mut random);
        let mut lent = sound(&mut random, shape);
        for _ in 0..1 + random.below(3) {
            let buffer = match random.below(7) {
                0 => &mut lent.state[..STATE_LABEL.start],
                1 => &mut lent.state[STATE_LABEL],
                // Often its low byte.
                2 => &mut lent.state[STATE_LIMIT][..[1, 8][random.below(2)]],
                3 | 4 => &mut lent.addresses[..],
                _ => &mut lent.blocks[..],
            };
            let place = random.below(buffer.len());
            match random.below(3) {
                0 => buffer[place] ^= 1 << random.below(8),
                1 => buffer[place] = random.below(3) as u8,
                _ => buffer[place] = random.number() as u8,
            }
        }
        let address = random.below(shape.p + 1) as u32;
        let call = pick_call(&mut random, &CALLS);
        let number = compare(call, address, &mut lent, random.below(32), &|| format!("turn {turn}, {shape:?}, seed {seed}"));
        numbers[number as usize] += 1;
        progress.at(turn);
    }
    show("sound boxes with bytes changed", total, &numbers, seed, &progress);
}

#[test]
fn any_bytes() {
    let (seed, total) = (seed(205), count(60_000));
    let mut random = Random(seed);
    let mut numbers = Counts::default();
    let mut progress = Progress::new("any bytes", total);
    for turn in 0..total {
        let mut lent = noise(&mut random);
        let address = pick(&mut random, &[0, 0, 1, 2, u32::MAX]);
        let call = pick_call(&mut random, &CALLS);
        let number = compare(call, address, &mut lent, random.below(32), &|| format!("turn {turn}, seed {seed}"));
        numbers[number as usize] += 1;
        progress.at(turn);
    }
    show("any numbers and bytes", total, &numbers, seed, &progress);
}

/// A state that has not 144 bytes or an answer that has not 24 gives 2, whatever else is wrong, and nothing is changed.
#[test]
fn other_lengths_of_state_and_answer() {
    let (seed, turns) = (seed(206), count(2_000));
    let mut random = Random(seed);
    let mut calls = 0;
    for _ in 0..turns {
        let damages: Vec<Damage> = (0..random.below(3)).map(|_| pick(&mut random, &DAMAGES).0).collect();
        let (mut lent, address) = damaged(&mut random, &damages, small);
        let state = random.below(2) == 0;
        if state {
            let length = pick(&mut random, &[0, 1, 8, 40, 64, 71, 72, 72, 73, 128, 135, 136, 136, 143, 145, 200, 272, 288]);
            lent.state.resize(length, 0);
        } else {
            let length = pick(&mut random, &[0, 1, 8, 16, 23, 25, 32, 72, 136, 144]);
            lent.answer.resize(length, 0);
            fill(&mut random, &mut lent.answer);
        }
        for call in CALLS.into_iter().filter(|call| state || *call != Call::Open) {
            let mut lent = lent.clone();
            let number = compare(call, address, &mut lent, random.below(32), &|| format!("damages {damages:?}, seed {seed}"));
            assert_eq!(number, 2, "{call:?}");
            calls += 1;
        }
    }
    println!("states and answers of other lengths: {calls} calls on {turns} boxes give 2 (seed {seed})");
}
