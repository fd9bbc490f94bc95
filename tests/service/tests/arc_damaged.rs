//! D-ARC boxes that must be refused: the number is right and every byte is kept.
use common::Random;
use model::arc::{ArcLent, ARC_STATE};
use model::{Call, CALLS, MANY_CHECKS, REPORTS, STATE_LABEL};
use service::arc_boxes::{damaged, damages, number_of, number_of_report, small, sound, ArcDamage, ArcShape};
use service::arc_compare::{compare, compare_many, compare_report};
use service::boxes::{any_seat, bytes, fill, folder, pick, pick_call, Counts, Damage};
use service::progress::{count, seed, Progress};

const NUMBERS: [usize; 10] = [11, 12, 2, 10, 3, 6, 7, 8, 13, 9];
/// Those that are about more than the state and the lists.
const TABLES: [usize; 2] = [7, 8];

/// How many boxes, and how many calls, folders and reports by their numbers.
#[derive(Default)]
struct Tried {
    boxes: usize,
    numbers: Counts,
}

impl Tried {
    /// Every number must have come, but for those that cannot.
    fn show(&self, name: &str, seed: u64, progress: &Progress, never: &[usize]) {
        let refused: Vec<String> = NUMBERS.iter().map(|k| format!("{k}: {}", self.numbers[*k])).collect();
        let calls: usize = self.numbers.iter().sum();
        let (boxes, served, seconds) = (self.boxes, self.numbers[0], progress.seconds());
        println!("{name}: {boxes} D-ARC boxes, {calls} calls, refused with {}; served {served} (seed {seed}, {seconds:.1} s)", refused.join(", "));
        assert!(NUMBERS.iter().all(|k| self.numbers[*k] > 0 || never.contains(k)), "a number never came: {:?}", self.numbers);
    }
}

/// The bytes of a report, or some other number of them where m is no number of a box.
fn report_length(random: &mut Random, lent: &ArcLent, row: usize) -> usize {
    let m = lent.numbers().m().min(2_000) as usize;
    let right = m * row;
    if random.below(10) == 0 {
        right + pick(random, &[1, 5, 7])
    } else {
        right
    }
}

/// Folders of one to three addresses of the box, now and then of none, of 65 or beyond the disk. Gives the number that its own part alone has.
fn try_folder(random: &mut Random, lent: &ArcLent, given: &[ArcDamage], tried: &mut Tried, context: &dyn Fn() -> String) {
    let numbers = lent.numbers();
    let p = numbers.p.clamp(1, 65_536) as usize;
    let some: Vec<u32> = (0..3).map(|_| random.below(p) as u32).collect();
    let number = number_of(Call::Flush, given);
    let size = pick(random, &[1, 2, 3, 0, 65]);
    let mut many = folder(random, &some, numbers.b.min(4_096) as usize, size);
    let beyond = size > 0 && random.below(8) == 0;
    if beyond {
        many.asked[random.below(size)] = u32::MAX;
    }
    let own = [(10, !(1..=64).contains(&size)), (3, beyond)];
    let applies = |check: &u32| *check == number || own.iter().any(|(other, applies)| *applies && check == other);
    let expected = MANY_CHECKS.iter().map(|check| if *check == 1 { 11 } else { *check }).find(applies).unwrap_or(0);
    let given = compare_many(&mut lent.clone(), &mut many, random.below(32), context);
    assert_eq!(given, expected, "a folder of {size}, {}", context());
    tried.numbers[given as usize] += 1;
}

/// Tries damages with every call, a folder and both reports.
fn try_all(random: &mut Random, given: &[ArcDamage], shape: fn(&mut Random) -> ArcShape, tried: &mut Tried, seed: u64) {
    let (lent, address) = damaged(random, given, shape);
    let context = || format!("damages {given:?}, seed {seed}");
    for call in CALLS.map(|call| call.by_seat(any_seat(random))) {
        let number = compare(call, address, &mut lent.clone(), random.below(32), &context);
        assert_eq!(number, number_of(call, given), "{call:?} with {given:?}, seed {seed}");
        tried.numbers[number as usize] += 1;
    }
    try_folder(random, &lent, given, tried, &context);
    for report in REPORTS {
        let length = report_length(random, &lent, report.row());
        let mut into = bytes(random, length);
        let number = compare_report(report, &mut lent.clone(), &mut into, random.below(32), &context);
        let wanted = number_of_report(given);
        // A report into other bytes is refused with 2, unless 11 or 12 comes first.
        let right = length as u128 == lent.numbers().m() * report.row() as u128;
        assert_eq!(number, if right || [11, 12].contains(&wanted) { wanted } else { 2 }, "{report:?} with {given:?}, seed {seed}");
        tried.numbers[number as usize] += 1;
    }
    tried.boxes += 1;
}

#[test]
fn each_alone() {
    let (seed, turns) = (seed(601), count(280));
    let mut random = Random(seed);
    let (all, mut tried) = (damages(), Tried::default());
    let mut progress = Progress::new("each damage alone", turns * all.len());
    for _ in 0..turns {
        for (kind, _) in &all {
            try_all(&mut random, &[*kind], small, &mut tried, seed);
            progress.at(tried.boxes);
        }
    }
    tried.show(&format!("each of {} damages alone", all.len()), seed, &progress, &[]);
}

/// Every two damages, which says the order of the checks; and more of them.
#[test]
fn together() {
    let (seed, turns) = (seed(602), count(16));
    let mut random = Random(seed);
    let (all, mut tried) = (damages(), Tried::default());
    let mut progress = Progress::new("damages together", turns * (all.len() * (all.len() - 1) / 2 + 150));
    for _ in 0..turns {
        for k in 0..all.len() {
            for j in 0..k {
                try_all(&mut random, &[all[j].0, all[k].0], small, &mut tried, seed);
            }
        }
        for _ in 0..150 {
            let many: Vec<ArcDamage> = (0..3 + random.below(3)).map(|_| pick(&mut random, &all).0).collect();
            try_all(&mut random, &many, small, &mut tried, seed);
        }
        progress.at(tried.boxes);
    }
    tried.show("every two damages and more", seed, &progress, &[]);
}

/// Large tables and lists: a damage in any of many rows or words is seen.
#[test]
fn in_large_boxes() {
    let (seed, turns) = (seed(603), count(24));
    let mut random = Random(seed);
    let (all, mut tried) = (damages(), Tried::default());
    let mut progress = Progress::new("damages in large boxes", turns * all.len());
    let large = |random: &mut Random| {
        let (c, x) = pick(random, &[(256, 512), (256, 0), (100, 300), (3, 1_018)]);
        ArcShape { b: 64, p: 1_024 + random.below(500), c, x }
    };
    for _ in 0..turns {
        for (kind, _) in &all {
            let (mut lent, address) = damaged(&mut random, &[*kind], large);
            let context = || format!("{kind:?}, seed {seed}");
            try_folder(&mut random, &lent, &[*kind], &mut tried, &context);
            let call = pick_call(&mut random, &CALLS);
            let number = compare(call, address, &mut lent, random.below(32), &context);
            assert_eq!(number, number_of(call, &[*kind]), "{call:?} with {kind:?}, seed {seed}");
            tried.numbers[number as usize] += 1;
            tried.boxes += 1;
            progress.at(tried.boxes);
        }
    }
    tried.show("each damage in large boxes", seed, &progress, &[]);
}

/// One call, folder or report on a box of which nothing is known, by the model alone.
fn try_any(random: &mut Random, mut lent: ArcLent, shape: ArcShape, tried: &mut Tried, context: &dyn Fn() -> String) {
    let number = match random.below(8) {
        0 => {
            let address = random.below(shape.p + 1) as u32;
            let size = pick(random, &[0, 1, 2, 3, 65]);
            let mut many = folder(random, &[address], shape.b, size);
            compare_many(&mut lent, &mut many, random.below(32), context)
        }
        1 => {
            let report = pick(random, &REPORTS);
            let mut into = bytes(random, shape.m() * report.row());
            compare_report(report, &mut lent, &mut into, random.below(32), context)
        }
        _ => compare(pick_call(random, &CALLS), random.below(shape.p + 1) as u32, &mut lent, random.below(32), context),
    };
    tried.numbers[number as usize] += 1;
    tried.boxes += 1;
}

/// One to three bytes of a sound box changed anywhere in the state, the tables or the lists. Some boxes are sound still.
#[test]
fn changed_bytes() {
    let (seed, total) = (seed(604), count(50_000));
    let mut random = Random(seed);
    let mut tried = Tried::default();
    let mut progress = Progress::new("changed bytes", total);
    for turn in 0..total {
        let shape = small(&mut random);
        let mut lent = sound(&mut random, shape);
        for _ in 0..1 + random.below(3) {
            let buffer = match random.below(9) {
                0 => &mut lent.base.state[..STATE_LABEL.start],
                // The limit, p and the sizes, often a low byte of one of them.
                1 => &mut lent.base.state[STATE_LABEL.end..],
                2 => &mut lent.base.state[STATE_LABEL.end + 8 * random.below(7)..][..1],
                3..=5 => &mut lent.lists[..],
                6 => &mut lent.base.addresses[..],
                _ => &mut lent.base.blocks[..],
            };
            let place = random.below(buffer.len());
            match random.below(3) {
                0 => buffer[place] ^= 1 << random.below(8),
                1 => buffer[place] = random.below(3) as u8,
                _ => buffer[place] = random.number() as u8,
            }
        }
        try_any(&mut random, lent, shape, &mut tried, &|| format!("turn {turn}, {shape:?}, seed {seed}"));
        progress.at(turn);
    }
    tried.show("sound boxes with bytes changed", seed, &progress, &[]);
}

/// One to four numbers of the state of a sound box become others, many of them at an edge; the lists' words are mixed now and then.
#[test]
fn any_numbers() {
    let (seed, total) = (seed(605), count(30_000));
    let mut random = Random(seed);
    let mut tried = Tried::default();
    let mut progress = Progress::new("any numbers", total);
    let edges = [0, 1, 2, 3, 4, 64, 255, 256, 257, 512, 1_023, 1_024, 1_025, 65_536, 65_537, 1 << 32, (1 << 32) + 1, 1 << 63, (1 << 63) + 1, u64::MAX];
    for turn in 0..total {
        let shape = small(&mut random);
        let mut lent = sound(&mut random, shape);
        for _ in 0..random.below(5) {
            let place = pick(&mut random, &[0, 8, 16, 24, 32, 40, 48, 56, 64, 136, 136, 144, 144, 152, 160, 168, 176, 184]);
            let few = random.below(6) as u64;
            let number = if random.below(3) == 0 { few } else { pick(&mut random, &edges) };
            lent.base.state[place..place + 8].copy_from_slice(&number.to_le_bytes());
        }
        if random.below(4) == 0 {
            let (one, two) = (random.below(shape.m()) * 4, random.below(shape.m()) * 4);
            lent.lists.copy_within(one..one + 4, two);
        }
        try_any(&mut random, lent, shape, &mut tried, &|| format!("turn {turn}, {shape:?}, seed {seed}"));
        progress.at(turn);
    }
    tried.show("any numbers in the state", seed, &progress, &TABLES);
}

/// A state that has not 192 bytes or an answer that has not 24 gives 2, whatever else is wrong, and nothing is changed.
#[test]
fn other_lengths_of_state_and_answer() {
    let (seed, turns) = (seed(606), count(1_500));
    let mut random = Random(seed);
    let (all, mut calls) = (damages(), 0);
    for _ in 0..turns {
        let given: Vec<ArcDamage> = (0..random.below(3)).map(|_| pick(&mut random, &all).0).collect();
        let (mut lent, address) = damaged(&mut random, &given, small);
        let state = random.below(2) == 0;
        if state {
            lent.base.state.resize(pick(&mut random, &[0, 1, 8, 72, 136, 143, 144, 144, 152, 184, 191, 193, 200, 384]), 0);
        } else {
            lent.base.answer.resize(pick(&mut random, &[0, 1, 8, 16, 23, 25, 32, 144, 192]), 0);
            fill(&mut random, &mut lent.base.answer);
        }
        let context = || format!("damages {given:?}, seed {seed}");
        for call in CALLS.into_iter().filter(|call| state || *call != Call::Open) {
            assert_eq!(compare(call, address, &mut lent.clone(), random.below(32), &context), 2, "{call:?}");
            calls += 1;
        }
        if state {
            let mut many = folder(&mut random, &[0], 64, 2);
            assert_eq!(compare_many(&mut lent.clone(), &mut many, random.below(32), &context), 2);
            calls += 1;
        }
    }
    let (sound, _) = damaged(&mut random, &[], small);
    let mut many = folder(&mut random, &[0], sound.numbers().b as usize, 2);
    many.answer.pop();
    assert_eq!(compare_many(&mut sound.clone(), &mut many, 0, &|| "an answer of 31 bytes".to_string()), 2);
    assert_eq!((ARC_STATE, number_of(Call::Read, &[ArcDamage::Base(Damage::Address)])), (192, 3));
    println!("D-ARC states and answers of other lengths: {} calls on {} boxes give 2 (seed {seed})", calls + 1, turns + 1);
}
