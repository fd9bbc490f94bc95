//! The engine of D-ARC boxes is right before it is measured: its bytes and numbers are the model's, from fresh boxes, on sound ones made by hand and on
//! broken ones.
use common::Random;
use engines::arc;
use model::arc::worked::play;
use model::arc::{carry_out, carry_out_many, carry_out_report, ArcLent, ArcNumbers, Lists, ARC_STATE, WORD};
use model::{AddressRow, BlockRow, Call, Folder, Lent, Report, CALLS, LABEL, REPORTS, ROW, STATE_LABEL, STATE_LIMIT};

fn by(call: Call, a: u32, lent: &mut ArcLent) -> u32 {
    let ArcLent { base: Lent { state, disk, flash, addresses, blocks, block, answer, label }, lists } = lent;
    match call {
        Call::Open => arc::open(state, label, disk, flash, addresses, blocks, lists),
        Call::Read => arc::read(state, a, disk, flash, addresses, blocks, lists, block, answer),
        Call::Through(seat) => arc::write_through(state, a, seat, disk, flash, addresses, blocks, lists, block, answer),
        Call::Back(seat) => arc::write_back(state, a, seat, disk, flash, addresses, blocks, lists, block, answer),
        Call::Invalidate(seat) => arc::write_invalidate(state, a, seat, disk, flash, addresses, blocks, lists, block, answer),
        Call::Flush => arc::flush(state, disk, flash, addresses, blocks, lists, answer),
        Call::FlushSome(most) => arc::flush_some(state, most, disk, flash, addresses, blocks, lists, answer),
        Call::Look => arc::look(state, a, disk, flash, addresses, blocks, lists, answer),
    }
}

/// A call by the engine and by the model: the same number, and the same bytes.
fn one(call: Call, a: u32, lent: &mut ArcLent, context: &str) -> u32 {
    let mut expected = lent.clone();
    let number = carry_out(call, a, &mut expected);
    assert_eq!(by(call, a, lent), number, "{call:?} {a}, {context}");
    assert_eq!(lent.difference(&expected), None, "{call:?} {a}, {context}");
    number
}

fn many(lent: &mut ArcLent, folder: &mut Folder, context: &str) -> u32 {
    let (mut expected, mut wanted) = (lent.clone(), folder.clone());
    let number = carry_out_many(&mut expected, &mut wanted);
    let ArcLent { base: Lent { state, disk, flash, addresses, blocks, .. }, lists } = &mut *lent;
    let Folder { asked, buffer, answer } = &mut *folder;
    assert_eq!(arc::read_many(state, asked, disk, flash, addresses, blocks, lists, buffer, answer), number, "{context}");
    assert_eq!(lent.difference(&expected).or(folder.difference(&wanted)), None, "{context}");
    number
}

fn report(random: &mut Random, lent: &ArcLent, context: &str) {
    let m = if lent.base.state.len() == ARC_STATE { lent.numbers().m().min(1_024) as usize } else { 3 };
    for report in REPORTS {
        let (more, less) = (random.below(20) / 19, random.below(20) / 19);
        let mut bytes = random.bytes((m * report.row() + more).saturating_sub(less));
        let mut expected = bytes.clone();
        let number = carry_out_report(report, lent, &mut expected);
        let ArcLent { base: Lent { state, disk, flash, addresses, blocks, .. }, lists } = lent;
        let given = match report {
            Report::Manager => arc::manager_report(state, disk, flash, addresses, blocks, lists, &mut bytes),
            Report::Desk => arc::desk_report(state, disk, flash, addresses, blocks, lists, &mut bytes),
        };
        assert_eq!((given, bytes), (number, expected), "{report:?}, {context}");
    }
}

#[test]
fn worked_states() {
    let (states, calls) = play(|call, a, lent| one(call, a, lent, "a worked state"), |lent, folder| many(lent, folder, "a worked state"));
    println!("the engine of D-ARC boxes reaches {states} worked states with {calls} calls");
}

/// A box to be opened, with any limit, over any bytes.
fn unopened(random: &mut Random, [b, p, c, x]: [usize; 4], contents: usize) -> ArcLent {
    let m = 2 * c + x;
    let t = [m, 1 + random.below(m)][random.below(2)] as u64;
    let label = random.bytes(LABEL);
    let numbers = ArcNumbers {
        b: b as u64,
        p: p as u64,
        c: c as u64,
        x: x as u64,
        n: random.number(),
        counters: [random.number(); 4],
        label: label[..].try_into().unwrap(),
        t,
        adaptive: random.number(),
        sizes: [random.number(); 5],
    };
    let base = Lent {
        state: numbers.to_bytes(),
        disk: (0..p).flat_map(|_| vec![random.below(contents) as u8; b]).collect(),
        flash: random.bytes(c * b),
        addresses: random.bytes(m * ROW),
        blocks: random.bytes(c * ROW),
        block: random.bytes(b),
        answer: random.bytes(24),
        label,
    };
    ArcLent { base, lists: random.bytes(m * WORD) }
}

/// A copy of a box with a byte changed, or a length, or another limit, which may be below the dirty rows.
fn broken_copy(random: &mut Random, lent: &ArcLent) -> ArcLent {
    let mut bad = lent.clone();
    let ArcLent { base: Lent { state, disk, flash, addresses, blocks, block, answer, label }, lists } = &mut bad;
    let changed = match random.below(13) {
        0..=2 => &mut addresses[..],
        3 | 4 => &mut blocks[..],
        5..=7 => &mut lists[..],
        8 => &mut state[..STATE_LABEL.start],
        9 | 10 => &mut state[STATE_LABEL.end..],
        11 => {
            // Also one less than the dirty rows.
            let dirty = addresses.chunks_exact(ROW).filter(|row| row[36] == 1).count() as u64;
            let t = [random.below(4) as u64, dirty.saturating_sub(1)][random.below(2)];
            state[STATE_LIMIT].copy_from_slice(&t.to_le_bytes());
            return bad;
        }
        _ => {
            [disk, flash, addresses, blocks, lists, block, state, answer, label][random.below(9)].pop();
            return bad;
        }
    };
    changed[random.below(changed.len())] ^= 1 << random.below(8);
    bad
}

/// A folder of few addresses, now and then of none, of 65, of one beyond the disk, or with a buffer or an answer of another length.
fn any_folder(random: &mut Random, p: usize, b: usize) -> Folder {
    let count = [random.below(71), random.below(12)][random.below(2)];
    let few = 1 + random.below(p.min(6)) + (random.below(10) == 0) as usize * p;
    let mut folder = Folder { asked: (0..count).map(|_| random.below(few) as u32).collect(), buffer: random.bytes(count * b), answer: random.bytes(32) };
    if random.below(20) == 0 {
        [&mut folder.buffer, &mut folder.answer][random.below(2)].pop();
    }
    folder
}

#[test]
fn lists_and_broken_boxes() {
    let seed = 31;
    let mut random = Random(seed);
    let (mut calls, mut folders, mut broken) = (0, 0, [0; 14]);
    for round in 0..300 {
        // A few large tables among the small ones.
        let large = round % 50 == 0;
        let (most_p, most_c, most_x) = if large { ([600, 9_000][round / 50 % 2], 200, 600) } else { (14, 4, 4) };
        let shape = [[64, 128][random.below(2)], 1 + random.below(most_p), 1 + random.below(most_c), random.below(most_x + 1)];
        let [b, p, c, _] = shape;
        let contents = 1 + random.below(2 * c.min(100));
        let mut lent = unopened(&mut random, shape, contents);
        assert_eq!(one(Call::Open, 0, &mut lent, "opening"), 0);
        for turn in 0..200 {
            let call = [CALLS[1 + random.below(7)], Call::Back(0), Call::Read][random.below(5).saturating_sub(2)].by_seat(random.number() as u16);
            let end = p + random.below(20) / 19;
            let a = random.below(end) as u32;
            let context = format!("turn {turn} of round {round}, seed {seed}");
            lent.base.block = vec![random.below(contents) as u8; b];
            if random.below(2) == 0 {
                let mut bad = broken_copy(&mut random, &lent);
                report(&mut random, &bad, &format!("broken, {context}"));
                let number = one(CALLS[random.below(8)], a, &mut bad, &format!("broken, {context}"));
                broken[number as usize] += 1;
            }
            one(call, a, &mut lent, &context);
            report(&mut random, &lent, &context);
            calls += 1;
            if random.below(10) == 0 {
                many(&mut lent, &mut any_folder(&mut random, p, b), &context);
                folders += 1;
            }
        }
    }
    let boxes: usize = broken.iter().sum();
    println!(
        "{calls} calls and {folders} folders by the engine of D-ARC boxes, and {boxes} broken boxes, agree with the model (seed {seed}); numbers {broken:?}"
    );
    assert!([0, 2, 6, 7, 8, 11, 12, 13].iter().all(|number| broken[*number] > 50), "a refusal is hardly met: {broken:?}");
}

/// A sound box of any fingerprints that agree in their first `same` bytes, with any sound lists; slots have other blocks than their rows say.
fn crafted(random: &mut Random, same: usize) -> ArcLent {
    let (c, x, p) = (1 + random.below(12), random.below(12), 1 + random.below(50));
    let m = 2 * c + x;
    let start = random.bytes(same);
    let prints: Vec<Vec<u8>> = (0..c + 4).map(|_| [&start[..], &random.bytes(32 - same)].concat()).collect();
    let mut lent = unopened(random, [64, p, c, x], 2 * c);
    let (used, n) = (random.below(c + 1), random.below(m.min(p) + 1));
    lent.base.addresses.fill(0);
    let (mut held, mut dirty_rows) = (Vec::new(), 0);
    for (k, row) in lent.base.addresses.chunks_exact_mut(ROW).take(n).enumerate() {
        let print = random.below(prints.len());
        let dirty = (print < used && random.below(2) == 0) as u8;
        let address = k as u32;
        let new = AddressRow { address, fingerprint: prints[print][..].try_into().unwrap(), dirty, seat: random.number() as u16, padding: 0 };
        row.copy_from_slice(&new.to_bytes());
        held.push((address, print < used));
        dirty_rows += dirty as u64;
    }
    let rows = (0..c).map(|k| {
        let print = (k + used).checked_sub(c).map(|k| prints[k][..].try_into().unwrap());
        BlockRow { fingerprint: print.unwrap_or([0; 32]), slot: (c - 1 - k) as u32, used: print.is_some() as u8, padding: [0; 3] }
    });
    lent.base.blocks = rows.flat_map(|row| row.to_bytes()).collect();
    let lists = Lists::any(&held, c, x, |end| random.below(end));
    let t = [dirty_rows.max(1), m as u64][random.below(2)];
    let numbers = ArcNumbers { n: n as u64, counters: [7; 4], t, adaptive: lists.p as u64, sizes: lists.sizes(), ..lent.numbers() };
    lent.base.state = numbers.to_bytes();
    lent.lists = lists.to_bytes(m);
    lent
}

#[test]
fn crafted_boxes() {
    let seed = 32;
    let mut random = Random(seed);
    let (mut numbers, mut folders) = ([0; 14], [0; 14]);
    for round in 0..20_000 {
        let mut lent = crafted(&mut random, [2, 4, 8, 31][round % 4]);
        let context = format!("round {round}, seed {seed}");
        if random.below(4) == 0 {
            let (from, to) = (random.below(lent.lists.len() / WORD) * WORD, random.below(lent.lists.len() / WORD) * WORD);
            lent.lists.copy_within(from..from + WORD, to);
        } else if random.below(4) == 0 {
            lent = broken_copy(&mut random, &lent);
        }
        let p = lent.base.disk.len() / 64;
        let mut copy = lent.clone();
        folders[many(&mut copy, &mut any_folder(&mut random, p.max(1), 64), &context) as usize] += 1;
        let a = random.below(p + 1) as u32;
        for _ in 0..3 {
            let call = CALLS[1 + random.below(7)].by_seat(random.number() as u16);
            numbers[one(call, a.min(random.below(p + 1) as u32), &mut lent, &context) as usize] += 1;
        }
    }
    println!("60000 calls and 20000 folders on crafted D-ARC boxes agree with the model (seed {seed}); numbers {numbers:?} and {folders:?}");
    assert!([0, 2, 3, 6, 7, 8].iter().all(|number| numbers[*number] > 100 && folders[*number] > 20) && folders[10] > 100, "a refusal is hardly met");
}
