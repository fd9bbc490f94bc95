//! The engines are right before they are measured: their bytes and numbers are the model's, from fresh boxes and on broken ones.
use common::Random;
use engines::persistent::Persistent;
use engines::{array, maps};
use model::image::{body, carry_out_restore, carry_out_save, header, room, HEADER};
use model::{carry_out, carry_out_many, carry_out_report, Call, Folder, Label, Lent, ManyAnswer, Numbers, Report};
use model::{CALLS, LABEL, REPORTS, ROW, STATE, STATE_LABEL, STATE_LIMIT};

/// A call by the functions of an engine's module.
macro_rules! by {
    ($engine:ident, $call:expr, $a:expr, $lent:expr) => {{
        let Lent { state, disk, flash, addresses, blocks, block, answer, label } = $lent;
        match $call {
            Call::Open => $engine::open(state, label, disk, flash, addresses, blocks),
            Call::Read => $engine::read(state, $a, disk, flash, addresses, blocks, block, answer),
            Call::Through(seat) => $engine::write_through(state, $a, seat, disk, flash, addresses, blocks, block, answer),
            Call::Back(seat) => $engine::write_back(state, $a, seat, disk, flash, addresses, blocks, block, answer),
            Call::Invalidate(seat) => $engine::write_invalidate(state, $a, seat, disk, flash, addresses, blocks, block, answer),
            Call::Flush => $engine::flush(state, disk, flash, addresses, blocks, answer),
            Call::FlushSome(most) => $engine::flush_some(state, most, disk, flash, addresses, blocks, answer),
            Call::Look => $engine::look(state, $a, disk, flash, addresses, blocks, answer),
        }
    }};
}

/// One call for a folder by the functions of an engine's module.
macro_rules! many_by {
    ($engine:ident, $lent:expr, $folder:expr) => {{
        let Lent { state, disk, flash, addresses, blocks, .. } = $lent;
        let Folder { asked, buffer, answer } = $folder;
        $engine::read_many(state, asked, disk, flash, addresses, blocks, buffer, answer)
    }};
}

/// A report by the functions of an engine's module: the number and the bytes.
macro_rules! report_by {
    ($engine:ident, $report:expr, $lent:expr, $bytes:expr) => {{
        let Lent { state, disk, flash, addresses, blocks, .. } = $lent;
        let mut bytes = $bytes.clone();
        let number = match $report {
            Report::Manager => $engine::manager_report(state, disk, flash, addresses, blocks, &mut bytes),
            Report::Desk => $engine::desk_report(state, disk, flash, addresses, blocks, &mut bytes),
        };
        (number, bytes)
    }};
}

/// Both reports of both engines are the model's, into bytes of the right length or of another. Gives the number of the last.
fn reports(random: &mut Random, lent: &Lent, context: &str) -> u32 {
    let mut number = 0;
    for report in REPORTS {
        let m = if lent.state.len() == STATE { lent.numbers().m.min(1_024) as usize } else { 3 };
        let length = (m * report.row() + (random.below(20) == 0) as usize).saturating_sub((random.below(20) == 0) as usize);
        let bytes = random.bytes(length);
        let mut expected = bytes.clone();
        number = carry_out_report(report, lent, &mut expected);
        assert_eq!(report_by!(maps, report, lent, bytes), (number, expected.clone()), "maps, {report:?}, {context}");
        assert_eq!(report_by!(array, report, lent, bytes), (number, expected), "array, {report:?}, {context}");
    }
    number
}

fn by_persistent(engine: &mut Persistent, call: Call, a: u32, lent: &mut Lent) -> u32 {
    let Lent { state, disk, flash, addresses, blocks, block, answer, .. } = lent;
    let number = match call {
        Call::Open => panic!("made by load"),
        Call::Read => engine.read(a, disk, flash, block, answer),
        Call::Through(seat) => engine.write_through(a, seat, disk, flash, block, answer),
        Call::Back(seat) => engine.write_back(a, seat, disk, flash, block, answer),
        Call::Invalidate(_) => engine.write_invalidate(a, disk, block, answer),
        Call::Flush => engine.flush(disk, flash, answer),
        Call::FlushSome(most) => engine.flush_some(most, disk, flash, answer),
        Call::Look => engine.look(a, answer),
    };
    engine.store(state, addresses, blocks);
    number
}

fn label(random: &mut Random) -> Label {
    random.bytes(LABEL).try_into().unwrap()
}

/// With any limit, that of m as often as all others.
fn unopened(random: &mut Random, b: usize, p: usize, m: usize, d: usize, contents: usize) -> Lent {
    let (n, counters) = (random.number(), [random.number(); 4]);
    let t = [m, 1 + random.below(m)][random.below(2)] as u64;
    let state = Numbers { b: b as u64, p: p as u64, m: m as u64, d: d as u64, n, counters, label: label(random), t };
    Lent {
        state: state.to_bytes(),
        disk: (0..p).flat_map(|_| vec![random.below(contents) as u8; b]).collect(),
        flash: random.bytes(d * b),
        addresses: random.bytes(m * ROW),
        blocks: random.bytes(d * ROW),
        block: random.bytes(b),
        answer: random.bytes(24),
        label: label(random).to_vec(),
    }
}

fn is(given: u32, lent: &Lent, number: u32, expected: &Lent, context: &str) {
    assert_eq!(given, number, "{context}");
    assert_eq!(lent.difference(expected), None, "{context}");
}

/// A copy of a box with a byte changed, the label's among them, or a length, or another limit, which may be below the dirty rows.
fn broken_copy(random: &mut Random, lent: &Lent) -> Lent {
    let mut bad = lent.clone();
    let Lent { state, disk, flash, addresses, blocks, block, answer, label } = &mut bad;
    let changed = match random.below(11) {
        0..=2 => &mut addresses[..],
        3..=5 => &mut blocks[..],
        6 => &mut state[..STATE_LABEL.start],
        7 => &mut state[STATE_LABEL],
        8 => {
            // Also one less than the dirty rows.
            let dirty = addresses.chunks_exact(ROW).filter(|row| row[36] == 1).count() as u64;
            let t = [random.below(4) as u64, dirty.saturating_sub(1)][random.below(2)];
            state[STATE_LIMIT].copy_from_slice(&t.to_le_bytes());
            return bad;
        }
        9 => {
            label.resize([0, 63, 65, 128][random.below(4)], 0);
            return bad;
        }
        _ => {
            [disk, flash, addresses, blocks, block, state, answer][random.below(7)].pop();
            return bad;
        }
    };
    changed[random.below(changed.len())] ^= 1 << random.below(8);
    bad
}

#[test]
fn lists_and_broken_boxes() {
    let seed = 21;
    let mut random = Random(seed);
    let (mut calls, mut broken, mut numbers, mut reported) = (0, 0, [0; 14], [0; 14]);
    for round in 0..300 {
        let b = [64, 128, 256][random.below(3)];
        // A few large tables among the small ones.
        let (most_p, most_m, most_d) = if round % 50 == 0 { (600, 400, 200) } else { (14, 8, 6) };
        let (p, m, d) = (1 + random.below(most_p), 1 + random.below(most_m), 1 + random.below(most_d));
        let contents = 1 + random.below(2 * d.min(100));
        let mut expected = unopened(&mut random, b, p, m, d, contents);
        let [mut one, mut two] = [expected.clone(), expected.clone()];
        assert_eq!(carry_out(Call::Open, 0, &mut expected), 0);
        is(by!(maps, Call::Open, 0, &mut one), &one, 0, &expected, "maps, opening");
        is(by!(array, Call::Open, 0, &mut two), &two, 0, &expected, "array, opening");
        let mut three = expected.clone();
        let mut persistent = Persistent::load(&three.state, &three.addresses, &three.blocks);
        for turn in 0..200 {
            // A write back more often than each of the others, so that more than one row is dirty.
            let call = [CALLS[1 + random.below(7)], Call::Back(0)][random.below(4) / 3].by_seat(random.number() as u16);
            let a = random.below(p + 1) as u32;
            let context = format!("{call:?} {a}, turn {turn} of round {round}, seed {seed}");
            expected.block = vec![random.below(contents) as u8; b];
            for lent in [&mut one, &mut two, &mut three] {
                lent.block.clone_from(&expected.block);
            }
            if random.below(8) < 5 {
                let mut bad = broken_copy(&mut random, &expected);
                let call = CALLS[random.below(8)];
                reported[reports(&mut random, &bad, &format!("broken, {context}")) as usize] += 1;
                let [mut first, mut second] = [bad.clone(), bad.clone()];
                let number = carry_out(call, a, &mut bad);
                is(by!(maps, call, a, &mut first), &first, number, &bad, &format!("maps, broken, {context}"));
                is(by!(array, call, a, &mut second), &second, number, &bad, &format!("array, broken, {context}"));
                numbers[number as usize] += 1;
                broken += 1;
            }
            let number = carry_out(call, a, &mut expected);
            is(by!(maps, call, a, &mut one), &one, number, &expected, &format!("maps, {context}"));
            is(by!(array, call, a, &mut two), &two, number, &expected, &format!("array, {context}"));
            if number == 0 {
                is(by_persistent(&mut persistent, call, a, &mut three), &three, 0, &expected, &format!("persistent, {context}"));
            }
            reported[reports(&mut random, &expected, &context) as usize] += 1;
            calls += 1;
        }
    }
    println!("{calls} calls by three engines and {broken} broken boxes by two agree with the model (seed {seed}); numbers {numbers:?}");
    println!("  reports after each call and on each broken box, by two engines: numbers {reported:?}");
    assert!([0, 1, 2, 6, 7, 12, 13].iter().all(|number| reported[*number] > 100), "a refusal of a report is hardly met: {reported:?}");
}

/// A sound box of any fingerprints that agree in their first `same` bytes. About half of the held rows are dirty, and some clean ones have no block. Its limit
/// is the number of dirty rows, or more.
fn crafted(random: &mut Random, same: usize) -> Lent {
    let (b, p, m, d) = (64, 1 + random.below(60), 1 + random.below(40), 1 + random.below(40));
    let start = random.bytes(same);
    let prints: Vec<Vec<u8>> = (0..d + 4).map(|_| [&start[..], &random.bytes(32 - same)].concat()).collect();
    let used = random.below(d + 1);
    let mut lent = unopened(random, b, p, m, d, 2 * d);
    let n = random.below(m.min(p) + 1);
    lent.addresses.fill(0);
    for (k, row) in lent.addresses.chunks_exact_mut(ROW).take(n).enumerate() {
        let print = random.below(prints.len());
        row[..4].copy_from_slice(&((k * 7 % p.max(n)) as u32).to_le_bytes());
        row[4..36].copy_from_slice(&prints[print]);
        row[36] = (print < used && random.below(2) == 0) as u8;
        row[37..39].copy_from_slice(&(random.number() as u16).to_le_bytes());
    }
    let dirty = lent.addresses.chunks_exact(ROW).filter(|row| row[36] == 1).count().max(1);
    let t = [dirty, dirty + random.below(m + 1 - dirty)][random.below(2)] as u64;
    lent.state = Numbers { n: n as u64, counters: [7; 4], t, ..lent.numbers() }.to_bytes();
    lent.blocks.fill(0);
    for (k, row) in lent.blocks.chunks_exact_mut(ROW).enumerate() {
        row[32..36].copy_from_slice(&((d - 1 - k) as u32).to_le_bytes());
        if k >= d - used {
            row[..32].copy_from_slice(&prints[k - (d - used)]);
            row[36] = 1;
        }
    }
    lent
}

#[test]
fn fingerprints_with_one_beginning() {
    let seed = 22;
    let mut random = Random(seed);
    let mut numbers = [0; 14];
    for round in 0..20_000 {
        let mut expected = crafted(&mut random, [2, 4, 8, 31][round % 4]);
        // In some tables a block row gets the fingerprint of another, or another last byte, or a held row is dirty whatever it has, or the limit is less.
        let (m, d) = (expected.addresses.len() / ROW, expected.blocks.len() / ROW);
        match random.below(7) {
            0 => {
                let (from, to) = (random.below(d) * ROW, random.below(d) * ROW);
                expected.blocks.copy_within(from..from + 32, to);
            }
            1 => expected.blocks[random.below(d) * ROW + 31] ^= 1 << random.below(8),
            2 => expected.addresses[random.below(m) * ROW + 36] = 1,
            3 => expected.state = Numbers { t: expected.numbers().t - 1, ..expected.numbers() }.to_bytes(),
            _ => {}
        }
        let call = CALLS[1 + random.below(7)].by_seat(random.number() as u16);
        let a = random.below(expected.disk.len() / 64 + 1) as u32;
        let [mut one, mut two] = [expected.clone(), expected.clone()];
        let number = carry_out(call, a, &mut expected);
        let context = format!("{call:?} {a}, round {round}, seed {seed}");
        is(by!(maps, call, a, &mut one), &one, number, &expected, &format!("maps, {context}"));
        is(by!(array, call, a, &mut two), &two, number, &expected, &format!("array, {context}"));
        numbers[number as usize] += 1;
    }
    println!("20000 calls on crafted tables by two engines agree with the model (seed {seed}); numbers {numbers:?}");
    assert!([0, 3, 6, 7, 8, 12, 13].iter().all(|number| numbers[*number] > 100), "a refusal is hardly met: {numbers:?}");
}

/// Folders on crafted tables, most of them sound: slots have other blocks than their rows say, so that a repeat that misses shows what it takes.
#[test]
fn folders() {
    let seed = 23;
    let mut random = Random(seed);
    let (mut numbers, mut missed_repeats) = ([0; 14], 0);
    for round in 0..20_000 {
        let mut expected = crafted(&mut random, [2, 4, 8, 31][round % 4]);
        let (p, d) = (expected.disk.len() / 64, expected.blocks.len() / ROW);
        match random.below(12) {
            0 => expected.state[random.below(STATE_LABEL.start)] ^= 1 << random.below(8),
            1 => expected.blocks[random.below(d * ROW)] ^= 1,
            2 => {
                let Lent { state, disk, flash, addresses, blocks, .. } = &mut expected;
                [disk, flash, addresses, blocks, state][random.below(5)].pop();
            }
            3 => expected.state = Numbers { t: expected.numbers().t - 1, ..expected.numbers() }.to_bytes(),
            _ => {}
        }
        let few = 1 + random.below(p.min(6));
        let count = [random.below(71), random.below(12)][random.below(2)];
        let mut many = Folder { asked: (0..count).map(|_| random.below(few) as u32).collect(), buffer: random.bytes(count * 64), answer: random.bytes(32) };
        if count > 0 && random.below(20) == 0 {
            many.asked[random.below(count)] = p as u32;
        }
        if random.below(20) == 0 {
            [&mut many.buffer, &mut many.answer][random.below(2)].pop();
        }
        let [mut one, mut two] = [(expected.clone(), many.clone()), (expected.clone(), many.clone())];
        let number = carry_out_many(&mut expected, &mut many);
        let context = format!("round {round}, seed {seed}");
        is(many_by!(maps, &mut one.0, &mut one.1), &one.0, number, &expected, &format!("maps, {context}"));
        is(many_by!(array, &mut two.0, &mut two.1), &two.0, number, &expected, &format!("array, {context}"));
        assert!(one.1 == many && two.1 == many, "{context}");
        numbers[number as usize] += 1;
        if number == 0 {
            let ManyAnswer { hits, fetches, .. } = ManyAnswer::from_bytes(&many.answer);
            missed_repeats += count as u64 - hits - fetches;
        }
    }
    println!("20000 folders on crafted tables by two engines agree with the model (seed {seed}); numbers {numbers:?}, {missed_repeats} repeats that miss");
    assert!([0, 1, 2, 3, 6, 7, 10, 12, 13].iter().all(|number| numbers[*number] > 50) && missed_repeats > 1_000, "hardly met: {numbers:?}, {missed_repeats}");
}

/// Saves of crafted boxes, and restores of them: numbers, boxes and areas are the model's. Some boxes are broken, some areas short or of other bytes.
#[test]
fn images() {
    let seed = 24;
    let mut random = Random(seed);
    let (mut saves, mut restores) = ([0; 17], [0; 17]);
    for round in 0..20_000 {
        let context = format!("round {round}, seed {seed}");
        let right = crafted(&mut random, [2, 4, 8, 31][round % 4]);
        let (m, d) = (right.addresses.len() / ROW, right.blocks.len() / ROW);
        let mut expected = if random.below(3) == 0 { broken_copy(&mut random, &right) } else { right.clone() };
        let (more, less) = (random.below(100), random.below(60));
        let mut area = random.bytes(room(m, d) + more - less);
        let [mut one, mut two] = [(expected.clone(), area.clone()), (expected.clone(), area.clone())];
        let number = carry_out_save(&mut expected, &mut area);
        for (name, save, (lent, into)) in [("maps", maps::save as Save, &mut one), ("array", array::save as Save, &mut two)] {
            let Lent { state, disk, flash, addresses, blocks, answer, .. } = &mut *lent;
            is(save(state, disk, flash, addresses, blocks, into, answer), lent, number, &expected, &format!("{name}, a save, {context}"));
            assert!(*into == area, "{name}, the area of a save, {context}");
        }
        saves[number as usize] += 1;

        // An image of the box as it is, dirty rows and all, with a byte changed now and then, often in its header or its numbers.
        let body = body(&right);
        let mut area = [&header(body.len() as u32)[..], &body, &random.bytes(room(m, d) - HEADER - body.len())].concat();
        if random.below(2) == 0 {
            let end = [HEADER, HEADER + 28, area.len()][random.below(3)];
            area[random.below(end)] ^= 1 << random.below(8);
        }
        area.truncate(area.len() - [0, 0, 0, 1, 64][random.below(5)]);
        let mut expected = Lent { state: random.bytes(STATE), addresses: random.bytes(m * ROW), blocks: random.bytes(d * ROW), ..right };
        let lists = vec![9; (random.below(8) == 0) as usize];
        if random.below(8) == 0 {
            [&mut expected.addresses, &mut expected.blocks, &mut expected.state][random.below(3)].pop();
        }
        let [mut one, mut two] = [(expected.clone(), area.clone()), (expected.clone(), area.clone())];
        let number = carry_out_restore(&mut expected, &mut area, lists.len());
        for (name, restore, (lent, from)) in [("maps", maps::restore as Restore, &mut one), ("array", array::restore as Restore, &mut two)] {
            let Lent { state, addresses, blocks, .. } = &mut *lent;
            is(restore(state, from, addresses, blocks, &lists), lent, number, &expected, &format!("{name}, a restore, {context}"));
            assert!(*from == area, "{name}, the area of a restore, {context}");
        }
        restores[number as usize] += 1;
    }
    println!("20000 saves and restores by two engines agree with the model (seed {seed}); numbers {saves:?} and {restores:?}");
    assert!([0, 2, 6, 7, 12, 13, 14].iter().all(|number| saves[*number] > 50), "a refusal of a save is hardly met: {saves:?}");
    assert!([0, 2, 14, 15, 16].iter().all(|number| restores[*number] > 500), "a refusal of a restore is hardly met: {restores:?}");
}

type Save = fn(&mut [u8], &mut [u8], &[u8], &mut [u8], &[u8], &mut [u8], &mut [u8]) -> u32;
type Restore = fn(&mut [u8], &mut [u8], &mut [u8], &mut [u8], &[u8]) -> u32;

/// Exam questions, right and wrong: the number and the counts are the model's.
#[test]
fn exam_questions() {
    let mut random = Random(127);
    let mut refused = 0;
    for _ in 0..3_000 {
        let [p, m, d, k] = [1 + random.below(5), random.below(6), 1 + random.below(5), random.below(6)];
        let contents: Vec<u8> = (0..p).map(|_| random.below(3) as u8).collect();
        let disk = contents.iter().flat_map(|byte| vec![*byte; 64]).collect();
        let k = if random.below(20) == 0 { 9 } else { k };
        let [label, counts] = [64, 72].map(|length| vec![7; length - (random.below(20) == 0) as usize]);
        // Mostly of 1 to m.
        let t = if random.below(10) == 0 { [0, m + 1][random.below(2)] } else { 1 + random.below(m.max(1)) };
        let mut expected = model::exam::Question { b: 64, p, m, d, t, label, disk, k, counts };
        let mut q = expected.clone();
        let number = model::exam::carry_out_question(&mut expected);
        assert_eq!(engines::scores::scores([64, p, m, d, t], &q.label, &q.disk, k, &mut q.counts), number, "{expected:?}");
        assert_eq!(q, expected);
        refused += (number != 0) as usize;
    }
    assert!((300..2_700).contains(&refused), "{refused} refused");
}
