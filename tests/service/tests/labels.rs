//! The office's label: two offices with equal pages, each bit of the label, refused openings, what the calls do with the label, and a label that was damaged
//! between two calls.
use common::Random;
use model::{fingerprint, read_tables, Answer, Call, Fingerprint, Label, Lent, Numbers};
use model::{BLOCK_SIZES, CALLS, HIT, LABEL, ROW, SAME, STATE, STATE_LABEL, ZEROS};
use service::asked::{answered, ask, Asked};
use service::boxes::{any_label, damage, fill, folder, office, pick, pick_call, sound, unopened, Contents, Counts, Shape, DAMAGES};
use service::calls::call;
use service::compare::{compare, compare_many};
use service::progress::{count, seed, Progress};
use std::collections::HashSet;

/// The fingerprints of the held rows and of the used block rows, in the order of the rows.
fn fingerprints(lent: &Lent) -> Vec<Fingerprint> {
    let (rows, blocks) = read_tables(lent);
    let held = rows[..lent.numbers().n as usize].iter().map(|row| row.fingerprint);
    held.chain(blocks.iter().filter(|row| row.used == 1).map(|row| row.fingerprint)).collect()
}

/// A box with zeros for its label and for each fingerprint: what two offices with equal pages have in common.
fn without_fingerprints(lent: &Lent) -> Lent {
    let mut lent = lent.clone();
    lent.state[STATE_LABEL].fill(0);
    lent.label.fill(0);
    lent.addresses.chunks_exact_mut(ROW).for_each(|row| row[4..36].fill(0));
    lent.blocks.chunks_exact_mut(ROW).for_each(|row| row[..32].fill(0));
    lent
}

/// A label that is not the given one: any other, or the same but for one bit.
fn other_label(random: &mut Random, label: Label) -> Label {
    let mut other = if random.below(2) == 0 { label } else { any_label(random) };
    if other == label {
        other[random.below(LABEL)] ^= 1 << random.below(8);
    }
    other
}

/// What the lists of two offices have met.
#[derive(Default)]
struct Met {
    calls: usize,
    refused: usize,
    hits: usize,
    same: usize,
    fingerprints: usize,
}

/// The same list for two offices with equal pages. Answers, counts, rows and blocks are the same; the fingerprints of one office are never the other's.
/// A third box, under the first one's label, has the first one's bytes, whatever label its state had before its opening.
fn two_offices(random: &mut Random, shape: Shape, length: usize, met: &mut Met, seed: u64) {
    let pool = 1 + random.below(2 * shape.d + 2);
    let contents = Contents::new(random, shape.b, pool);
    let mut one = unopened(random, shape, &contents);
    let (mut two, mut twin) = (one.clone(), one.clone());
    two.label = other_label(random, office(&one)).to_vec();
    fill(random, &mut twin.state[STATE_LABEL]);
    assert_eq!([&mut one, &mut two, &mut twin].map(|lent| call(Call::Open, 0, lent)), [0; 3]);
    let (mut of_one, mut of_two) = (HashSet::new(), HashSet::new());
    for turn in 0..length {
        let asked = ask(random, shape, &contents);
        let context = format!("call {turn}, {shape:?}, seed {seed}");
        let (number, answer, block) = answered(&mut one, &asked);
        for (lent, which) in [(&mut two, "the other office"), (&mut twin, "the same label")] {
            assert!(answered(lent, &asked) == (number, answer.clone(), block.clone()), "answer, {which}, {context}");
        }
        assert_eq!(without_fingerprints(&two).difference(&without_fingerprints(&one)), None, "the other office, {context}");
        assert_eq!(twin.difference(&one), None, "the same label, {context}");
        of_one.extend(fingerprints(&one));
        of_two.extend(fingerprints(&two));
        assert!(of_one.is_disjoint(&of_two), "a fingerprint of both offices, {context}");
        met.calls += 1;
        met.refused += (number != 0) as usize;
        if let Asked::One(kind, ..) = asked {
            let word = Answer::from_bytes(&answer).word;
            met.hits += (number == 0 && kind == Call::Read && word == HIT) as usize;
            met.same += (number == 0 && kind.is_write() && word == SAME) as usize;
        }
    }
    assert_eq!(of_one.len(), of_two.len(), "different fingerprints, {shape:?}, seed {seed}");
    met.fingerprints += of_one.len();
}

#[test]
fn equal_pages_of_two_offices() {
    let (seed, total) = (seed(601), count(30_000));
    let mut random = Random(seed);
    let (mut met, mut lists) = (Met::default(), 0);
    let mut progress = Progress::new("two offices", total);
    while met.calls < total {
        let b = pick(&mut random, &[64, 64, 128, 256, 1_024]);
        let most = pick(&mut random, &[Shape { b, p: 5, m: 4, d: 3 }, Shape { b, p: 20, m: 10, d: 6 }, Shape { b, p: 60, m: 40, d: 24 }]);
        let shape = Shape::below(&mut random, most);
        two_offices(&mut random, shape, 100, &mut met, seed);
        lists += 1;
        progress.at(met.calls);
    }
    let Met { calls, refused, hits, same, fingerprints } = met;
    println!("{calls} calls in {lists} lists for two offices with equal pages (seed {seed}, {:.1} s)", progress.seconds());
    println!("  {hits} hits, {same} writes of a content in flash, {refused} refused: the same for both, with the same disk, flash and rows");
    println!("  none of {fingerprints} fingerprints of one office is one of the other; a box under the same label has the same bytes");
    assert!([refused, hits, same, fingerprints].iter().all(|count| *count > total / 100));
}

/// A box under a label after some reads and writes of different contents.
fn under(label: Label, b: usize) -> Lent {
    let shape = Shape { b, p: 4, m: 3, d: 2 };
    let mut lent = Lent {
        state: shape.numbers(ZEROS).to_bytes(),
        disk: (0..4u8).flat_map(|k| vec![k; b]).collect(),
        flash: vec![0; 2 * b],
        addresses: vec![0; 3 * ROW],
        blocks: vec![0; 2 * ROW],
        block: vec![9; b],
        answer: vec![0; 24],
        label: label.to_vec(),
    };
    assert_eq!([(Call::Open, 0), (Call::Through(1), 0), (Call::Read, 1), (Call::Read, 2)].map(|(kind, a)| call(kind, a, &mut lent)), [0; 4]);
    lent
}

/// Each of the 512 bits of a label is in every fingerprint, for each size of a block.
#[test]
fn every_bit_of_a_label() {
    let seed = seed(602);
    let mut random = Random(seed);
    let mut compared = 0;
    for b in BLOCK_SIZES {
        let label = any_label(&mut random);
        let first = fingerprints(&under(label, b));
        assert_eq!(first, [9, 1, 2, 1, 2].map(|k| fingerprint(&label, &vec![k; b])), "B = {b}, seed {seed}");
        for bit in 0..8 * LABEL {
            let mut other = label;
            other[bit / 8] ^= 1 << (bit % 8);
            let second = fingerprints(&under(other, b));
            assert!(second.len() == 5 && second.iter().all(|g| !first.contains(g)), "bit {bit}, B = {b}, seed {seed}");
            compared += second.len();
        }
    }
    println!("each of the 512 bits of a label changes every fingerprint: {compared} fingerprints of blocks of every size (seed {seed})");
}

/// The box as a refused opening must leave it, said without the model: n and the state's label are zeros, and nothing else is another.
fn after_refused(before: &Lent) -> Lent {
    let mut expected = before.clone();
    expected.state[32..40].fill(0);
    expected.state[STATE_LABEL].fill(0);
    expected
}

/// Every length of a label up to 200, alone and with numbers that are refused with 1 or 12 before it; each other length that is not right; a number outside its
/// set.
#[test]
fn refused_openings() {
    let seed = seed(603);
    let mut random = Random(seed);
    let mut openings = 0;
    let mut opened = |mut lent: Lent, number: u32, context: &str| {
        let expected = after_refused(&lent);
        assert_eq!(compare(Call::Open, 0, &mut lent, random.below(32), &|| context.to_string()), number, "{context}, seed {seed}");
        assert_eq!(lent.difference(&expected), None, "{context}, seed {seed}");
        openings += 1;
    };
    for b in BLOCK_SIZES {
        let mut before = under([0x77; LABEL], b);
        assert!(before.numbers().n == 3 && before.numbers().counters[0] == 2);
        before.label = vec![0x33; LABEL];
        for length in (0..=200).filter(|length| *length != LABEL) {
            let label = vec![0x33; length];
            opened(Lent { label: label.clone(), ..before.clone() }, 2, &format!("a label of {length} bytes"));
            let state = Numbers { m: 1_025, ..before.numbers() }.to_bytes();
            opened(Lent { label: label.clone(), state, ..before.clone() }, 1, &format!("m is 1,025, and a label of {length} bytes"));
            let state = Numbers { t: 4, ..before.numbers() }.to_bytes();
            opened(Lent { label, state, ..before.clone() }, 12, &format!("the limit is 4, and a label of {length} bytes"));
        }
        opened(Lent { disk: vec![0; 4 * b + 1], ..before.clone() }, 2, "the disk's length");
        opened(Lent { flash: vec![0; b], ..before.clone() }, 2, "the flash's length");
        opened(Lent { addresses: vec![7; 2 * ROW], ..before.clone() }, 2, "the address table's length");
        opened(Lent { blocks: vec![], ..before.clone() }, 2, "the block table's length");
        opened(Lent { state: Numbers { d: 0, ..before.numbers() }.to_bytes(), ..before.clone() }, 1, "d is 0");
    }
    println!("{openings} refused openings leave n = 0, a label of zeros and all other bytes (seed {seed})");
}

/// A state that has not 144 bytes is not looked at, and the label is not put there; the 72 bytes of a state without a label, and the 136 of one without a
/// limit, are no state.
#[test]
fn states_of_other_lengths() {
    for length in (0..STATE).chain([STATE + 1, STATE + 8, 200, 2 * STATE]) {
        let mut lent = under([0x77; LABEL], 64);
        lent.state.resize(length, 0xB7);
        for label in [LABEL, LABEL - 1] {
            lent.label = vec![0x33; label];
            let kept = lent.clone();
            for kind in CALLS {
                assert_eq!(compare(kind, 1, &mut lent, length % 32, &|| format!("a state of {length} bytes")), 2);
                assert_eq!(lent.difference(&kept), None, "{kind:?}, a state of {length} bytes");
            }
        }
    }
    println!("states of 0 to 143 bytes and of more than 144 give 2 and keep their bytes");
}

/// After a refused opening of a box without rows the label is zeros, and the calls that follow hash with it; an opening gives the box its label again.
#[test]
fn zeros_after_a_refused_opening() {
    let b = 64;
    let mut lent = under([0x77; LABEL], b);
    let label = lent.label.clone();
    assert_eq!(call(Call::Open, 0, &mut lent), 0);
    lent.label.pop();
    assert_eq!(call(Call::Open, 0, &mut lent), 2);
    for expected in [ZEROS, [0x77; LABEL]] {
        assert_eq!(compare(Call::Read, 3, &mut lent, 3, &|| "after an opening".to_string()), 0);
        assert_eq!(fingerprints(&lent), [fingerprint(&expected, &[3; 64]); 2]);
        lent.label.clone_from(&label);
        assert_eq!(call(Call::Open, 0, &mut lent), 0);
    }
    assert_eq!(lent.state[STATE_LABEL], label);
    println!("reads under the label of zeros that a refused opening leaves, and under the label of the next opening");
}

/// Calls and folders, served and refused, on sound boxes and damaged ones: none of them changes a byte of the state's label.
#[test]
fn calls_keep_the_label() {
    let (seed, total) = (seed(604), count(30_000));
    let mut random = Random(seed);
    let mut numbers = Counts::default();
    let mut progress = Progress::new("calls keep the label", total);
    for turn in 0..total {
        let shape = Shape::below(&mut random, Shape { b: 64, p: 10, m: 6, d: 5 });
        let mut lent = sound(&mut random, shape);
        let mut address = random.below(shape.p) as u32;
        if random.below(2) == 0 {
            let kind = pick(&mut random, &DAMAGES).0;
            damage(&mut random, &mut lent, &mut address, kind);
        }
        let label = lent.numbers().label;
        let context = || format!("turn {turn}, {shape:?}, seed {seed}");
        let number = if random.below(8) == 0 {
            let mut many = folder(&mut random, &[address], shape.b, 3);
            compare_many(&mut lent, &mut many, random.below(32), &context)
        } else {
            let kind = pick_call(&mut random, &CALLS[1..]);
            compare(kind, address, &mut lent, random.below(32), &context)
        };
        assert_eq!(lent.state[STATE_LABEL], label, "{}", context());
        numbers[number as usize] += 1;
        progress.at(turn);
    }
    println!("{total} calls keep the label: {} served, {} refused (seed {seed}, {:.1} s)", numbers[0], total - numbers[0], progress.seconds());
    assert!([0, 1, 2, 3, 6, 7, 8, 9, 12, 13].iter().all(|number| numbers[*number] > total / 1_000), "{numbers:?}");
}

/// Changes the label in the state: a byte, all of it, to zeros, to the first label again, or two bytes exchanged.
fn change_label(random: &mut Random, lent: &mut Lent, first: Label) {
    let label = &mut lent.state[STATE_LABEL];
    match random.below(5) {
        0 => label[random.below(LABEL)] ^= 1 << random.below(8),
        1 => fill(random, label),
        2 => label.fill(0),
        3 => label.copy_from_slice(&first),
        _ => label.swap(random.below(LABEL), random.below(LABEL)),
    }
}

/// What the lists with changed labels have met.
#[derive(Default)]
struct Changed {
    calls: usize,
    changes: usize,
    hits: usize,
    /// Rows at the end of a list whose fingerprint is that of no content under the label of then.
    of_another: usize,
}

/// A list in which the label in the state is changed between two calls.
fn with_changes(random: &mut Random, shape: Shape, met: &mut Changed, seed: u64) {
    let contents = Contents::new(random, shape.b, 1 + shape.d);
    let mut lent = unopened(random, shape, &contents);
    let label = office(&lent);
    assert_eq!(compare(Call::Open, 0, &mut lent, 1, &|| format!("opening {shape:?}, seed {seed}")), 0);
    for turn in 0..50 {
        if random.below(3) == 0 {
            change_label(random, &mut lent, label);
            met.changes += 1;
        }
        let context = || format!("call {turn}, {shape:?}, seed {seed}");
        let number = match ask(random, shape, &contents) {
            Asked::One(kind, address, block) => {
                lent.block = block;
                let number = compare(kind, address, &mut lent, random.below(32), &context);
                met.hits += (number == 0 && kind == Call::Read && Answer::from_bytes(&lent.answer).word == HIT) as usize;
                number
            }
            Asked::Many(mut folder) => compare_many(&mut lent, &mut folder, random.below(32), &context),
        };
        assert!([0, 2, 3, 10].contains(&number), "{number}, {}", context());
        met.calls += 1;
    }
    let present: HashSet<Fingerprint> = contents.blocks.iter().map(|block| fingerprint(&lent.numbers().label, block)).collect();
    met.of_another += fingerprints(&lent).iter().filter(|g| !present.contains(*g)).count();
}

/// What was hashed before a change keeps its fingerprint, and each call is the model's, byte by byte.
#[test]
fn damaged_labels() {
    let (seed, total) = (seed(605), count(40_000));
    let mut random = Random(seed);
    let mut met = Changed::default();
    let mut progress = Progress::new("damaged labels", total);
    while met.calls < total {
        let b = pick(&mut random, &[64, 64, 128, 256]);
        let shape = Shape::below(&mut random, Shape { b, p: 12, m: 8, d: 6 });
        with_changes(&mut random, shape, &mut met, seed);
        progress.at(met.calls);
    }
    let Changed { calls, changes, hits, of_another } = met;
    println!("{calls} calls agree with the model in every byte while the label was changed {changes} times (seed {seed}, {:.1} s)", progress.seconds());
    println!("  {hits} hits; {of_another} rows had a fingerprint under another label than the last");
    assert!([changes, hits, of_another].iter().all(|count| *count > total / 50));
}
