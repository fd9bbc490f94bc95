//! D-ARC boxes by the model: the worked states and refusals of crates/arc/specs, cases worked out by hand from document 02, and the laws of U5 on random lists.
use model::arc::worked::{play, B};
use model::arc::{carry_out, carry_out_many, carry_out_report, refusal, refusal_many, refusal_report, ArcLent, ArcNumbers, WORD};
use model::{AddressRow, Answer, BlockRow, Call, Folder, Lent, Report, ANSWER, CALLS, HIT, LABEL, MANY_ANSWER, ROW};

#[test]
fn worked_states() {
    let (states, calls) = play(carry_out, carry_out_many);
    println!("{calls} calls lead to {states} worked states of D-ARC, and answer as these say");
}

/// The box of crates/arc/specs/ArcRefused.antt: B 64, P 4, C 2, X 1, so m is 5; rows by address, byte of the fingerprint and dirty byte.
fn refused_box(rows: &[(u32, u8, u8)], sizes: [u64; 5], adaptive: u64, names: &[u32]) -> ArcLent {
    let row = |(address, print, dirty): &(u32, u8, u8)| AddressRow { address: *address, fingerprint: [*print; 32], dirty: *dirty, seat: 0x0807, padding: 0 };
    let mut addresses: Vec<u8> = rows.iter().flat_map(|given| row(given).to_bytes()).collect();
    addresses.resize(5 * ROW, 0);
    let mut lists: Vec<u8> = names.iter().flat_map(|name| name.to_le_bytes()).collect();
    lists.resize(5 * WORD, 0);
    let state = ArcNumbers { b: 64, p: 4, c: 2, x: 1, n: rows.len() as u64, counters: [0; 4], label: [0; LABEL], t: 5, adaptive, sizes };
    let blocks = [(1, 0), (2, 1)].map(|(print, slot)| BlockRow { fingerprint: [print; 32], slot, used: 1, padding: [0; 3] }.to_bytes()).concat();
    let filled = |from: u8, count: u8| (from..from + count).flat_map(|k| [k; B]).collect::<Vec<u8>>();
    let (block, answer) = (vec![0; B], vec![0; ANSWER]);
    ArcLent { base: Lent { state: state.to_bytes(), disk: filled(4, 4), flash: filled(8, 2), addresses, blocks, block, answer, label: vec![7; LABEL] }, lists }
}

/// Address 0 is without its block; 1 is dirty; 3 is clean.
const THREE: [(u32, u8, u8); 3] = [(0, 3, 0), (1, 1, 1), (3, 2, 0)];
/// All four are held, with their blocks; and two of them dirty.
const FOUR: [(u32, u8, u8); 4] = [(0, 1, 0), (1, 1, 1), (2, 2, 0), (3, 2, 0)];
const DIRTY_TWO: [(u32, u8, u8); 4] = [(0, 1, 1), (1, 1, 1), (2, 2, 0), (3, 2, 0)];

/// T1 has 1, T2 has 3, B1 has 0.
fn right() -> ArcLent {
    refused_box(&THREE, [1, 1, 1, 0, 0], 1, &[1, 3, 0])
}

/// Address 0, in T1, is without its block.
fn uncached() -> ArcLent {
    refused_box(&THREE, [1, 1, 1, 0, 0], 1, &[0, 3, 1])
}

fn dirty_two() -> ArcLent {
    refused_box(&DIRTY_TWO, [2, 1, 1, 0, 0], 0, &[0, 1, 2, 3])
}

/// A box with something changed.
fn with(mut lent: ArcLent, change: impl Fn(&mut ArcLent)) -> ArcLent {
    change(&mut lent);
    lent
}

fn limit(lent: ArcLent, t: u64) -> ArcLent {
    let numbers = ArcNumbers { t, ..lent.numbers() };
    with(lent, |lent| lent.base.state = numbers.to_bytes())
}

/// The right box with other numbers, for openings.
fn numbered(b: u64, p: u64, c: u64, x: u64) -> ArcLent {
    let numbers = ArcNumbers { b, p, c, x, t: 2 * c + x, ..right().numbers() };
    with(right(), |lent| lent.base.state = numbers.to_bytes())
}

/// The cases of `table` in ArcRefused.antt about the lists, each asked by a read of address 1.
fn refused_lists() -> Vec<(ArcLent, u32)> {
    let three = |sizes: [u64; 5], adaptive: u64, names: &[u32]| refused_box(&THREE, sizes, adaptive, names);
    let four = |sizes: [u64; 5]| refused_box(&FOUR, sizes, 0, &[0, 1, 2, 3]);
    let list = |place: usize| with(right(), |lent| lent.lists[place] = 1);
    vec![
        (right(), 0),
        // 6: an address that is held isn't named, or named twice, in one list or two
        (three([1, 1, 0, 0, 0], 1, &[1, 3]), 6),
        (three([2, 1, 1, 0, 0], 1, &[1, 1, 3, 0]), 6),
        (three([1, 1, 1, 1, 0], 1, &[1, 3, 0, 0]), 6),
        // one that isn't held is named; so is one beyond the disk
        (three([1, 1, 1, 1, 0], 1, &[1, 3, 0, 2]), 6),
        (three([1, 1, 1, 0, 0], 1, &[1, 2, 0]), 6),
        (list(7), 6),
        // T1, T2 and B3 hold more than C + X; B1 and B2 more than C
        (four([2, 1, 1, 0, 0]), 0),
        (four([2, 2, 0, 0, 0]), 6),
        (four([2, 1, 0, 0, 1]), 6),
        (four([1, 0, 2, 1, 0]), 6),
        (four([1, 1, 1, 1, 0]), 0),
        // a nonzero byte after them
        (list(12), 6),
        (list(19), 6),
        // p above C
        (three([1, 1, 1, 0, 0], 2, &[1, 3, 0]), 0),
        (three([1, 1, 1, 0, 0], 3, &[1, 3, 0]), 6),
        // 8: address 0, in T1 or T2, is without its block
        (three([1, 1, 1, 0, 0], 1, &[0, 3, 1]), 8),
        (three([1, 1, 1, 0, 0], 1, &[1, 0, 3]), 8),
        (three([1, 1, 0, 1, 0], 1, &[1, 3, 0]), 0),
        (three([1, 1, 0, 0, 1], 1, &[1, 3, 0]), 0),
        // 6 comes before 8
        (three([1, 1, 1, 0, 0], 3, &[0, 3, 1]), 6),
    ]
}

/// The others.
fn refused_reads() -> Vec<(ArcLent, u32)> {
    let padding = |row: usize, place: usize| with(right(), |lent| lent.base.addresses[row * ROW + 37 + place] = 1);
    let short = with(right(), |lent| lent.lists.truncate(19));
    let uncached_dirty = refused_box(&[(0, 3, 1), (1, 1, 1), (3, 2, 0)], [1, 1, 1, 0, 0], 1, &[1, 3, 0]);
    vec![
        // seats
        (padding(0, 0), 0),
        (padding(2, 1), 0),
        (padding(0, 2), 6),
        (padding(3, 0), 6),
        (padding(3, 1), 6),
        // 2: the lists' buffer is a byte short or long
        (short.clone(), 2),
        (with(right(), |lent| lent.lists.push(0)), 2),
        // 12: before 2
        (limit(right(), 0), 12),
        (limit(right(), 1), 0),
        (limit(right(), 6), 12),
        (limit(short, 6), 12),
        // 13: after 8
        (limit(dirty_two(), 1), 13),
        (limit(dirty_two(), 2), 0),
        (limit(uncached_dirty, 1), 8),
    ]
}

fn refused_openings() -> Vec<(ArcLent, u32)> {
    let label = |length: usize| with(right(), |lent| lent.base.label.resize(length, 7));
    vec![
        (label(65), 2),
        (label(63), 2),
        (label(64), 0),
        (limit(right(), 0), 12),
        (limit(right(), 1), 0),
        (limit(numbered(64, 4, 2, 1_021), 0), 11),
        (numbered(64, 4, 2, 1), 0),
        (numbered(96, 4, 2, 1), 11),
        (numbered(64, 0, 2, 1), 11),
        (numbered(64, 65_537, 2, 1), 11),
        (numbered(64, 4, 0, 1), 11),
        (numbered(64, 4, 257, 0), 11),
        (numbered(64, 4, 256, 513), 11),
        (numbered(64, 4, 2, 1_021), 11),
        (numbered(64, 4, 2, 1_020), 2),
    ]
}

/// The tables of ArcRefused.antt, and what a refused call leaves.
#[test]
fn refused_calls() {
    let (reads, openings) = ([refused_lists(), refused_reads()].concat(), refused_openings());
    println!("{} reads and {} openings are refused or served as ArcRefused.antt says", reads.len(), openings.len());
    for (k, (lent, number)) in reads.into_iter().enumerate() {
        let mut after = lent.clone();
        assert_eq!(carry_out(Call::Read, 1, &mut after), number, "case {k}");
        assert_eq!(number != 0, after == lent, "case {k}");
    }
    for (k, (lent, number)) in openings.into_iter().enumerate() {
        let mut after = lent.clone();
        assert_eq!(carry_out(Call::Open, 0, &mut after), number, "opening {k}");
        // "A refused opening": n, the label, p and the five sizes are zeros, and nothing else is another.
        let mut expected = lent.clone();
        expected.base.state = ArcNumbers { n: 0, label: [0; LABEL], adaptive: 0, sizes: [0; 5], ..lent.numbers() }.to_bytes();
        if number == 0 {
            let label = lent.base.label[..].try_into().unwrap();
            expected.base.state = ArcNumbers { label, counters: [0; 4], ..expected.numbers() }.to_bytes();
            expected.base.addresses.fill(0);
            expected.base.blocks = [[0; ROW], [0; ROW]].concat();
            expected.base.blocks[ROW + 32] = 1;
            expected.lists.fill(0);
        }
        assert_eq!(after.difference(&expected), None, "opening {k}");
    }
}

#[test]
fn refused_folders() {
    let byte = |place: usize| with(right(), |lent| lent.lists[place] = 1);
    let folders: [(ArcLent, Vec<u32>, usize, u32); 13] = [
        (right(), vec![1, 3, 1], 192, 0),
        (right(), vec![], 0, 10),
        (right(), vec![1; 64], 4_096, 0),
        (right(), vec![1; 65], 4_160, 10),
        (right(), vec![], 1, 2),
        (right(), vec![1], 63, 2),
        (right(), vec![4; 65], 4_160, 10),
        (right(), vec![1, 4], 128, 3),
        (byte(12), vec![1, 4], 128, 3),
        (byte(12), vec![1, 3], 128, 6),
        (uncached(), vec![1, 3], 128, 8),
        (limit(right(), 0), vec![], 1, 12),
        (limit(dirty_two(), 1), vec![1], 64, 13),
    ];
    for (k, (lent, asked, bytes, number)) in folders.iter().enumerate() {
        let folder = Folder { asked: asked.clone(), buffer: vec![0; *bytes], answer: vec![0; MANY_ANSWER] };
        assert_eq!(refusal_many(lent, &folder), *number, "folder {k}");
    }
    println!("{} folders are refused or served as ArcRefused.antt says", folders.len());
}

#[test]
fn refused_reports() {
    let much = with(right(), |lent| lent.base.state[40..48].copy_from_slice(&((1u64 << 63) + 1).to_le_bytes()));
    let reports: [(ArcLent, Report, usize, u32); 18] = [
        (right(), Report::Manager, 35, 0),
        (right(), Report::Desk, 25, 0),
        (right(), Report::Manager, 34, 2),
        (right(), Report::Manager, 36, 2),
        (right(), Report::Manager, 25, 2),
        (right(), Report::Desk, 24, 2),
        (right(), Report::Desk, 26, 2),
        (right(), Report::Desk, 35, 2),
        (with(right(), |lent| lent.lists.truncate(19)), Report::Desk, 25, 2),
        (with(right(), |lent| lent.base.addresses[39] = 1), Report::Manager, 35, 6),
        (with(right(), |lent| lent.lists[12] = 1), Report::Desk, 25, 6),
        (with(right(), |lent| lent.base.blocks[37] = 1), Report::Manager, 35, 7),
        (uncached(), Report::Desk, 25, 8),
        (much.clone(), Report::Manager, 35, 0),
        (much, Report::Desk, 25, 0),
        (limit(right(), 0), Report::Desk, 24, 12),
        (limit(dirty_two(), 1), Report::Desk, 25, 13),
        (numbered(64, 4, 2, 1_021), Report::Desk, 24, 11),
    ];
    for (k, (lent, report, bytes, number)) in reports.iter().enumerate() {
        assert_eq!(refusal_report(*report, lent, *bytes), *number, "report {k}");
    }
    println!("{} reports are refused or served as ArcRefused.antt says", reports.len());
}

/// `a-hit-in-bytes`, `managers-report` and `desks-report` of ArcRefused.antt.
#[test]
fn served_in_bytes() {
    let mut lent = right();
    assert_eq!(carry_out(Call::Read, 1, &mut lent), 0);
    let mut expected = refused_box(&[(0, 3, 0), (3, 2, 0), (1, 1, 1)], [0, 2, 1, 0, 0], 1, &[3, 1, 0]);
    expected.base.state = ArcNumbers { counters: [1, 1, 0, 0], ..expected.numbers() }.to_bytes();
    let first = expected.base.blocks.drain(..ROW).collect::<Vec<u8>>();
    expected.base.blocks.extend(first);
    expected.base.block = vec![8; B];
    expected.base.answer = Answer { word: HIT, first: 0, second: 0 }.to_bytes();
    assert_eq!(lent.difference(&expected), None);
    let (mut manager, mut desk) = (vec![9; 35], vec![9; 25]);
    assert_eq!((carry_out_report(Report::Manager, &right(), &mut manager), carry_out_report(Report::Desk, &right(), &mut desk)), (0, 0));
    assert_eq!(manager, [&[0, 0, 0, 0, 0, 7, 8, 1, 0, 0, 0, 1, 7, 8, 3, 0, 0, 0, 0, 7, 8][..], &[0; 14]].concat());
    assert_eq!(desk, [&[0, 0, 0, 0, 0, 1, 0, 0, 0, 1, 3, 0, 0, 0, 0][..], &[0; 10]].concat());
    println!("a hit and both reports in bytes are those of ArcRefused.antt");
}

/// Each call with one damage more each time, from the last check to the first, gives the first of 11, 12, 2, 3, 6, 7, 8, 13, 9 that it asks for.
#[test]
fn order_of_refusals() {
    for call in CALLS {
        let mut lent = dirty_two();
        let mut given = Vec::new();
        let mut add = |number: u32, address: u32, change: &dyn Fn(&mut ArcLent)| {
            change(&mut lent);
            given.push((number, refusal(call, address, &lent)));
        };
        let set = |place: usize, number: u64| move |lent: &mut ArcLent| lent.base.state[place..place + 8].copy_from_slice(&number.to_le_bytes());
        add(9, 3, &set(64, (1 << 63) + 1));
        add(13, 3, &set(136, 1));
        // The block row of address 2, which is clean and in T2, gets another fingerprint.
        add(8, 3, &|lent| lent.base.blocks[ROW] ^= 1);
        add(7, 3, &|lent| lent.base.blocks[39] = 1);
        // The lists' last byte, behind what they name.
        add(6, 3, &|lent| lent.lists[19] = 1);
        add(3, 4, &|_| {});
        add(2, 4, &|lent| lent.lists.truncate(19));
        add(12, 4, &set(136, 6));
        add(11, 4, &set(24, 1_021));
        let mut first = 0;
        for (number, given) in given {
            let asked = call.checks().contains(&if number == 11 { 1 } else { number });
            first = if asked { number } else { first };
            assert_eq!(given, first, "{call:?} with damage {number}");
        }
    }
    println!("{} calls with one damage more each time: the first check of the document's order that applies", CALLS.len());
}
