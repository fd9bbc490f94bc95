//! Seats: rows and reports worked out by hand, what the last bytes of a row may be, reports that are refused, and pairs of runs from one box with other seats,
//! of which the desk sees no difference.
use common::Random;
use model::{read_tables, refusal_report, Answer, Call, Folder, Lent, Report, CACHE, CALLS, REPORTS, REPORT_CHECKS, ROW, STATE};
use service::asked::{answered, ask, Asked};
use service::boxes::{any_seat, bytes, damage, damaged, noise, number_of_report, pick, small, sound, unopened, Contents, Counts, Shape, DAMAGES};
use service::calls::{call, call_many, call_report};
use service::compare::{compare, compare_report};
use service::fresh::{fresh, B};
use service::progress::{count, seed, Progress};

/// The edges of a seat, and a number whose two bytes are neither the same nor zero.
const SEATS: [u16; 6] = [0, 1, 255, 256, 65_535, 0x1234];

fn report(report: Report, lent: &mut Lent) -> Vec<u8> {
    let mut bytes = vec![0xEE; lent.addresses.len() / ROW * report.row()];
    assert_eq!(call_report(report, lent, &mut bytes), 0);
    bytes
}

/// The bytes of rows and of both reports, for each seat: whole numbers, lowest byte first.
#[test]
fn the_bytes() {
    for seat in SEATS {
        let (low, high) = ((seat % 256) as u8, (seat / 256) as u8);
        let mut lent = fresh(65_536, 3, 2, 3);
        assert_eq!((call(Call::Through(seat), 0x0201, &mut lent), call(Call::Back(seat), 0xFFFF, &mut lent)), (0, 0));
        assert_eq!(lent.addresses[36..40], [0, low, high, 0], "seat {seat}");
        assert_eq!(lent.addresses[ROW + 36..ROW + 40], [1, low, high, 0], "seat {seat}");
        assert_eq!(report(Report::Manager, &mut lent), [1, 2, 0, 0, 0, low, high, 255, 255, 0, 0, 1, low, high, 0, 0, 0, 0, 0, 0, 0], "seat {seat}");
        assert_eq!(report(Report::Desk, &mut lent), [1, 2, 0, 0, 0, 255, 255, 0, 0, 1, 0, 0, 0, 0, 0], "seat {seat}");
    }
    println!("rows and reports of {} seats, byte for byte", SEATS.len());
}

/// A call, its address and the byte of its block, and the manager's report after it: address, dirty byte, seat.
type Step = (Call, u32, u8, &'static [(u32, u8, u16)]);

/// Calls on a box of three addresses and two blocks, each with the manager's report that follows.
#[test]
fn worked() {
    let mut lent = fresh(8, 3, 2, 3);
    let steps: [Step; 13] = [
        (Call::Back(7), 1, 9, &[(1, 1, 7)]),
        (Call::Through(8), 2, 9, &[(1, 1, 7), (2, 0, 8)]),
        (Call::Read, 3, 0, &[(1, 1, 7), (2, 0, 8), (3, 0, 0)]),
        // Hits keep the seat; so does a flush, and a look changes nothing.
        (Call::Read, 1, 0, &[(2, 0, 8), (3, 0, 0), (1, 1, 7)]),
        (Call::Flush, 0, 0, &[(2, 0, 8), (3, 0, 0), (1, 0, 7)]),
        (Call::Look, 2, 0, &[(2, 0, 8), (3, 0, 0), (1, 0, 7)]),
        // The same content again leaves the row clean, and the seat is the new one.
        (Call::Back(65_535), 1, 9, &[(2, 0, 8), (3, 0, 0), (1, 0, 65_535)]),
        (Call::Through(1), 3, 3, &[(2, 0, 8), (1, 0, 65_535), (3, 0, 1)]),
        // Address 2 leaves, and comes back by a read: 0.
        (Call::Back(256), 4, 4, &[(1, 0, 65_535), (3, 0, 1), (4, 1, 256)]),
        (Call::Read, 2, 0, &[(3, 0, 1), (4, 1, 256), (2, 0, 0)]),
        // Address 3 is held without its block by now: a miss, which keeps the seat. It takes the block of address 4, which is cleaned and keeps its own.
        (Call::Read, 3, 0, &[(4, 0, 256), (2, 0, 0), (3, 0, 1)]),
        (Call::Invalidate(5), 4, 1, &[(2, 0, 0), (3, 0, 1)]),
        (Call::FlushSome(3), 0, 0, &[(2, 0, 0), (3, 0, 1)]),
    ];
    for (k, (kind, address, content, rows)) in steps.into_iter().enumerate() {
        lent.block = vec![content; B];
        assert_eq!(compare(kind, address, &mut lent, k, &|| format!("step {k}")), 0);
        let mut expected: Vec<u8> = rows.iter().flat_map(|(a, dirty, seat)| [&a.to_le_bytes()[..], &[*dirty], &seat.to_le_bytes()].concat()).collect();
        expected.resize(3 * 7, 0);
        assert_eq!(report(Report::Manager, &mut lent), expected, "step {k}: {kind:?} {address}");
    }
    // In a folder each read is as by itself: held addresses keep their seats, and where 4 takes the place of 2, 2 comes back with 0.
    let folders: [(&[u32], [u8; 14]); 2] =
        [(&[3, 2], [3, 0, 0, 0, 1, 22, 0, 2, 0, 0, 0, 1, 21, 0]), (&[3, 4, 2, 4], [2, 0, 0, 0, 0, 0, 0, 4, 0, 0, 0, 0, 0, 0])];
    for (asked, expected) in folders {
        let mut lent = fresh(8, 2, 2, 2);
        assert_eq!((call(Call::Back(21), 2, &mut lent), call(Call::Back(22), 3, &mut lent)), (0, 0));
        let mut folder = Folder { asked: asked.to_vec(), buffer: vec![0; asked.len() * B], answer: vec![0; 32] };
        assert_eq!(call_many(&mut lent, &mut folder), 0);
        assert_eq!(report(Report::Manager, &mut lent), expected, "{asked:?}");
    }
    println!("13 calls and two folders, with the manager's report after each");
}

/// Every value of each of the last three bytes of each row: of a held row the seat may be any and the last byte is zero; a row that is not held is all zero; of
/// a block row all three are zero.
#[test]
fn the_last_bytes_of_a_row() {
    let mut lent = fresh(8, 3, 2, 3);
    assert_eq!((call(Call::Back(0x0102), 5, &mut lent), call(Call::Read, 6, &mut lent)), (0, 0));
    let mut calls = 0;
    for (row, byte) in (0..5).flat_map(|row| [37, 38, 39].map(|byte| (row, byte))) {
        for value in 1..=255 {
            let mut changed = lent.clone();
            let (table, row) = if row < 3 { (&mut changed.addresses, row) } else { (&mut changed.blocks, row - 3) };
            table[row * ROW + byte] = value;
            let expected = match changed.blocks != lent.blocks {
                true => 7,
                false if row == 2 || byte == 39 => 6,
                false => 0,
            };
            let context = || format!("byte {byte} of row {row} is {value}");
            for kind in CALLS.into_iter().filter(|kind| *kind != Call::Open) {
                let mut lent = changed.clone();
                assert_eq!(compare(kind, 5, &mut lent, byte, &context), expected, "{kind:?}, {}", context());
            }
            for report in REPORTS {
                let mut into = vec![0xEE; 3 * report.row()];
                assert_eq!(compare_report(report, &mut changed, &mut into, byte, &context), expected, "{report:?}, {}", context());
            }
            calls += CALLS.len() + 1;
        }
    }
    println!("{calls} calls and reports over every value of the last three bytes of five rows");
}

/// Both reports on a box, into bytes of the right length or of another; how many were refused with each number.
fn both_reports(random: &mut Random, lent: &mut Lent, wrong: bool, numbers: &mut Counts, context: &dyn Fn() -> String) -> [u32; 2] {
    REPORTS.map(|report| {
        let m = if lent.state.len() == STATE { lent.numbers().m.min(2_000) as usize } else { 3 };
        let right = m * report.row();
        let mut length = right;
        while wrong && length == right {
            length = pick(random, &[0, 1, 5, 7, right.saturating_sub(1), right + 1, m * 5, m * 6, m * 7, 2 * right, m * ROW, m]);
        }
        let mut into = bytes(random, length);
        let number = compare_report(report, lent, &mut into, random.below(32), context);
        numbers[number as usize] += 1;
        number
    })
}

fn show(name: &str, numbers: &Counts, seed: u64, progress: &Progress) {
    let refused: Vec<String> = REPORT_CHECKS.iter().map(|number| format!("{number}: {}", numbers[*number as usize])).collect();
    println!("{name}: reports refused with {}; made {} (seed {seed}, {:.1} s)", refused.join(", "), numbers[0], progress.seconds());
    assert!([0, 1, 12, 2, 6, 7, 8, 13].iter().all(|number| numbers[*number] > 0));
}

/// Each damage alone, and every two, which says the order of the checks; with a report of the right length and of another. A report asks for no counter and
/// no address.
#[test]
fn refused_reports() {
    let (seed, turns) = (seed(701), count(10));
    let mut random = Random(seed);
    let mut numbers = Counts::default();
    let mut progress = Progress::new("refused reports", turns);
    for turn in 0..turns {
        for k in 0..DAMAGES.len() {
            for j in 0..=k {
                let damages = [DAMAGES[j].0, DAMAGES[k].0];
                let (mut lent, _) = damaged(&mut random, &damages, small);
                let context = || format!("damages {damages:?}, seed {seed}");
                assert_eq!(both_reports(&mut random, &mut lent, false, &mut numbers, &context), [number_of_report(&damages); 2], "{}", context());
                let expected = Some(number_of_report(&damages)).filter(|number| [1, 12].contains(number)).unwrap_or(2);
                assert_eq!(both_reports(&mut random, &mut lent, true, &mut numbers, &context), [expected; 2], "another length, {}", context());
                lent.state.resize(pick(&mut random, &[0, 1, 72, 135, 136, 143, 145, 272]), 0);
                assert_eq!(both_reports(&mut random, &mut lent, false, &mut numbers, &context), [2; 2], "another state, {}", context());
            }
        }
        progress.at(turn);
    }
    show("every two damages, other lengths and other states", &numbers, seed, &progress);
}

/// Sound boxes with bytes changed anywhere in the state or the tables, and any bytes.
#[test]
fn reports_of_any_bytes() {
    let (seed, total) = (seed(702), count(40_000));
    let mut random = Random(seed);
    let mut numbers = Counts::default();
    let mut progress = Progress::new("reports of any bytes", total);
    for turn in 0..total {
        let mut lent = if turn % 3 == 0 {
            noise(&mut random)
        } else {
            let shape = small(&mut random);
            sound(&mut random, shape)
        };
        for _ in 0..if turn % 3 == 0 { 0 } else { random.below(3) } {
            let buffer = match random.below(5) {
                0 => &mut lent.state,
                1 | 2 => &mut lent.addresses,
                _ => &mut lent.blocks,
            };
            let place = random.below(buffer.len());
            buffer[place] = pick(&mut random, &[buffer[place] ^ 1, 0, 1, 2, 255]);
        }
        both_reports(&mut random, &mut lent, false, &mut numbers, &|| format!("turn {turn}, seed {seed}"));
        progress.at(turn);
    }
    show("changed bytes and any bytes", &numbers, seed, &progress);
}

/// A box without its seats: bytes 37 and 38 of each address row.
fn without_seats(lent: &Lent) -> Lent {
    let mut lent = lent.clone();
    // The last row may be cut off.
    lent.addresses.chunks_mut(ROW).for_each(|row| row.iter_mut().skip(37).take(2).for_each(|byte| *byte = 0));
    lent
}

/// A seat that is not this one: any other, or one that has a byte in common with it.
fn other_seat(random: &mut Random, seat: u16) -> u16 {
    let nonzero = 1 + random.below(255) as u16;
    match random.below(4) {
        0 => seat ^ nonzero,
        1 => seat ^ nonzero << 8,
        _ => loop {
            let other = any_seat(random);
            if other != seat {
                break other;
            }
        },
    }
}

/// All that the desk is shown of a call: its number, its answer, the lent block or the folder's, the part that a look names, and the counters; then the number
/// and the bytes of its report.
#[derive(Debug, PartialEq)]
struct Shown {
    number: u32,
    answer: Vec<u8>,
    blocks: Vec<u8>,
    part: Vec<u8>,
    state: Vec<u8>,
    report: (u32, Vec<u8>),
}

fn shown(lent: &mut Lent, asked: &Asked, m: usize) -> Shown {
    let (number, answer, blocks) = answered(lent, asked);
    let part = match asked {
        Asked::One(Call::Look, ..) if number == 0 => {
            let Answer { word, first, second } = Answer::from_bytes(&answer);
            let from = if word == CACHE { &lent.flash } else { &lent.disk };
            from[first as usize..(first + second) as usize].to_vec()
        }
        _ => vec![],
    };
    let mut bytes = vec![0xEE; m * 5];
    let report = (call_report(Report::Desk, lent, &mut bytes), bytes);
    Shown { number, answer, blocks, part, state: lent.state.clone(), report }
}

/// What the pairs of runs have met.
#[derive(Default)]
struct Met {
    pairs: usize,
    calls: usize,
    numbers: Counts,
    folders: usize,
    /// Calls after which the two managers' reports differ, and how many of these calls were refused, and were folders.
    differ: usize,
    differ_refused: usize,
    differ_folders: usize,
}

/// Runs the same calls on two copies of a box, each write of the second by another seat than that of the first. Between two calls sound boxes are now and then
/// damaged in the same way, and put back later. The manager's report tells the runs apart; the desk's, the answers, the blocks, the counters and all lent bytes
/// but the seats do not.
fn pair(random: &mut Random, shape: Shape, lent: Lent, contents: &Contents, length: usize, met: &mut Met, seed: u64) {
    let (mut one, mut two) = (lent.clone(), lent);
    let mut whole = None;
    for turn in 0..length {
        if random.below(6) == 0 {
            if let Some(kept) = whole.take() {
                (one, two) = kept;
            } else if refusal_report(Report::Desk, &one, shape.m * 5) == 0 {
                whole = Some((one.clone(), two.clone()));
                let (kind, same) = (pick(random, &DAMAGES).0, random.number());
                let broken = [&mut one, &mut two].map(|lent| damage(&mut Random(same), lent, &mut 0, kind));
                assert_eq!(broken[0], broken[1], "{kind:?}");
            }
        }
        let first = match random.below(60) {
            0 => Asked::One(Call::Open, 0, one.block.clone()),
            _ => ask(random, shape, contents),
        };
        let mut second = first.clone();
        if let Asked::One(kind, ..) = &mut second {
            if let Call::Through(seat) | Call::Back(seat) | Call::Invalidate(seat) = *kind {
                *kind = kind.by_seat(other_seat(random, seat));
            }
        }
        let context = format!("call {turn}, {shape:?}, pair {}, seed {seed}", met.pairs);
        let seen = [(&mut one, &first), (&mut two, &second)].map(|(lent, asked)| shown(lent, asked, shape.m));
        assert!(seen[0] == seen[1], "the desk sees the seats: {:?}\nand {:?}\n{context}", seen[0], seen[1]);
        assert_eq!(without_seats(&two).difference(&without_seats(&one)), None, "{context}");
        let number = seen[0].number;
        met.calls += 1;
        met.numbers[number as usize] += 1;
        let is_folder = matches!(first, Asked::Many(_));
        met.folders += (is_folder && number == 0) as usize;
        let managers = [&mut one, &mut two].map(|lent| {
            let mut bytes = vec![0xEE; shape.m * 7];
            (call_report(Report::Manager, lent, &mut bytes), bytes)
        });
        assert_eq!([managers[0].0, managers[1].0], [seen[0].report.0; 2], "number of the manager's report, {context}");
        if managers[0].0 == 0 {
            let desk: Vec<u8> = managers[0].1.chunks_exact(7).flat_map(|row| row[..5].to_vec()).collect();
            assert_eq!(desk, seen[0].report.1, "the desk's report is not the manager's without seats, {context}");
        }
        let differ = managers[0].1 != managers[1].1;
        assert_eq!(differ, managers[0].0 == 0 && one.addresses != two.addresses, "{context}");
        met.differ += differ as usize;
        met.differ_refused += (differ && number != 0) as usize;
        met.differ_folders += (differ && number == 0 && is_folder) as usize;
    }
    met.pairs += 1;
}

/// A box to start from, and the blocks that its calls write: opened and used, sound though no list need reach it, or damaged.
fn start(random: &mut Random, shape: Shape, kind: usize) -> (Lent, Contents) {
    let pool = 1 + random.below(2 * shape.d + 2);
    let contents = Contents::new(random, shape.b, pool);
    let lent = match kind {
        0 => {
            let mut lent = unopened(random, shape, &contents);
            assert_eq!(call(Call::Open, 0, &mut lent), 0);
            for _ in 0..random.below(40) {
                answered(&mut lent, &ask(random, shape, &contents));
            }
            lent
        }
        1 => sound(random, shape),
        _ => {
            let mut lent = sound(random, shape);
            for _ in 0..1 + random.below(2) {
                let kind = pick(random, &DAMAGES).0;
                damage(random, &mut lent, &mut 0, kind);
            }
            lent
        }
    };
    (lent, contents)
}

/// A box of any bytes, and the numbers that its calls go by: its own where they are small.
fn of_any_bytes(random: &mut Random) -> (Lent, Shape) {
    let lent = noise(random);
    let [b, p, m, d] = [lent.numbers().b, lent.numbers().p, lent.numbers().m, lent.numbers().d].map(|number| number.clamp(1, 1_024) as usize);
    (lent, Shape { b: b.max(64), p, m, d })
}

/// The numbers of the refusals in these runs.
const NUMBERS: [usize; 10] = [1, 2, 3, 6, 7, 8, 9, 10, 12, 13];

fn show_pairs(name: &str, met: &Met, seed: u64, progress: &Progress) {
    let Met { pairs, calls, numbers, folders, differ, differ_refused, differ_folders } = met;
    println!("{name}: {pairs} pairs of runs with other seats, {calls} calls in each (seed {seed}, {:.1} s)", progress.seconds());
    println!("  desk reports, answers, blocks, counters and parts are the same after each call, and so is every lent byte but the seats");
    println!("  {folders} folders; refused with {NUMBERS:?}: {:?}", NUMBERS.map(|number| numbers[number]));
    println!("  the manager's reports differ after {differ} calls, of which {differ_refused} were refused and {differ_folders} were folders");
    assert!([*differ, differ_refused * 20, differ_folders * 10].iter().all(|count| *count > calls / 4), "the manager's reports hardly differ");
}

/// Small boxes of every kind.
#[test]
fn pairs_of_runs() {
    let (seed, total) = (seed(703), count(60_000));
    let mut random = Random(seed);
    let mut met = Met::default();
    let mut progress = Progress::new("pairs of runs", total);
    while met.calls < total {
        let b = pick(&mut random, &[64, 64, 128, 256]);
        let most = pick(&mut random, &[Shape { b, p: 5, m: 4, d: 3 }, Shape { b, p: 20, m: 10, d: 6 }, Shape { b, p: 60, m: 40, d: 24 }]);
        let shape = Shape::below(&mut random, most);
        let kind = pick(&mut random, &[0, 0, 0, 1, 1, 2]);
        let (lent, contents) = start(&mut random, shape, kind);
        // Few calls where most are refused, as those change nothing.
        let length = if kind < 2 { 50 } else { 5 };
        pair(&mut random, shape, lent, &contents, length, &mut met, seed);
        if met.pairs % 4 == 0 {
            let (lent, shape) = of_any_bytes(&mut random);
            let contents = Contents::new(&mut random, shape.b, 3);
            pair(&mut random, shape, lent, &contents, 5, &mut met, seed);
        }
        progress.at(met.calls);
    }
    show_pairs("small boxes", &met, seed, &progress);
    assert!([0].iter().chain(&NUMBERS).all(|number| met.numbers[*number] > total / 1_000), "{:?}", met.numbers);
    assert!(met.folders > total / 50);
}

/// Large tables, used and sound.
#[test]
fn large_pairs_of_runs() {
    let (seed, total) = (seed(704), count(1_500));
    let mut random = Random(seed);
    let mut met = Met::default();
    let mut progress = Progress::new("large pairs of runs", total);
    while met.calls < total {
        let shape = Shape { b: 64, p: 1_024 + random.below(500), m: pick(&mut random, &[1_024, 700]), d: pick(&mut random, &[256, 100]) };
        let (lent, contents) = start(&mut random, shape, met.pairs % 2);
        pair(&mut random, shape, lent, &contents, 50, &mut met, seed);
        progress.at(met.calls);
    }
    show_pairs("large boxes", &met, seed, &progress);
}

/// After a pair of writes each held row of the two boxes has the seat of its own run's last write, for every two of the edges: no byte of one is the other's.
#[test]
fn edges_of_a_seat() {
    for (one, two) in SEATS.into_iter().flat_map(|one| SEATS.map(|two| (one, two))) {
        let boxes = [one, two].map(|seat| {
            let mut lent = fresh(8, 3, 2, 3);
            assert_eq!((call(Call::Through(seat), 1, &mut lent), call(Call::Back(seat), 2, &mut lent), call(Call::Read, 1, &mut lent)), (0, 0, 0));
            assert_eq!(read_tables(&lent).0.iter().map(|row| row.seat).collect::<Vec<_>>(), [seat, seat, 0]);
            lent
        });
        let [desk, manager] = [Report::Desk, Report::Manager].map(|kind| boxes.clone().map(|mut lent| report(kind, &mut lent)));
        assert!(desk[0] == desk[1] && (manager[0] == manager[1]) == (one == two), "seats {one} and {two}");
    }
    println!("every two of {} seats: one desk's report, two of the manager", SEATS.len());
}
