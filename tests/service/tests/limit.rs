//! The limit on dirty rows: cases worked out by hand, a box with a limit beside one without on the same list, what a write back does for the limit, and where a
//! limit is refused.
use common::Random;
use model::{carry_out_many, fingerprint, AddressRow, Answer, BlockRow, Cache, Call, Folder, Lent, ManyAnswer, Numbers};
use model::{CACHE, CALLS, REPORTS, ROW, STATE_LABEL, STATE_LIMIT, ZEROS};
use service::asked::{answered, ask, Asked};
use service::boxes::{any_seat, bytes, dirty_rows, office, pick, set_limit, sound, unopened, Contents, Shape};
use service::calls::call;
use service::compare::{compare, compare_many, compare_report};
use service::fresh::{fresh, B, OFFICE};
use service::progress::{count, seed, Progress};

/// The dirty addresses, oldest use first.
fn dirty(lent: &Lent) -> Vec<u32> {
    let held = lent.addresses.chunks_exact(ROW).take(lent.numbers().n as usize);
    held.filter(|row| row[36] == 1).map(|row| AddressRow::from_bytes(row).address).collect()
}

/// A call, its address and the byte of its block; then its flash writes and primary writes, the dirty addresses, and the bytes of the disk's first blocks.
type Step = (Call, u32, u8, [u64; 2], &'static [u32], [u8; 3]);

fn worked(m: usize, d: usize, t: u64, steps: &[Step]) {
    let mut lent = fresh(8, m, d, t as usize);
    for (k, (kind, address, content, writes, unsaved, disk)) in steps.iter().enumerate() {
        lent.block = vec![*content; B];
        let context = || format!("step {k} of m = {m}, d = {d}, t = {t}");
        assert_eq!(compare(*kind, *address, &mut lent, k, &context), 0);
        let Answer { first, second, .. } = Answer::from_bytes(&lent.answer);
        assert_eq!(([first, second], &dirty(&lent)[..]), (*writes, *unsaved), "{}", context());
        assert_eq!([lent.disk[0], lent.disk[B], lent.disk[2 * B]], *disk, "{}", context());
    }
}

#[test]
fn by_hand() {
    let back = Call::Back(7);
    worked(3, 3, 1, &[(back, 0, 9, [1, 0], &[0], [0, 1, 2]), (back, 1, 8, [1, 1], &[1], [9, 1, 2])]);
    // Address 0 is newer than 1 by a read.
    let first = [(back, 0, 9, [1, 0], &[0][..], [0, 1, 2]), (back, 1, 8, [1, 0], &[0, 1], [0, 1, 2])];
    let then = [(Call::Read, 0, 0, [0, 0], &[1, 0][..], [0, 1, 2]), (back, 2, 7, [1, 1], &[0, 2], [0, 8, 2])];
    worked(3, 3, 2, &[&first[..], &then].concat());
    // A page saved twice.
    worked(3, 3, 1, &[(back, 0, 9, [1, 0], &[0], [0, 1, 2]), (back, 0, 8, [1, 0], &[0], [0, 1, 2])]);
    // The address leaves, and its block is copied once.
    worked(1, 1, 1, &[(back, 0, 9, [1, 0], &[0], [0, 1, 2]), (back, 1, 8, [1, 1], &[1], [9, 1, 2])]);
    // A write through copies its own block alone; so do a write invalidate and a flush of nothing.
    worked(3, 3, 2, &[&first[..], &[(Call::Through(7), 2, 7, [1, 1], &[0, 1], [0, 1, 7])]].concat());
    worked(3, 3, 2, &[&first[..], &[(Call::Invalidate(7), 2, 7, [0, 1], &[0, 1], [0, 1, 7]), (Call::FlushSome(0), 0, 0, [0, 0], &[0, 1], [0, 1, 7])]].concat());
    // One content at two addresses: the block is copied for the older and stays.
    worked(3, 3, 1, &[(back, 0, 9, [1, 0], &[0], [0, 1, 2]), (back, 1, 9, [0, 1], &[1], [9, 1, 2]), (Call::Read, 0, 0, [0, 0], &[1], [9, 1, 2])]);
    println!("seven lists worked out by hand");
}

/// What the lists beside each other have met.
#[derive(Default)]
struct Met {
    calls: usize,
    lists: usize,
    refused: usize,
    hits: u64,
    /// Calls after which the box without a limit has more dirty rows than the other.
    fewer: usize,
    copies: u64,
}

/// What a box with a limit has in common with one without: all but the dirty bytes, the disk, the primary writes and the limit.
fn common_part(lent: &Lent) -> (Vec<u8>, Vec<u8>, Vec<u8>, [u64; 4]) {
    let mut addresses = lent.addresses.clone();
    addresses.chunks_exact_mut(ROW).for_each(|row| row[36] = 0);
    let Numbers { n, counters: [reads, hits, flash, _], .. } = lent.numbers();
    (addresses, lent.blocks.clone(), lent.flash.clone(), [n, reads, hits, flash])
}

/// What a call answers that is the same with a limit and without: of a read, a look and a write all but the primary writes, of a folder too; of a flush its
/// word. A look's is where its part starts, and the part.
fn common_answer(lent: &Lent, asked: &Asked, answer: &[u8]) -> Vec<u64> {
    match asked {
        Asked::Many(_) => {
            let ManyAnswer { hits, flash, fetches, .. } = ManyAnswer::from_bytes(answer);
            vec![hits, flash, fetches]
        }
        Asked::One(kind, ..) => {
            let Answer { word, first, second } = Answer::from_bytes(answer);
            let from = if word == CACHE { &lent.flash } else { &lent.disk };
            match kind {
                Call::Look => [word, first].into_iter().chain(from[first as usize..(first + second) as usize].iter().map(|byte| *byte as u64)).collect(),
                _ => vec![word, first],
            }
        }
    }
}

/// The same list on a box with a limit and on one without. Half of the calls are writes back.
fn beside(random: &mut Random, shape: Shape, t: usize, length: usize, met: &mut Met, seed: u64) {
    let pool = 1 + random.below(2 * shape.d + 2);
    let contents = Contents::new(random, shape.b, pool);
    let mut limited = unopened(random, shape, &contents);
    let mut free = limited.clone();
    set_limit(&mut limited, t as u64);
    set_limit(&mut free, shape.m as u64);
    assert_eq!([&mut limited, &mut free].map(|lent| call(Call::Open, 0, lent)), [0; 2]);
    for turn in 0..length {
        let asked = match random.below(2) {
            0 => Asked::One(Call::Back(any_seat(random)), random.below(shape.p) as u32, contents.one(random).clone()),
            _ => ask(random, shape, &contents),
        };
        let context = format!("call {turn}, t = {t}, {shape:?}, seed {seed}");
        let [one, two] = [&mut limited, &mut free].map(|lent| answered(lent, &asked));
        assert!(one.0 == two.0 && one.2 == two.2, "number and blocks, {context}");
        if one.0 == 0 {
            assert_eq!(common_answer(&limited, &asked, &one.1), common_answer(&free, &asked, &two.1), "answer, {context}");
        }
        assert!(common_part(&limited) == common_part(&free), "tables, flash and counters, {context}");
        let [few, many] = [&limited, &free].map(dirty);
        assert!(few.len() <= t, "{few:?} are dirty, {context}");
        assert!(few.iter().all(|a| many.contains(a)), "{few:?} are dirty beside {many:?}, {context}");
        met.calls += 1;
        met.refused += (one.0 != 0) as usize;
        met.fewer += (few.len() < many.len()) as usize;
    }
    assert_eq!([&mut limited, &mut free].map(|lent| call(Call::Flush, 0, lent)), [0; 2]);
    assert!(limited.disk == free.disk, "flushed disks, t = {t}, {shape:?}, seed {seed}");
    let [one, two] = [limited, free].map(|lent| lent.numbers().counters);
    met.hits += one[1];
    met.copies += one[3].saturating_sub(two[3]);
    met.lists += 1;
}

#[test]
fn beside_no_limit() {
    let (seed, total) = (seed(801), count(60_000));
    let mut random = Random(seed);
    let mut met = Met::default();
    let mut progress = Progress::new("beside no limit", total);
    while met.calls < total {
        let b = pick(&mut random, &[64, 64, 128, 256]);
        let most = pick(&mut random, &[Shape { b, p: 5, m: 4, d: 3 }, Shape { b, p: 20, m: 10, d: 6 }, Shape { b, p: 60, m: 40, d: 24 }]);
        let shape = Shape::below(&mut random, most);
        let t = 1 + random.below(shape.m);
        beside(&mut random, shape, t, 100, &mut met, seed);
        progress.at(met.calls);
    }
    let large = Shape { b: 64, p: 1_500, m: 1_024, d: 256 };
    for t in [1, 200] {
        beside(&mut random, large, t, 1_000, &mut met, seed);
    }
    let Met { calls, lists, refused, hits, fewer, copies } = met;
    println!("{calls} calls in {lists} lists with a limit beside the same lists without (seed {seed}, {:.1} s)", progress.seconds());
    println!("  {hits} hits, {refused} refused: the same answers but for primary writes, blocks, tables but for dirty bytes, flash, and flushed disks");
    println!("  never more dirty rows than the limit, fewer than without it after {fewer} calls; {copies} copies to the disk more");
    assert!([refused * 10, hits as usize, fewer, copies as usize * 10].iter().all(|count| *count > total / 20));
}

/// A limit of m is none: every byte is that of the model of a box that copies nothing for a limit, but for the limit's own eight.
#[test]
fn a_limit_of_m() {
    let (seed, total) = (seed(802), count(20_000));
    let mut random = Random(seed);
    let (mut calls, mut all_dirty) = (0, 0);
    while calls < total {
        let shape = Shape::below(&mut random, Shape { b: 64, p: 12, m: 6, d: 6 });
        let Shape { b, p, m, d } = shape;
        let contents = Contents::new(&mut random, b, 1 + d);
        let mut lent = unopened(&mut random, shape, &contents);
        set_limit(&mut lent, m as u64);
        let mut cache = Cache::fresh(b, p, m, d, usize::MAX, office(&lent), lent.disk.clone(), lent.flash.clone());
        assert_eq!(call(Call::Open, 0, &mut lent), 0);
        for turn in 0..100 {
            let context = format!("call {turn}, {shape:?}, seed {seed}");
            let (kind, address) = (pick(&mut random, &CALLS[1..5]).by_seat(any_seat(&mut random)), random.below(p) as u32);
            let mut block = contents.one(&mut random).clone();
            lent.block.clone_from(&block);
            assert_eq!(call(kind, address, &mut lent), 0, "{context}");
            assert_eq!(Ok(Answer::from_bytes(&lent.answer)), cache.call(kind, address, &mut block), "{context}");
            let mut without = lent.clone();
            set_limit(&mut without, u64::MAX);
            assert!(cache.difference(&without).is_none() && lent.block == block, "{:?}, {context}", cache.difference(&without));
            all_dirty += (dirty_rows(&lent) == m) as usize;
            calls += 1;
        }
    }
    println!("{calls} calls at a limit of m as without a limit, {all_dirty} with every row dirty (seed {seed})");
    assert!(all_dirty > total / 50);
}

/// What a write back does for the limit, said by a write back on the same box without one: where more than t rows are dirty after that, the oldest of these is
/// clean, its block is on the disk, and a primary write more is answered and counted; nothing else is another. Of every other call the limit changes nothing.
fn for_the_limit(kind: Call, without: &Lent, t: u64) -> (Lent, bool) {
    let mut expected = without.clone();
    set_limit(&mut expected, t);
    let over = matches!(kind, Call::Back(_)) && dirty_rows(without) as u64 > t;
    if over {
        let k = without.addresses.chunks_exact(ROW).position(|row| row[36] == 1).unwrap();
        let oldest = AddressRow::from_bytes(&without.addresses[k * ROW..(k + 1) * ROW]);
        let stored = without.blocks.chunks_exact(ROW).map(BlockRow::from_bytes).find(|row| row.used == 1 && row.fingerprint == oldest.fingerprint);
        let (b, slot, a) = (without.numbers().b as usize, stored.unwrap().slot as usize, oldest.address as usize);
        expected.disk[a * b..(a + 1) * b].copy_from_slice(&without.flash[slot * b..(slot + 1) * b]);
        expected.addresses[k * ROW + 36] = 0;
        let Numbers { counters: [reads, hits, flash, primary], .. } = without.numbers();
        expected.state = Numbers { counters: [reads, hits, flash, primary + 1], ..expected.numbers() }.to_bytes();
        let answer = Answer::from_bytes(&without.answer);
        expected.answer = Answer { second: answer.second + 1, ..answer }.to_bytes();
    }
    (expected, over)
}

/// On sound boxes, reachable or not, of which many have as many dirty rows as their limit.
#[test]
fn one_copy_more() {
    let (seed, total) = (seed(803), count(30_000));
    let mut random = Random(seed);
    let (mut copies, mut calls) = (0, 0);
    let mut progress = Progress::new("one copy more", total);
    for turn in 0..total {
        let b = pick(&mut random, &[64, 64, 64, 128]);
        let shape = Shape::below(&mut random, Shape { b, p: 16, m: 10, d: 8 });
        let mut lent = sound(&mut random, shape);
        lent.state[40..72].fill(0);
        let (t, m) = (lent.numbers().t, lent.numbers().m);
        let kind = if random.below(2) == 0 { Call::Back(any_seat(&mut random)) } else { pick(&mut random, &CALLS[1..]) };
        let address = random.below(shape.p) as u32;
        let mut without = lent.clone();
        set_limit(&mut without, m);
        assert_eq!([&mut lent, &mut without].map(|lent| call(kind, address, lent)), [0; 2], "turn {turn}, seed {seed}");
        let (expected, over) = for_the_limit(kind, &without, t);
        assert_eq!(lent.difference(&expected), None, "{kind:?} {address}, turn {turn}, {shape:?}, seed {seed}");
        copies += over as usize;
        calls += 1;
        progress.at(turn);
    }
    println!("{calls} calls on sound boxes are those without a limit, with one copy more where the limit asks for it: {copies} (seed {seed})");
    assert!(copies > total / 50);
}

/// A box of m = 4 with so many dirty rows of one block behind a clean one, for which there is no room beside four.
fn with_dirty(dirty: usize, t: u64) -> Lent {
    let g = fingerprint(&OFFICE, &[9; B]);
    let row = |address: u32| AddressRow { address, fingerprint: g, dirty: (address > 0) as u8, seat: 5, padding: 0 }.to_bytes();
    let mut lent = fresh(8, 4, 2, 4);
    lent.addresses = (0..=dirty.min(3) as u32).flat_map(row).collect();
    if dirty == 4 {
        lent.addresses = (1..=4).flat_map(row).collect();
    }
    let n = lent.addresses.len() / ROW;
    lent.addresses.resize(4 * ROW, 0);
    let free = BlockRow { fingerprint: [0; 32], slot: 1, used: 0, padding: [0; 3] };
    lent.blocks = [free.to_bytes(), BlockRow { fingerprint: g, slot: 0, used: 1, padding: [0; 3] }.to_bytes()].concat();
    lent.flash[..B].fill(9);
    lent.state = Numbers { n: n as u64, t, ..lent.numbers() }.to_bytes();
    lent
}

/// Every call, both reports and a folder on copies of a box: the number of each is this one; of an opening that given beside it.
fn all_calls(lent: &Lent, number: u32, of_opening: u32, context: &dyn Fn() -> String) -> usize {
    for kind in CALLS {
        let expected = if kind == Call::Open { of_opening } else { number };
        assert_eq!(compare(kind, 1, &mut lent.clone(), 3, context), expected, "{kind:?}, {}", context());
    }
    for report in REPORTS {
        let mut into = vec![0xEE; lent.addresses.len() / ROW * report.row()];
        assert_eq!(compare_report(report, &mut lent.clone(), &mut into, 5, context), number, "{report:?}, {}", context());
    }
    let mut folder = Folder { asked: vec![1, 2], buffer: vec![0; 2 * B], answer: vec![0; 32] };
    assert_eq!(compare_many(&mut lent.clone(), &mut folder, 7, context), number, "a folder, {}", context());
    CALLS.len() + REPORTS.len() + 1
}

/// Every limit beside every number of dirty rows: 12 where the limit is not 1 to m, 13 where more rows are dirty, in every call; an opening asks for 12 alone.
#[test]
fn every_limit_and_every_count() {
    let mut calls = 0;
    for (dirty, t) in (0..=4).flat_map(|dirty| [0, 1, 2, 3, 4, 5, 6, 1_024, 1_025, 1 << 16, 1 << 32, (1 << 32) + 2, 1 << 63, u64::MAX].map(|t| (dirty, t))) {
        let lent = with_dirty(dirty, t);
        let inside = (1..=4).contains(&t);
        let number = match inside {
            false => 12,
            true if dirty as u64 > t => 13,
            true => 0,
        };
        calls += all_calls(&lent, number, if inside { 0 } else { 12 }, &|| format!("{dirty} dirty rows, t = {t}"));
    }
    println!("{calls} calls over limits and numbers of dirty rows");
}

/// Each bit of the limit is looked at: of 2 the lowest makes 3, the next 0, and every other a limit that is too large.
#[test]
fn every_bit_of_a_limit() {
    let mut calls = 0;
    for bit in 0..64 {
        let mut lent = with_dirty(1, 2);
        lent.state[STATE_LIMIT][bit / 8] ^= 1 << (bit % 8);
        let number = if bit == 0 { 0 } else { 12 };
        calls += all_calls(&lent, number, number, &|| format!("bit {bit} of a limit of 2"));
    }
    println!("{calls} calls with one bit of the limit changed");
}

/// 1 before 12 before 2; 8 before 13 before 9, in every call that has them.
#[test]
fn the_order() {
    let set = |lent: &mut Lent, place: usize, number: u64| lent.state[place * 8..place * 8 + 8].copy_from_slice(&number.to_le_bytes());
    let mut lent = with_dirty(3, 2);
    set(&mut lent, 8, u64::MAX);
    let mut calls = all_calls(&lent, 13, 0, &|| "9 and 13".to_string());
    let mut uncached = lent.clone();
    uncached.addresses[2 * ROW + 4] ^= 1;
    calls += all_calls(&uncached, 8, 0, &|| "9, 13 and 8".to_string());
    set_limit(&mut uncached, 5);
    uncached.flash.pop();
    calls += all_calls(&uncached, 12, 12, &|| "9, 8, 2 and 12".to_string());
    set(&mut uncached, 1, 0);
    calls += all_calls(&uncached, 1, 1, &|| "9, 8, 2, 12 and 1".to_string());
    println!("{calls} calls with more and more wrong");
}

/// A refused opening keeps the limit as it was given, one that is served keeps it too.
#[test]
fn openings() {
    for (t, damage) in [0, 1, 4, 5, u64::MAX].into_iter().flat_map(|t| [false, true].map(|damage| (t, damage))) {
        let mut lent = with_dirty(2, t);
        if damage {
            lent.label.pop();
        }
        let expected = match (1..=4).contains(&t) {
            false => 12,
            true => 2 * damage as u32,
        };
        let kept = lent.clone();
        assert_eq!(compare(Call::Open, 0, &mut lent, 1, &|| format!("t = {t}")), expected);
        assert_eq!((lent.state[STATE_LIMIT].to_vec(), lent.numbers().n), (t.to_le_bytes().to_vec(), 0));
        assert_eq!(lent.state[STATE_LABEL], if expected == 0 { OFFICE } else { ZEROS }, "t = {t}");
        assert_eq!(lent.addresses == kept.addresses, expected != 0, "t = {t}");
    }
    println!("openings at limits 0, 1, m, m + 1 and the largest number");
}

/// A folder copies nothing for the limit, also where every dirty row that it may have is there.
#[test]
fn folders_at_the_limit() {
    let (seed, total) = (seed(804), count(4_000));
    let mut random = Random(seed);
    let mut full = 0;
    for turn in 0..total {
        let shape = Shape::below(&mut random, Shape { b: 64, p: 12, m: 8, d: 6 });
        let mut lent = sound(&mut random, shape);
        lent.state[40..72].fill(0);
        full += (dirty_rows(&lent) as u64 == lent.numbers().t) as usize;
        let asked: Vec<u32> = (0..1 + random.below(6)).map(|_| random.below(shape.p) as u32).collect();
        let mut folder = Folder { buffer: bytes(&mut random, asked.len() * shape.b), asked, answer: vec![0; 32] };
        let (mut without, mut same) = (lent.clone(), folder.clone());
        set_limit(&mut without, shape.m as u64);
        assert_eq!(carry_out_many(&mut without, &mut same), 0);
        let t = lent.numbers().t;
        assert_eq!(compare_many(&mut lent, &mut folder, turn % 32, &|| format!("turn {turn}, seed {seed}")), 0);
        set_limit(&mut without, t);
        assert!(lent.difference(&without).is_none() && folder == same, "turn {turn}, {shape:?}, seed {seed}");
    }
    assert!(full > total / 10, "{full} boxes at their limit");
    println!("{total} folders, {full} of them on boxes with as many dirty rows as the limit, are as without it (seed {seed})");
}
