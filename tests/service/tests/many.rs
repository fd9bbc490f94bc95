//! One call for a folder: worked cases, boxes that no list of calls need reach, refusals, and counters that pass their largest between two reads. After each
//! call every number and every byte is the model's. Folders in lists from fresh boxes are in `lists` and `laws`.
use common::Random;
use model::{carry_out, fingerprint, read_tables, refusal_many, AddressRow, BlockRow, Call, Folder, Label, Lent, ManyAnswer, Numbers};
use model::{BLOCK_SIZES, LABEL, MANY_CHECKS, MOST_COUNTED, ROW, STATE_LABEL, STATE_LIMIT};
use service::boxes::{bytes, damage, few_addresses, fill, folder, folder_count, noise, pick, sound, sound_at, Counts, Damage, Shape, DAMAGES};
use service::calls::{call, call_many};
use service::compare::compare_many;
use service::progress::{count, seed, Progress};

const B: usize = 64;
const OFFICE: Label = [0x4F; LABEL];

/// A box of held rows (address, content, dirty; each content has a seat of its own) and used block rows (content by the fingerprint, content of the slot), in
/// the order of the rows; disk block k has the byte k.
fn made(p: usize, m: usize, d: usize, held: &[(u32, u8, u8)], used: &[(u8, u8)]) -> Lent {
    let print = |content: u8| fingerprint(&OFFICE, &[content; B]);
    let row = |(address, content, dirty): &(u32, u8, u8)| {
        let (seat, fingerprint) = (0x0100 + *content as u16, print(*content));
        AddressRow { address: *address, fingerprint, dirty: *dirty, seat, padding: 0 }
    };
    let mut addresses: Vec<u8> = held.iter().flat_map(|one| row(one).to_bytes()).collect();
    addresses.resize(m * ROW, 0);
    let free = (used.len()..d).map(|slot| BlockRow { fingerprint: [0; 32], slot: slot as u32, used: 0, padding: [0; 3] });
    let others = used.iter().enumerate().map(|(slot, (content, _))| BlockRow { fingerprint: print(*content), slot: slot as u32, used: 1, padding: [0; 3] });
    let mut flash: Vec<u8> = used.iter().flat_map(|(_, stored)| [*stored; B]).collect();
    flash.resize(d * B, 0xAA);
    Lent {
        state: Numbers { b: B as u64, p: p as u64, m: m as u64, d: d as u64, n: held.len() as u64, counters: [0; 4], label: OFFICE, t: m as u64 }.to_bytes(),
        disk: (0..p).flat_map(|k| [k as u8; B]).collect(),
        flash,
        addresses,
        blocks: free.chain(others).flat_map(|row| row.to_bytes()).collect(),
        block: vec![],
        answer: vec![],
        label: vec![],
    }
}

/// Opens a folder and compares. Gives the answer, and the byte that fills each block.
fn opened(lent: &mut Lent, asked: &[u32]) -> (ManyAnswer, Vec<u8>) {
    let mut many = Folder { asked: asked.to_vec(), buffer: vec![0xEE; asked.len() * B], answer: vec![0xDD; 32] };
    assert_eq!(compare_many(lent, &mut many, 5, &|| "by hand".to_string()), 0);
    assert!(many.buffer.chunks_exact(B).all(|block| block.iter().all(|byte| *byte == block[0])));
    (ManyAnswer::from_bytes(&many.answer), many.buffer.chunks_exact(B).map(|block| block[0]).collect())
}

/// Cases worked out by hand from document 02, with the numbers that it gives.
#[test]
fn worked() {
    // Address 1 brings the dirty page of address 0 to the disk, and address 0 is fetched after that.
    let mut lent = made(2, 1, 1, &[(0, 7, 1)], &[(7, 7)]);
    assert_eq!(opened(&mut lent, &[1, 0]), (ManyAnswer { hits: 0, flash: 2, primary: 1, fetches: 2 }, vec![1, 7]));
    assert_eq!(lent.disk, [[7; B], [1; B]].concat());
    // From a fresh box: repeats that hit, and, with one block, repeats that miss and are no fetch.
    assert_eq!(opened(&mut made(8, 4, 4, &[], &[]), &[3, 5, 3, 3]), (ManyAnswer { hits: 2, flash: 2, primary: 0, fetches: 2 }, vec![3, 5, 3, 3]));
    assert_eq!(opened(&mut made(8, 4, 1, &[], &[]), &[3, 5, 3, 5]), (ManyAnswer { hits: 0, flash: 4, primary: 0, fetches: 2 }, vec![3, 5, 3, 5]));
    // A slot that has another block than its row says: the first read hits and gives 9, and the repeat misses and takes that, not the disk's 3.
    let mut lent = made(8, 2, 1, &[(3, 8, 0)], &[(8, 9)]);
    assert_eq!(opened(&mut lent, &[3, 5, 3]), (ManyAnswer { hits: 1, flash: 2, primary: 0, fetches: 1 }, vec![9, 5, 9]));
    assert_eq!((&lent.flash[..], &lent.blocks[..32]), (&[9; B][..], &fingerprint(&OFFICE, &[9; B])[..]));
    // The first read fetches 3, the second hits where the slot has 9, the third misses and takes the first one's block.
    let mut lent = made(8, 2, 1, &[], &[(3, 9)]);
    assert_eq!(opened(&mut lent, &[3, 3, 5, 3]), (ManyAnswer { hits: 1, flash: 2, primary: 0, fetches: 2 }, vec![3, 9, 5, 3]));
    // 64 addresses, and 64 times one address.
    let all: Vec<u32> = (0..64).collect();
    let answer = ManyAnswer { hits: 0, flash: 64, primary: 0, fetches: 64 };
    assert_eq!(opened(&mut made(64, 3, 2, &[], &[]), &all), (answer, (0..64).collect()));
    assert_eq!(opened(&mut made(64, 3, 2, &[], &[]), &[9; 64]), (ManyAnswer { hits: 63, flash: 1, primary: 0, fetches: 1 }, vec![9; 64]));
    println!("seven folders worked out by hand");
}

/// What the folders on sound boxes have met.
#[derive(Default)]
struct Met {
    boxes: usize,
    folders: usize,
    reads: u64,
    hits: u64,
    fetches: u64,
    /// Folders after which some byte is another than after the single reads, by the model.
    other_than_single: usize,
    /// Folders with two different blocks for one address.
    two_blocks: usize,
    past_the_largest: usize,
    refused: usize,
}

impl Met {
    fn show(&self, name: &str, seed: u64, progress: &Progress) {
        let Met { boxes, folders, reads, hits, fetches, other_than_single, two_blocks, past_the_largest, refused } = *self;
        let missed_repeats = reads - hits - fetches;
        println!("{name}: {folders} folders on {boxes} boxes agree with the model in every byte (seed {seed}, {:.1} s)", progress.seconds());
        println!("  {reads} reads, {hits} hits, {fetches} fetches, {missed_repeats} repeats that miss; {refused} folders refused");
        println!("  {other_than_single} leave other bytes than single reads, {two_blocks} have two blocks of one address");
        println!("  {past_the_largest} pass 2 to the power 63 with a counter");
    }
}

/// The state after single reads by the model, with 9 never told.
fn after_single_reads(before: &Lent, asked: &[u32], b: usize) -> (Lent, Vec<u8>) {
    let mut single = before.clone();
    let mut blocks = Vec::new();
    for a in asked {
        single.state[40..72].fill(0);
        (single.block, single.answer) = (vec![0; b], vec![0; 24]);
        assert_eq!(carry_out(Call::Read, *a, &mut single), 0);
        blocks.extend_from_slice(&single.block);
    }
    (single, blocks)
}

/// One to three folders, one after the other, on a sound box.
fn folders_on(random: &mut Random, lent: &mut Lent, met: &mut Met, seed: u64) {
    let b = lent.numbers().b as usize;
    met.boxes += 1;
    for _ in 0..1 + random.below(3) {
        let mut some = few_addresses(random, lent);
        // Often with two that are not held: their blocks may take the places of others, whose repeats then miss.
        let Numbers { p, n, .. } = lent.numbers();
        let held: Vec<u32> = read_tables(lent).0[..n as usize].iter().map(|row| row.address).collect();
        if random.below(3) > 0 {
            some.extend((0..p as u32).filter(|a| !held.contains(a)).take(2));
        }
        let count = folder_count(random);
        let mut many = folder(random, &some, b, count);
        let before = lent.clone();
        let number = compare_many(lent, &mut many, random.below(32), &|| format!("box {}, seed {seed}", met.boxes));
        let full = before.numbers().counters.iter().any(|counter| *counter > MOST_COUNTED);
        let expected = if count == 0 || count > 64 { 10 } else { 9 * full as u32 };
        assert_eq!(number, expected, "seed {seed}");
        met.folders += 1;
        if number != 0 {
            met.refused += 1;
            continue;
        }
        let ManyAnswer { hits, fetches, .. } = ManyAnswer::from_bytes(&many.answer);
        met.reads += count as u64;
        met.hits += hits;
        met.fetches += fetches;
        let (single, blocks) = after_single_reads(&before, &many.asked, b);
        met.other_than_single += (blocks != many.buffer || single.flash != lent.flash || single.blocks != lent.blocks) as usize;
        let block = |k: usize| &many.buffer[k * b..(k + 1) * b];
        met.two_blocks += (0..count).any(|k| many.asked[..k].iter().position(|a| *a == many.asked[k]).is_some_and(|j| block(j) != block(k))) as usize;
        met.past_the_largest += lent.numbers().counters.iter().any(|counter| *counter > MOST_COUNTED) as usize;
    }
}

#[test]
fn sound_boxes() {
    let (seed, total) = (seed(501), count(20_000));
    let mut random = Random(seed);
    let mut met = Met::default();
    let mut progress = Progress::new("folders on sound boxes", total);
    while met.folders < total {
        let b = pick(&mut random, &[64, 64, 64, 128, 256]);
        let most = pick(&mut random, &[Shape { b, p: 8, m: 6, d: 1 }, Shape { b, p: 8, m: 6, d: 2 }, Shape { b, p: 16, m: 10, d: 8 }]);
        let shape = Shape::below(&mut random, most);
        let place = random.below(32);
        let mut lent = if random.below(4) == 0 { sound_at(&mut random, shape, Some(place)) } else { sound(&mut random, shape) };
        if random.below(4) > 0 {
            lent.state[40..72].fill(0);
        }
        // A disk of other blocks than those in flash, and no row that would bring its block there.
        if random.below(2) == 0 {
            fill(&mut random, &mut lent.disk);
            lent.addresses.chunks_exact_mut(ROW).for_each(|row| row[36] = 0);
        }
        folders_on(&mut random, &mut lent, &mut met, seed);
        progress.at(met.folders);
    }
    met.show("sound boxes", seed, &progress);
    // These boxes are there to tell a repeat that takes the buffer's block from one that takes the disk's.
    assert!([met.other_than_single, met.two_blocks, met.past_the_largest].iter().all(|count| *count > met.folders / 100));
}

#[test]
fn large_sound_boxes() {
    let (seed, total) = (seed(502), count(400));
    let mut random = Random(seed);
    let mut met = Met::default();
    let mut progress = Progress::new("folders on large sound boxes", total);
    while met.folders < total {
        let b = pick(&mut random, &[64, 64, 4_096]);
        let p = if b == 64 && random.below(20) == 0 { 65_536 } else { 200 + random.below(1_500) };
        let shape = Shape { b, p, m: pick(&mut random, &[1_024, 1_024, 600]), d: pick(&mut random, &[256, 256, 130, 2]) };
        let mut lent = sound(&mut random, shape);
        folders_on(&mut random, &mut lent, &mut met, seed);
        progress.at(met.folders);
    }
    met.show("large sound boxes", seed, &progress);
    assert!(met.hits > 0 && met.fetches > 0);
}

/// What can be wrong with a folder's call: the box, the buffer's length, the count, an address.
#[derive(Clone, Copy, Debug, PartialEq)]
enum Wrong {
    Box(Damage),
    Buffer,
    Empty,
    TooMany,
    Address,
}

/// All of them with their numbers. The lent block and the one address of the other calls, and the label of an opening, are not there.
fn wrongs() -> Vec<(Wrong, u32)> {
    let of_the_box = DAMAGES.iter().filter(|(kind, _)| ![Damage::BlockLength, Damage::LabelLength, Damage::Address].contains(kind));
    let own = [(Wrong::Buffer, 2), (Wrong::Empty, 10), (Wrong::TooMany, 10), (Wrong::Address, 3)];
    of_the_box.map(|(kind, number)| (Wrong::Box(*kind), *number)).chain(own).collect()
}

/// A length that is not `count` blocks of `b` bytes.
fn wrong_buffer(random: &mut Random, count: usize, b: usize) -> usize {
    let right = count * b;
    let others = [0, 1, b, right / 2, right.saturating_sub(1), right.saturating_sub(b), right + 1, right + b, 2 * right, count, right + 40];
    loop {
        let other = pick(random, &others);
        if other != right {
            return other;
        }
    }
}

/// A box and a folder with all of these wrong, made of as many boxes as it takes.
fn wrong(random: &mut Random, wrongs: &[Wrong]) -> (Lent, Folder) {
    for _ in 0..1_000 {
        let b = pick(random, &[64, 64, 64, 128, 256]);
        let shape = Shape::below(random, Shape { b, p: 10, m: 6, d: 5 });
        let mut lent = sound(random, shape);
        let some = few_addresses(random, &lent);
        // From the last check to the first, as DAMAGES says.
        let of_the_box = DAMAGES.iter().rev().map(|(kind, _)| *kind).filter(|kind| wrongs.contains(&Wrong::Box(*kind)));
        if !of_the_box.into_iter().all(|kind| damage(random, &mut lent, &mut 0, kind)) {
            continue;
        }
        let count = if wrongs.contains(&Wrong::Empty) {
            0
        } else if wrongs.contains(&Wrong::TooMany) {
            pick(random, &[65, 65, 66, 70, 128, 320])
        } else {
            pick(random, &[1, 2, 5, 12, 63, 64])
        };
        let mut many = folder(random, &some, b, count);
        if wrongs.contains(&Wrong::Address) && count > 0 {
            let large = pick(random, &[shape.p as u32, shape.p as u32 + 1, u32::MAX, 1 << 31, 65_536]);
            // The first, the last or any.
            let place = pick(random, &[0, count - 1, count / 2]);
            many.asked[place] = large;
        }
        if wrongs.contains(&Wrong::Buffer) {
            let length = wrong_buffer(random, count, b);
            many.buffer.resize(length, 0);
        }
        return (lent, many);
    }
    panic!("no box can be broken by {wrongs:?}");
}

/// The first number of the documents' order that one of these has.
fn first_number(some: &[Wrong]) -> u32 {
    let numbers: Vec<u32> = wrongs().iter().filter(|(wrong, _)| some.contains(wrong)).map(|(_, number)| *number).collect();
    MANY_CHECKS.into_iter().find(|number| numbers.contains(number)).unwrap_or(0)
}

fn try_wrong(random: &mut Random, some: &[Wrong], numbers: &mut Counts, seed: u64) {
    // A folder is not empty and too long at once, and an empty one has no address.
    if some.contains(&Wrong::Empty) && (some.contains(&Wrong::TooMany) || some.contains(&Wrong::Address)) {
        return;
    }
    let (mut lent, mut many) = wrong(random, some);
    let number = compare_many(&mut lent, &mut many, random.below(32), &|| format!("{some:?}, seed {seed}"));
    assert_eq!(number, first_number(some), "{some:?}, seed {seed}");
    numbers[number as usize] += 1;
}

fn show_numbers(name: &str, numbers: &Counts, seed: u64, progress: &Progress) {
    let refused: Vec<String> = MANY_CHECKS.iter().map(|number| format!("{number}: {}", numbers[*number as usize])).collect();
    println!("{name}: folders refused with {}; served {} (seed {seed}, {:.1} s)", refused.join(", "), numbers[0], progress.seconds());
    assert!(MANY_CHECKS.iter().all(|number| numbers[*number as usize] > 0));
}

/// Each refusal alone; each two, which says their order; and more.
#[test]
fn refusals() {
    let (seed, turns) = (seed(503), count(60));
    let mut random = Random(seed);
    let mut numbers = Counts::default();
    let all: Vec<Wrong> = wrongs().into_iter().map(|(wrong, _)| wrong).collect();
    let mut progress = Progress::new("refused folders", turns);
    for turn in 0..turns {
        for (k, one) in all.iter().enumerate() {
            try_wrong(&mut random, &[*one], &mut numbers, seed);
            for two in &all[..k] {
                try_wrong(&mut random, &[*one, *two], &mut numbers, seed);
            }
        }
        for _ in 0..100 {
            let many: Vec<Wrong> = (0..3 + random.below(3)).map(|_| pick(&mut random, &all)).collect();
            try_wrong(&mut random, &many, &mut numbers, seed);
        }
        progress.at(turn);
    }
    show_numbers("each wrong thing, every two and more", &numbers, seed, &progress);
}

/// A state that has not 144 bytes or an answer that has not 32 gives 2, whatever else is wrong.
#[test]
fn other_lengths_of_state_and_answer() {
    let (seed, turns) = (seed(504), count(3_000));
    let mut random = Random(seed);
    let all: Vec<Wrong> = wrongs().into_iter().map(|(wrong, _)| wrong).collect();
    for _ in 0..turns {
        let some: Vec<Wrong> = (0..random.below(3)).map(|_| pick(&mut random, &all)).collect();
        let (mut lent, mut many) = wrong(&mut random, &some);
        if random.below(2) == 0 {
            let length = pick(&mut random, &[0, 1, 8, 40, 64, 71, 72, 72, 73, 128, 135, 136, 136, 143, 145, 200, 272, 288]);
            lent.state.resize(length, 0);
        } else {
            let length = pick(&mut random, &[0, 1, 8, 24, 24, 31, 33, 40, 72, 136, 144]);
            many.answer = bytes(&mut random, length);
        }
        assert_eq!(compare_many(&mut lent, &mut many, random.below(32), &|| format!("{some:?}, seed {seed}")), 2, "{some:?}, seed {seed}");
    }
    println!("states and answers of other lengths: {turns} folders give 2 (seed {seed})");
}

/// One to three bytes of a sound box changed anywhere in the state, the label and the limit among it, or the tables; and any numbers and bytes.
#[test]
fn changed_and_any_bytes() {
    let (seed, total) = (seed(505), count(35_000));
    let mut random = Random(seed);
    let mut numbers = Counts::default();
    let mut progress = Progress::new("folders on changed bytes", total);
    for turn in 0..total {
        let b = pick(&mut random, &[64, 64, 64, 128]);
        let shape = Shape::below(&mut random, Shape { b, p: 10, m: 6, d: 5 });
        let (mut lent, some, b) = if turn % 3 == 0 {
            let lent = noise(&mut random);
            let b = lent.block.len();
            (lent, vec![0, 0, 0, 1, 2, u32::MAX], b)
        } else {
            let lent = sound(&mut random, shape);
            let some = few_addresses(&mut random, &lent);
            (lent, some, shape.b)
        };
        for _ in 0..if turn % 3 == 0 { 0 } else { 1 + random.below(3) } {
            let buffer = match random.below(7) {
                0 => &mut lent.state[..STATE_LABEL.start],
                1 => &mut lent.state[STATE_LABEL],
                2 => &mut lent.state[STATE_LIMIT][..[1, 8][random.below(2)]],
                3 | 4 => &mut lent.addresses[..],
                _ => &mut lent.blocks[..],
            };
            let place = random.below(buffer.len());
            buffer[place] = pick(&mut random, &[buffer[place] ^ 1, buffer[place] ^ 128, 0, 1, 2, 255]);
        }
        let some = if turn % 3 == 0 && random.below(2) == 0 { vec![0] } else { some };
        let count = folder_count(&mut random);
        let mut many = folder(&mut random, &some, b, count);
        let number = compare_many(&mut lent, &mut many, random.below(32), &|| format!("turn {turn}, seed {seed}"));
        numbers[number as usize] += 1;
        progress.at(turn);
    }
    show_numbers("changed bytes and any bytes", &numbers, seed, &progress);
    assert!(numbers[0] > 0);
}

/// The buffer's length is count times B in whole numbers, for every B and for lists of any length: not in 16 or 32 bits, and before 10.
#[test]
fn lengths_of_the_buffer() {
    let mut random = Random(seed(506));
    let mut tried = 0;
    for b in BLOCK_SIZES {
        let lent = sound(&mut random, Shape { b, p: 3, m: 2, d: 2 });
        let wrong = |count: usize| [0, b, count * b - 1, count * b + 1, (count - 1) * b, (count + 1) * b].into_iter().filter(move |other| *other != count * b);
        let mut cases: Vec<(usize, usize)> = [1, 2, 63, 64, 65, 66, 200].iter().flat_map(|count| wrong(*count).map(|length| (*count, length))).collect();
        cases.extend([1, 2, 63, 64, 65, 66, 200, 1_000].map(|count| (count, count * b)));
        cases.extend([(0, 0), (0, 1), (0, b), (0, 64 * b)]);
        // Their products are these lengths only in 16 bits, and in 32.
        cases.extend([(65_536 / b, 0), (65_536 / b + 1, b), (65_536 / b + 64, 64 * b)]);
        if b >= 1_024 {
            cases.extend([((1 << 32) / b, 0), ((1 << 32) / b + 1, b), ((1 << 32) / b + 64, 64 * b)]);
        }
        for (count, length) in cases {
            let mut many = Folder { asked: vec![1; count], buffer: vec![0x5A; length], answer: vec![0x5A; 32] };
            let mut lent = lent.clone();
            let (before, kept) = (lent.clone(), many.clone());
            let number = call_many(&mut lent, &mut many);
            let expected = if length != count * b {
                2
            } else if count == 0 || count > 64 {
                10
            } else {
                0
            };
            assert_eq!((number, refusal_many(&before, &kept)), (expected, expected), "B = {b}, {count} addresses, {length} bytes");
            if number != 0 {
                assert!(lent == before && many == kept, "B = {b}, {count} addresses, {length} bytes");
            }
            tried += 1;
        }
    }
    println!("{tried} lengths of buffers and lists over every B");
}

/// 9 is told before the first read or not at all: a counter may pass 2 to the power 63 between two reads, and then the next call is refused.
#[test]
fn counters_between() {
    // Address 2 hits twice. Then there is one slot for the contents of addresses 1 and 0, and each read misses; address 0 is dirty at first, so that the
    // first miss copies its block to the disk.
    let (asked, misses) = ([2, 2, 1, 0, 1, 0], 4);
    for counter in 0..4 {
        let mut lent = made(3, 3, 1, &[(0, 2, 1), (2, 2, 0)], &[(2, 2)]);
        lent.state[(5 + counter) * 8..(6 + counter) * 8].copy_from_slice(&MOST_COUNTED.to_le_bytes());
        let mut single = lent.clone();
        let (answer, _) = opened(&mut lent, &asked);
        assert_eq!(answer, ManyAnswer { hits: 2, flash: misses, primary: 1, fetches: 2 });
        let mut expected = [6, 2, misses, 1];
        expected[counter] += MOST_COUNTED;
        assert_eq!(lent.numbers().counters, expected, "counter {counter}");
        // The single reads stop at 9: after the first one where reads or hits are counted, after the first miss where writes are.
        (single.block, single.answer) = (vec![0; B], vec![0; 24]);
        let served = asked.iter().take_while(|a| call(Call::Read, **a, &mut single) == 0).count();
        assert_eq!((served, call(Call::Read, 0, &mut single)), (if counter < 2 { 1 } else { 3 }, 9), "counter {counter}");
        // And so does the next folder.
        let kept = lent.clone();
        let mut many = Folder { asked: vec![0], buffer: vec![0; B], answer: vec![0; 32] };
        assert_eq!(compare_many(&mut lent, &mut many, 0, &|| format!("counter {counter}")), 9);
        assert!(lent == kept);
    }
    println!("each counter passes its largest within a folder, and the next folder is refused with 9");
}
