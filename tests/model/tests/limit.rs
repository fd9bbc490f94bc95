//! The limit on dirty rows by the model: cases worked out by hand from document 02 (U8), and lists beside the same lists without a limit.
use common::Random;
use model::{carry_out, exam, fingerprint, refusal, AddressRow, Answer, BlockRow, Cache, Call, Label, Lent, Numbers, CALLS, LABEL, ROW, STATE_LABEL, ZEROS};

const B: usize = 64;
const OFFICE: Label = [0x4F; LABEL];

/// A fresh box whose disk block k has the byte k.
fn fresh(m: usize, d: usize, t: usize) -> Cache {
    let disk = (0..8).flat_map(|k| [k as u8; B]).collect();
    Cache::fresh(B, 8, m, d, t, OFFICE, disk, vec![0xAA; d * B])
}

/// A call with a block of this byte: the flash writes and the primary writes of its answer.
fn call(cache: &mut Cache, call: Call, address: u32, content: u8) -> (u64, u64) {
    let Answer { first, second, .. } = cache.call(call, address, &mut vec![content; B]).unwrap();
    (first, second)
}

fn back(cache: &mut Cache, address: u32, content: u8) -> (u64, u64) {
    call(cache, Call::Back(7), address, content)
}

/// The dirty addresses, oldest use first, and the bytes that fill the disk's first blocks.
fn unsaved(cache: &Cache) -> (Vec<u32>, [u8; 4]) {
    (cache.dirty(), std::array::from_fn(|a| cache.disk_block(a as u32)[0]))
}

/// The row that is cleaned keeps its place, its seat and its block.
#[test]
fn the_oldest_is_copied() {
    let mut cache = fresh(3, 3, 1);
    assert_eq!(back(&mut cache, 0, 9), (1, 0));
    assert_eq!(unsaved(&cache), (vec![0], [0, 1, 2, 3]));
    assert_eq!(back(&mut cache, 1, 8), (1, 1));
    assert_eq!(unsaved(&cache), (vec![1], [9, 1, 2, 3]));
    assert_eq!(cache.rows().iter().map(|(a, row)| (*a, row.seat)).collect::<Vec<_>>(), [(0, 7), (1, 7)]);
    assert_eq!((cache.counters.primary, cache.cached_blocks()), (1, vec![&[9; B][..], &[8; B]]));
    // At a limit of 2 a read makes 0 newer than 1, so that 1 goes.
    let mut cache = fresh(3, 3, 2);
    assert_eq!([back(&mut cache, 0, 9), back(&mut cache, 1, 8), call(&mut cache, Call::Read, 0, 0), back(&mut cache, 2, 7)], [(1, 0), (1, 0), (0, 0), (1, 1)]);
    assert_eq!(unsaved(&cache), (vec![0, 2], [0, 8, 2, 3]));
    println!("a write back above a limit of 1, and one above a limit of 2 after a read");
}

/// One address again, an address that leaves by itself, a row that stays clean, and the calls that are no write back.
#[test]
fn where_nothing_more_is_copied() {
    let mut again = fresh(3, 3, 1);
    assert_eq!([back(&mut again, 0, 9), back(&mut again, 0, 8)], [(1, 0), (1, 0)]);
    assert_eq!(unsaved(&again), (vec![0], [0, 1, 2, 3]));
    // The step has copied the block of address 0 already: one primary write, not two.
    let mut one = fresh(1, 1, 1);
    assert_eq!([back(&mut one, 0, 9), back(&mut one, 1, 8)], [(1, 0), (1, 1)]);
    assert_eq!(unsaved(&one), (vec![1], [9, 1, 2, 3]));
    // Two dirty addresses lose their one block together.
    let mut shared = fresh(3, 1, 2);
    assert_eq!([back(&mut shared, 0, 9), back(&mut shared, 1, 9), back(&mut shared, 2, 7)], [(1, 0), (0, 0), (1, 2)]);
    assert_eq!(unsaved(&shared), (vec![2], [9, 9, 2, 3]));
    let mut cache = fresh(4, 4, 2);
    assert_eq!([back(&mut cache, 0, 9), back(&mut cache, 1, 8)], [(1, 0), (1, 0)]);
    assert_eq!(call(&mut cache, Call::Through(7), 2, 7), (1, 1));
    assert_eq!(call(&mut cache, Call::Read, 3, 0), (1, 0));
    // Saved unchanged: the clean address stays clean.
    assert_eq!(back(&mut cache, 2, 7), (0, 0));
    assert_eq!(unsaved(&cache), (vec![0, 1], [0, 1, 7, 3]));
    println!("a page saved twice, an address that leaves, a shared block, a write through, a read and an unchanged page");
}

/// A copy of the limit can be of a block that the call itself has stored, under another address.
#[test]
fn a_shared_content() {
    let mut cache = fresh(3, 3, 1);
    assert_eq!([back(&mut cache, 0, 9), back(&mut cache, 1, 9)], [(1, 0), (0, 1)]);
    assert_eq!(unsaved(&cache), (vec![1], [9, 1, 2, 3]));
    println!("two addresses with one content at a limit of 1");
}

/// A box in bytes, m = 3, d = 1, with so many dirty rows of one block.
fn lent(dirty: usize, t: u64) -> Lent {
    let g = fingerprint(&OFFICE, &[9; B]);
    let row = |address| AddressRow { address, fingerprint: g, dirty: 1, seat: 5, padding: 0 };
    let mut addresses: Vec<u8> = (0..dirty as u32).flat_map(|address| row(address).to_bytes()).collect();
    addresses.resize(3 * ROW, 0);
    Lent {
        state: Numbers { b: B as u64, p: 8, m: 3, d: 1, n: dirty as u64, counters: [0; 4], label: OFFICE, t }.to_bytes(),
        disk: vec![0; 8 * B],
        flash: vec![9; B],
        addresses,
        blocks: BlockRow { fingerprint: g, slot: 0, used: 1, padding: [0; 3] }.to_bytes(),
        block: vec![9; B],
        answer: vec![0; 24],
        label: vec![0x33; LABEL],
    }
}

/// 12 for each limit that is not 1 to m, in every call; 13 for each number of dirty rows above the limit, in every call but opening.
#[test]
fn refusals() {
    for t in [0, 4, 5, 1 << 32, (1 << 32) + 1, u64::MAX] {
        assert!(CALLS.into_iter().all(|call| refusal(call, 0, &lent(0, t)) == 12), "t = {t}");
    }
    for (dirty, t) in (0..=3).flat_map(|dirty| (1..=3).map(move |t| (dirty, t))) {
        let number = if dirty > t as usize { 13 } else { 0 };
        for call in CALLS {
            let expected = if call == Call::Open { 0 } else { number };
            assert_eq!(refusal(call, 0, &lent(dirty, t)), expected, "{call:?} with {dirty} dirty rows, t = {t}");
        }
    }
    println!("limits outside 1 to m, and 0 to 3 dirty rows beside each limit");
}

/// A refused opening keeps the limit as it was given, beside n = 0 and a label of zeros; a served one keeps it too.
#[test]
fn openings() {
    for t in [0, 1, 3, 4, u64::MAX] {
        let mut opened = lent(2, t);
        let served = (1..=3).contains(&t);
        assert_eq!(carry_out(Call::Open, 0, &mut opened), if served { 0 } else { 12 }, "t = {t}");
        assert_eq!((opened.numbers().t, opened.numbers().n), (t, 0));
        assert_eq!(opened.state[STATE_LABEL], if served { [0x33; LABEL] } else { ZEROS });
        assert_eq!(opened.addresses == lent(2, t).addresses, !served);
    }
    println!("openings at limits 0, 1, 3, 4 and the largest number");
}

/// "right after 1" and before 2 and 17; the limit changes no count.
#[test]
fn exam_questions() {
    let question = |b, t, k| exam::Question { b, p: 3, m: 2, d: 2, t, label: vec![0; LABEL], disk: vec![0; 3 * b], k, counts: vec![0; exam::COUNTS] };
    for (t, refused) in [(0, true), (1, false), (2, false), (3, true)] {
        assert_eq!(exam::refusal_question(&question(64, t, 4)), if refused { 12 } else { 0 }, "t = {t}");
        assert_eq!(exam::refusal_question(&question(128, t, 4)), if refused { 12 } else { 17 }, "t = {t}");
        let mut short = question(64, t, 4);
        short.disk.pop();
        assert_eq!(exam::refusal_question(&short), if refused { 12 } else { 2 }, "t = {t}");
        assert_eq!(exam::refusal_question(&question(65, t, 4)), 1, "t = {t}");
    }
    assert_eq!(exam::scores(&question(64, 1, 4)), exam::scores(&question(64, 2, 4)));
    println!("exam questions at limits 0 to 3 of m = 2");
}

/// Random lists at a limit and at m: words of reads and blocks read are the same, no state has more dirty rows than the limit, and the flushed disks are
/// the same.
#[test]
fn beside_no_limit() {
    let seed = 13;
    let mut random = Random(seed);
    let (mut calls, mut copies) = (0, 0);
    for _ in 0..400 {
        let (p, m, d) = (1 + random.below(12), 1 + random.below(6), 1 + random.below(5));
        let (t, contents) = (1 + random.below(m), 1 + random.below(8));
        let disk: Vec<u8> = (0..p).flat_map(|_| [random.below(contents) as u8; B]).collect();
        let [mut limited, mut free] = [t, m].map(|t| Cache::fresh(B, p, m, d, t, OFFICE, disk.clone(), vec![0; d * B]));
        for _ in 0..100 {
            // Half of the calls are writes back.
            let call = if random.below(2) == 0 { Call::Back(7) } else { CALLS[1 + random.below(7)] };
            let address = random.below(p) as u32;
            let block = vec![random.below(contents) as u8; B];
            let [(one, block_one), (two, block_two)] = [&mut limited, &mut free].map(|cache| {
                let mut block = block.clone();
                (cache.call(call, address, &mut block).unwrap(), block)
            });
            assert!(one.word == two.word && block_one == block_two, "{call:?} {address}, seed {seed}");
            assert!(limited.dirty().len() <= t, "seed {seed}");
            assert_eq!(limited.rows().iter().map(|row| row.0).collect::<Vec<_>>(), free.rows().iter().map(|row| row.0).collect::<Vec<_>>(), "seed {seed}");
            copies += (matches!(call, Call::Back(_)) && one.second > two.second) as usize;
            calls += 1;
        }
        for cache in [&mut limited, &mut free] {
            cache.call(Call::Flush, 0, &mut vec![]).unwrap();
        }
        assert!((0..p as u32).all(|a| limited.disk_block(a) == free.disk_block(a)), "seed {seed}");
    }
    assert!(copies > calls / 100, "{copies} copies");
    println!("{calls} calls beside the same calls without a limit, {copies} writes back with a copy more (seed {seed})");
}
