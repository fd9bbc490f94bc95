//! One call for a folder by the model: cases worked out by hand from document 02, and the reads in turn.
use common::Random;
use model::{carry_out, carry_out_many, fingerprint, refusal_many, AddressRow, Answer, BlockRow, Cache, Call, Folder, Label, Lent, ManyAnswer, Numbers};
use model::{HIT, LABEL, ROW, STATE_LIMIT};

const B: usize = 64;
const OFFICE: Label = [0x4F; LABEL];

/// A fresh box without a limit, which is a limit of m, whose disk block k has the byte k.
fn fresh(p: usize, m: usize, d: usize) -> Cache {
    let disk = (0..p).flat_map(|k| [k as u8; B]).collect();
    Cache::fresh(B, p, m, d, m, OFFICE, disk, vec![0xAA; d * B])
}

/// The folder's answer, and the byte that fills each block read.
fn opened(cache: &mut Cache, asked: &[u32]) -> (ManyAnswer, Vec<u8>) {
    let mut buffer = vec![0xEE; asked.len() * B];
    let answer = cache.read_many(asked, &mut buffer).unwrap();
    let blocks: Vec<&[u8]> = buffer.chunks_exact(B).collect();
    assert!(blocks.iter().all(|block| block.iter().all(|byte| *byte == block[0])));
    (answer, blocks.iter().map(|block| block[0]).collect())
}

/// A block is fetched at its own turn: the read of address 1 brings the page of address 0 to the disk before that is fetched.
#[test]
fn fetched_in_turn() {
    let mut cache = fresh(2, 1, 1);
    cache.call(Call::Back(0), 0, &mut vec![7; B]).unwrap();
    assert_eq!(opened(&mut cache, &[1, 0]), (ManyAnswer { hits: 0, flash: 2, primary: 1, fetches: 2 }, vec![1, 7]));
    assert_eq!((cache.disk_block(0), cache.disk_block(1)), (&[7; B][..], &[1; B][..]));
    println!("write back 7 to address 0, then the folder 1 0: blocks 1 and 7");
}

/// Repeats that hit, repeats that miss, and how many fetches there are then.
#[test]
fn repeats() {
    // Room for all: each repeat is a hit.
    assert_eq!(opened(&mut fresh(8, 4, 4), &[3, 5, 3, 3]), (ManyAnswer { hits: 2, flash: 2, primary: 0, fetches: 2 }, vec![3, 5, 3, 3]));
    // One block: each read is a miss, and two of the four are first reads.
    assert_eq!(opened(&mut fresh(8, 4, 1), &[3, 5, 3, 5]), (ManyAnswer { hits: 0, flash: 4, primary: 0, fetches: 2 }, vec![3, 5, 3, 5]));
    // A first read that hits is no fetch, and neither is its repeat that misses.
    let mut cache = fresh(8, 4, 1);
    cache.call(Call::Read, 3, &mut vec![0; B]).unwrap();
    assert_eq!(opened(&mut cache, &[3, 5, 3]), (ManyAnswer { hits: 1, flash: 2, primary: 0, fetches: 1 }, vec![3, 5, 3]));
    let counters = cache.counters;
    assert_eq!([counters.reads, counters.hits, counters.flash, counters.primary], [4, 1, 3, 0]);
    println!("repeats that hit and repeats that miss");
}

/// A box in bytes: m = 2, d = 1, disk block k has the byte k. Address 3, if it is held, and the one block row have the fingerprint of `print`; the slot
/// has `stored`.
fn off_the_premise(held: bool, print: u8, stored: u8) -> Lent {
    let g = fingerprint(&OFFICE, &[print; B]);
    let row = AddressRow { address: 3, fingerprint: g, dirty: 0, seat: 0x5A7, padding: 0 };
    let mut addresses = if held { row.to_bytes() } else { Vec::new() };
    addresses.resize(2 * ROW, 0);
    Lent {
        state: Numbers { b: B as u64, p: 8, m: 2, d: 1, n: held as u64, counters: [0; 4], label: OFFICE, t: 1 }.to_bytes(),
        disk: (0..8u8).flat_map(|k| [k; B]).collect(),
        flash: vec![stored; B],
        addresses,
        blocks: BlockRow { fingerprint: g, slot: 0, used: 1, padding: [0; 3] }.to_bytes(),
        block: vec![],
        answer: vec![],
        label: vec![],
    }
}

fn folder(asked: &[u32]) -> Folder {
    Folder { asked: asked.to_vec(), buffer: vec![0xEE; asked.len() * B], answer: vec![0xDD; 32] }
}

/// On a box that no list reaches, a repeat that misses takes the block of its first read, and is hashed as that block.
#[test]
fn the_first_block_again() {
    // Address 3 hits and gives 9, where the disk has 3. Then the read of 5 takes the slot, and the repeat misses.
    let (mut lent, mut asked) = (off_the_premise(true, 8, 9), folder(&[3, 5, 3]));
    assert_eq!(carry_out_many(&mut lent, &mut asked), 0);
    assert_eq!(asked.buffer, [[9; B], [5; B], [9; B]].concat());
    assert_eq!(ManyAnswer::from_bytes(&asked.answer), ManyAnswer { hits: 1, flash: 2, primary: 0, fetches: 1 });
    assert_eq!(lent.flash, [9; B]);
    assert_eq!(lent.blocks[..32], fingerprint(&OFFICE, &[9; B]));
    assert_eq!(lent.addresses[ROW + 4..ROW + 36], fingerprint(&OFFICE, &[9; B]));
    assert_eq!(lent.disk[3 * B..4 * B], [3; B]);
    // The reads in turn, as single calls, take the disk's block the second time.
    let mut single = off_the_premise(true, 8, 9);
    let mut blocks = Vec::new();
    for a in [3, 5, 3] {
        (single.block, single.answer) = (vec![0; B], vec![0; 24]);
        assert_eq!(carry_out(Call::Read, a, &mut single), 0);
        blocks.push(single.block[0]);
    }
    assert_eq!(blocks, [9, 5, 3]);

    // The first read misses and gives 3; the second hits, in a slot with another block; the third misses and takes the first one's.
    let (mut lent, mut asked) = (off_the_premise(false, 3, 9), folder(&[3, 3, 5, 3]));
    assert_eq!(carry_out_many(&mut lent, &mut asked), 0);
    assert_eq!(asked.buffer, [[3; B], [9; B], [5; B], [3; B]].concat());
    assert_eq!(ManyAnswer::from_bytes(&asked.answer), ManyAnswer { hits: 1, flash: 2, primary: 0, fetches: 2 });
    println!("two boxes off the premise: a repeat that misses takes the first read's block");
}

/// From fresh boxes, after lists of calls: blocks, tables, flash, disk and counters are those of the reads in turn, and the fetches are the first reads
/// that miss.
#[test]
fn as_the_reads_in_turn() {
    let seed = 12;
    let mut random = Random(seed);
    let (mut folders, mut reads, mut hits, mut missed_repeats) = (0, 0, 0, 0);
    for _ in 0..400 {
        let (p, m, d) = (1 + random.below(12), 1 + random.below(6), 1 + random.below(5));
        let contents = 1 + random.below(8);
        let disk: Vec<u8> = (0..p).flat_map(|_| [random.below(contents) as u8; B]).collect();
        let flash = random.bytes(d * B);
        let mut cache = Cache::fresh(B, p, m, d, 1 + random.below(m), OFFICE, disk.clone(), flash.clone());
        let mut lent = Lent { state: vec![], disk, flash, addresses: vec![], blocks: vec![], block: vec![], answer: vec![], label: vec![] };
        for _ in 0..30 {
            let call = model::CALLS[1 + random.below(6)].by_seat(random.number() as u16);
            cache.call(call, random.below(p) as u32, &mut vec![random.below(contents) as u8; B]).unwrap();
            let asked: Vec<u32> = (0..1 + random.below(12)).map(|_| random.below(p) as u32).collect();
            let mut single = cache.clone();
            let (mut expected, mut blocks) = (ManyAnswer::default(), Vec::new());
            for (k, a) in asked.iter().enumerate() {
                let mut block = vec![0; B];
                let Answer { word, first, second } = single.call(Call::Read, *a, &mut block).unwrap();
                expected.hits += (word == HIT) as u64;
                expected.flash += first;
                expected.primary += second;
                expected.fetches += (word != HIT && !asked[..k].contains(a)) as u64;
                blocks.extend(block);
            }
            let mut buffer = vec![0; asked.len() * B];
            assert_eq!(cache.read_many(&asked, &mut buffer), Ok(expected), "{asked:?}, seed {seed}");
            assert!(buffer == blocks, "{asked:?}, seed {seed}");
            single.store(&mut lent);
            assert_eq!(cache.difference(&lent), None, "{asked:?}, seed {seed}");
            folders += 1;
            reads += asked.len() as u64;
            hits += expected.hits;
            missed_repeats += asked.len() as u64 - expected.hits - expected.fetches;
        }
    }
    assert!(hits > 1_000 && missed_repeats > 1_000, "{hits} hits, {missed_repeats} repeats that miss");
    println!("{folders} folders with {reads} reads, {hits} hits, {missed_repeats} repeats that miss, as the reads in turn (seed {seed})");
}

/// Each check of the documents' order with those behind it; a list of 1 and of 64 is served, and a counter of 2 to the power 63.
#[test]
fn order_of_refusals() {
    let set = |lent: &mut Lent, place: usize, number: u64| lent.state[place * 8..place * 8 + 8].copy_from_slice(&number.to_le_bytes());
    let mut lent = off_the_premise(true, 3, 3);
    set(&mut lent, 6, 1 << 63);
    for count in [1, 64] {
        assert_eq!(refusal_many(&lent, &folder(&vec![7; count])), 0);
    }
    for count in [0, 65] {
        assert_eq!(refusal_many(&lent, &folder(&vec![7; count])), 10);
    }
    let mut many = folder(&[1, 7, 1]);
    set(&mut lent, 6, (1 << 63) + 1);
    assert_eq!(refusal_many(&lent, &many), 9);
    // Two dirty rows of one block, where the limit is 1.
    lent.addresses[36] = 1;
    let second = [&1u32.to_le_bytes()[..], &lent.addresses[4..ROW]].concat();
    lent.addresses[ROW..].copy_from_slice(&second);
    set(&mut lent, 4, 2);
    assert_eq!(refusal_many(&lent, &many), 13);
    lent.addresses[4] ^= 1;
    assert_eq!(refusal_many(&lent, &many), 8);
    lent.blocks[37] = 1;
    assert_eq!(refusal_many(&lent, &many), 7);
    lent.addresses[39] = 1;
    assert_eq!(refusal_many(&lent, &many), 6);
    many.asked[1] = 8;
    assert_eq!(refusal_many(&lent, &many), 3);
    let (one, most) = (folder(&[]), folder(&vec![8; 65]));
    assert_eq!((refusal_many(&lent, &one), refusal_many(&lent, &most)), (10, 10));
    for mut many in [one, many, most] {
        many.buffer.push(0);
        assert_eq!(refusal_many(&lent, &many), 2);
        many.buffer.pop();
        many.answer.pop();
        assert_eq!(refusal_many(&lent, &many), 2);
        many.answer.push(0);
        let mut lent = lent.clone();
        lent.flash.pop();
        assert_eq!(refusal_many(&lent, &many), 2);
        set(&mut lent, STATE_LIMIT.start / 8, 3);
        assert_eq!(refusal_many(&lent, &many), 12);
        set(&mut lent, 0, 65);
        assert_eq!(refusal_many(&lent, &many), 1);
        many.answer.pop();
        assert_eq!(refusal_many(&lent, &many), 2);
    }
    println!("one call for a folder with one damage more each time: the first of 1, 12, 2, 10, 3, 6, 7, 8, 13, 9 that applies");
}
