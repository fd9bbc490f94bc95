//! The proved tables against the model, on sound tables, tables broken in each way alone and together, and any bytes.
use common::Random;
use tables::model::{self, read_addresses, read_blocks, write_addresses, write_blocks, AddressRow};
use tables::probe::{self, NONE};
use tables::random::{damage, noise, sound, DAMAGES};
use tables::Tables;

/// The refusals of both agree, and the checks change nothing.
fn compare_checks(t: &Tables, context: &str) -> u32 {
    let before = t.clone();
    let number = model::refused(t);
    assert_eq!(probe::refused(t), number, "refused: {context}");
    assert_eq!(probe::addresses_unsound(&t.addresses, t.m, t.n, t.p), model::six(t), "6: {context}");
    assert_eq!(probe::blocks_unsound(&t.blocks, t.d), model::seven(t), "7: {context}");
    assert!(*t == before, "a check changed its input: {context}");
    number
}

/// What is asked of every row agrees, on tables that pass or not.
fn compare_questions(t: &Tables, random: &mut Random, context: &str) {
    let number = model::refused(t);
    let held = read_addresses(&t.addresses, t.n);
    let blocks = read_blocks(&t.blocks);
    let asked = |answer: usize| if number == 0 { answer } else { NONE };
    let before = t.clone();
    assert_eq!(probe::some_uncached(t), asked(model::some_uncached(&held, &blocks)), "some_uncached: {context}");
    assert_eq!(probe::oldest_unknown(t), asked(model::oldest_unknown(&held, &blocks)), "oldest_unknown: {context}");
    for k in [0, random.below(t.n.min(t.m) + 1), t.n] {
        let answer = held.get(k).map_or(NONE, |row| model::place(row, &blocks));
        assert_eq!(probe::place(t, k), asked(answer), "place of row {k}: {context}");
    }
    if t.n > t.m {
        assert_eq!(probe::find_address(&t.addresses, t.n, 0), NONE, "more rows than bytes: {context}");
        return;
    }
    let mut wanted: Vec<Vec<u8>> = vec![vec![0; 32], random.bytes(32)];
    wanted.extend((!held.is_empty()).then(|| held[random.below(held.len())].fingerprint.to_vec()));
    wanted.push(blocks[random.below(blocks.len())].fingerprint.to_vec());
    for g in &wanted {
        assert_eq!(probe::find_cached(&t.blocks, t.d, g), model::find_cached(&blocks, g), "find_cached: {context}");
        assert_eq!(probe::find_fingerprint(&t.addresses, t.n, g), model::find_fingerprint(&held, g), "find_fingerprint: {context}");
        assert_eq!(probe::find_cached(&t.blocks, t.d, &g[1..]), NONE, "31 bytes: {context}");
    }
    let mut addresses = vec![0, t.p as u32, random.number() as u32];
    addresses.extend(held.first().map(|row| row.address));
    addresses.extend(held.last().map(|row| row.address));
    for a in addresses {
        assert_eq!(probe::find_address(&t.addresses, t.n, a), model::find_address(&held, a), "find_address {a}: {context}");
    }
    let (i, j) = (random.below(t.n + 1), random.below(t.d));
    assert_eq!(probe::address_at(&t.addresses, t.n, i) as usize, held.get(i).map_or(NONE, |row| row.address as usize), "address_at: {context}");
    assert_eq!(probe::is_dirty(&t.addresses, t.n, i), held.get(i).map_or(false, |row| row.dirty == 1), "is_dirty: {context}");
    assert_eq!(probe::slot_at(&t.blocks, t.d, j), blocks[j].slot, "slot_at: {context}");
    assert_eq!(probe::is_used(&t.blocks, t.d, j), blocks[j].used == 1, "is_used: {context}");
    assert!(*t == before, "a search changed its input: {context}");
}

/// Each operation leaves the model's bytes. The address rows behind the first n, and rows that are not sound, stay as they are.
fn compare_moves(t: &Tables, random: &mut Random, context: &str) {
    let n = t.n.min(t.m);
    let held = read_addresses(&t.addresses, n);
    let rest = &t.addresses[n * 40..];
    let with_rest = |rows: &[AddressRow], rest: &[u8]| [&write_addresses(rows, rows.len())[..], rest].concat();
    let g: [u8; 32] = random.bytes(32).try_into().unwrap();
    let (a, dirty, seat) = (random.number() as u32, random.number() as u8, random.number() as u16);

    let i = random.below(n + 1);
    let mut bytes = t.addresses.clone();
    probe::remove_row(&mut bytes, n, i);
    let mut rows = held.clone();
    let expected = match i < n {
        true => {
            rows.remove(i);
            with_rest(&rows, &[&[0; 40][..], rest].concat())
        }
        false => t.addresses.clone(),
    };
    assert_eq!(bytes, expected, "remove_row {i}: {context}");

    let mut bytes = t.addresses.clone();
    probe::push_address(&mut bytes, n, a, &g, dirty, seat);
    let mut rows = held.clone();
    let expected = match n < t.m {
        true => {
            rows.push(AddressRow::new(a, g, dirty, seat));
            with_rest(&rows, &rest[40..])
        }
        false => t.addresses.clone(),
    };
    assert_eq!(bytes, expected, "push_address: {context}");
    probe::push_address(&mut bytes, n, a, &g[..31], dirty, seat);
    assert_eq!(bytes, expected, "push_address with 31 bytes: {context}");

    let mut bytes = t.addresses.clone();
    probe::set_clean(&mut bytes, n, i);
    let mut rows = held.clone();
    if i < n {
        rows[i].dirty = 0;
    }
    assert_eq!(bytes, with_rest(&rows, rest), "set_clean {i}: {context}");

    let blocks = read_blocks(&t.blocks);
    for j in [0, t.d - 1, random.below(t.d)] {
        for (name, change, expect) in [
            ("to_newest", probe::to_newest as fn(&mut [u8], usize, usize), model::to_newest as fn(&mut Vec<_>, usize)),
            ("to_front", probe::to_front, model::to_front),
        ] {
            let mut bytes = t.blocks.clone();
            change(&mut bytes, t.d, j);
            let mut rows = blocks.clone();
            expect(&mut rows, j);
            assert_eq!(bytes, write_blocks(&rows), "{name} {j}: {context}");
        }
        let mut bytes = t.blocks.clone();
        probe::put_block(&mut bytes, t.d, j, &g);
        let mut rows = blocks.clone();
        model::put_block(&mut rows, j, &g);
        assert_eq!(bytes, write_blocks(&rows), "put_block {j}: {context}");
    }
    let mut bytes = t.blocks.clone();
    probe::to_newest(&mut bytes, t.d, t.d);
    probe::to_front(&mut bytes, t.d, t.d);
    probe::put_block(&mut bytes, t.d, t.d, &g);
    probe::put_block(&mut bytes, t.d, 0, &g[..31]);
    assert_eq!(bytes, t.blocks, "a block row that is not there: {context}");

    probe::fresh_blocks(&mut bytes, t.d);
    assert_eq!(bytes, model::fresh_blocks(t.d), "fresh_blocks: {context}");
    let mut bytes = t.addresses.clone();
    probe::fresh_addresses(&mut bytes, t.m);
    assert_eq!(bytes, vec![0; t.m * 40], "fresh_addresses: {context}");
}

/// Sound tables pass; every operation that keeps tables sound leaves tables that pass 6 and 7.
#[test]
fn sound_tables() {
    let (seed, count) = (11, 20_000);
    let mut random = Random(seed);
    for turn in 0..count {
        let t = sound(&mut random, 12, 8);
        let context = format!("seed {seed}, turn {turn}");
        assert_eq!(compare_checks(&t, &context), 0, "{context}");
        compare_questions(&t, &mut random, &context);
        compare_moves(&t, &mut random, &context);
        let mut after = t.clone();
        probe::to_front(&mut after.blocks, t.d, random.below(t.d));
        let used: Vec<usize> = (0..t.d).filter(|k| probe::is_used(&after.blocks, t.d, *k)).collect();
        if !used.is_empty() {
            probe::to_newest(&mut after.blocks, t.d, used[random.below(used.len())]);
        }
        let g = random.bytes(32);
        probe::put_block(&mut after.blocks, t.d, random.below(t.d), &g);
        if t.n > 0 {
            probe::set_clean(&mut after.addresses, t.n, random.below(t.n));
            probe::remove_row(&mut after.addresses, t.n, random.below(t.n));
            after.n -= 1;
        }
        let a = random.below(t.p) as u32;
        if after.n < t.m && probe::find_address(&after.addresses, after.n, a) == NONE {
            probe::push_address(&mut after.addresses, after.n, a, &g, random.below(2) as u8, random.number() as u16);
            after.n += 1;
        }
        assert!(!model::six(&after) && !model::seven(&after), "no longer sound: {context}");
        compare_checks(&after, &context);
    }
    println!("{count} sound tables of up to 12 and 8 rows pass, and every operation on them leaves the model's bytes (seed {seed})");
}

/// Each condition of 6, 7 and 8 broken alone is refused with its number.
#[test]
fn broken_alone() {
    let (seed, each) = (12, 2_500);
    let mut random = Random(seed);
    for (kind, number) in DAMAGES {
        let mut count = 0;
        while count < each {
            let mut t = sound(&mut random, 12, 8);
            if !damage(&mut random, &mut t, kind) {
                continue;
            }
            let context = format!("seed {seed}, {kind:?}, table {count}");
            assert_eq!(compare_checks(&t, &context), number, "{context}");
            compare_questions(&t, &mut random, &context);
            count += 1;
        }
    }
    println!("{} tables broken in one of {} ways alone, {each} each, are refused with its number (seed {seed})", each * DAMAGES.len(), DAMAGES.len());
}

/// Up to five ways at once, and bytes changed anywhere.
#[test]
fn broken_together() {
    let (seed, count) = (13, 40_000);
    let mut random = Random(seed);
    let mut numbers = [0; 9];
    for turn in 0..count {
        let mut t = sound(&mut random, 12, 8);
        for _ in 0..random.below(6) {
            let kind = DAMAGES[random.below(DAMAGES.len())].0;
            damage(&mut random, &mut t, kind);
        }
        for _ in 0..random.below(3) {
            let (i, j) = (random.below(t.addresses.len()), random.below(t.blocks.len()));
            t.addresses[i] = random.number() as u8;
            t.blocks[j] = random.number() as u8;
        }
        let context = format!("seed {seed}, turn {turn}");
        numbers[compare_checks(&t, &context) as usize] += 1;
        compare_questions(&t, &mut random, &context);
        compare_moves(&t, &mut random, &context);
    }
    assert!([0, 6, 7, 8].iter().all(|number| numbers[*number] > 500), "too few of some number: {numbers:?}");
    println!(
        "{count} tables broken in up to five ways agree: {} pass, {} give 6, {} give 7, {} give 8 (seed {seed})",
        numbers[0], numbers[6], numbers[7], numbers[8]
    );
}

/// Any bytes and any numbers, also such as no table has.
#[test]
fn any_bytes() {
    let (seed, count) = (14, 60_000);
    let mut random = Random(seed);
    let mut numbers = [0; 9];
    for turn in 0..count {
        let t = noise(&mut random);
        numbers[compare_checks(&t, &format!("seed {seed}, turn {turn}, {t:?}")) as usize] += 1;
    }
    println!(
        "{count} tables of any bytes and sizes agree: {} pass, {} give 6, {} give 7, {} give 8 (seed {seed})",
        numbers[0], numbers[6], numbers[7], numbers[8]
    );
}

/// Tables up to the largest, with their edges: n = m, P = 65,536, all fingerprints in one bucket.
#[test]
fn large_tables() {
    let (seed, count) = (15, 600);
    let mut random = Random(seed);
    let (mut full, mut broken) = (0, 0);
    for turn in 0..count {
        let mut t = sound(&mut random, 1_024, 256);
        let context = format!("seed {seed}, turn {turn}, m {}, n {}, d {}, P {}", t.m, t.n, t.d, t.p);
        full += (t.n == t.m) as usize;
        assert_eq!(compare_checks(&t, &context), 0, "{context}");
        compare_questions(&t, &mut random, &context);
        compare_moves(&t, &mut random, &context);
        let (kind, number) = DAMAGES[turn % DAMAGES.len()];
        if damage(&mut random, &mut t, kind) {
            assert_eq!(compare_checks(&t, &context), number, "{kind:?}: {context}");
            broken += 1;
        }
    }
    assert!(full > 100 && broken > 500, "{full} full, {broken} broken");
    println!("{count} sound tables of up to 1,024 and 256 rows, {full} of them full, agree, and {broken} broken in one way (seed {seed})");
}

/// The edges of document 01: address P − 1 is held, P gives 6; slot d − 1 is right, d gives 7; a used fingerprint of zeros passes; twice it gives 7.
#[test]
fn edges() {
    let rows = |last: u32| vec![AddressRow::new(0, [0; 32], 0, 65_535), AddressRow::new(last, [7; 32], 0, 256)];
    let table = |p: usize, last: u32, slots: [u32; 2], second: u8| Tables {
        p,
        m: 2,
        n: 2,
        d: 2,
        addresses: write_addresses(&rows(last), 2),
        blocks: write_blocks(&[model::BlockRow::new([0; 32], slots[0], 1), model::BlockRow::new([second; 32], slots[1], 1)]),
    };
    let cases = [
        (table(65_536, 65_535, [1, 0], 7), 0),
        (table(65_535, 65_535, [1, 0], 7), 6),
        (table(65_536, 65_536, [1, 0], 7), 6),
        (table(2, 1, [0, 1], 9), 0),
        (table(2, 1, [0, 2], 9), 7),
        (table(2, 1, [1, 1], 9), 7),
        (table(2, 1, [0, 1], 0), 7),
    ];
    for (t, number) in &cases {
        assert_eq!(probe::refused(t), *number, "{t:?}");
        assert_eq!(model::refused(t), *number, "the model: {t:?}");
    }
    let empty = |p: usize, m: usize, d: usize| Tables { p, m, n: 0, d, addresses: vec![0; m * 40], blocks: model::fresh_blocks(d) };
    let sizes = [(65_536, 1_024, 256, 0), (65_537, 1_024, 256, 6), (65_536, 1_025, 256, 6), (65_536, 1_024, 257, 7), (0, 0, 0, 0)];
    for (p, m, d, number) in sizes {
        assert_eq!(compare_checks(&empty(p, m, d), &format!("fresh, P {p}, m {m}, d {d}")), number, "fresh, P {p}, m {m}, d {d}");
    }
    println!("{} tables at the edges give their numbers", cases.len() + sizes.len());
}
