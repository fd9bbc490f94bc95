//! The document's replay, worked states and edges, as it prints them.
use model::{carry_out, fingerprint, machines::PrintedDlru, word, Answer, Cache, Call, Label, Lent, Numbers, LABEL, STATE_LABEL, STATE_LIMIT};

const B: usize = 64;
/// The label of the boxes here, and the bytes that a state has for a label before it is opened.
const OFFICE: Label = [0x4F; LABEL];
const BEFORE: Label = [0xB7; LABEL];

/// A fresh box without a limit, which is a limit of m, whose disk block k has the byte k.
fn fresh(p: usize, m: usize, d: usize) -> Cache {
    let disk = (0..p).flat_map(|k| [k as u8; B]).collect();
    Cache::fresh(B, p, m, d, m, OFFICE, disk, vec![0xAA; d * B])
}

/// Runs a line of the replay's form and gives the line that the document prints for it.
fn line(cache: &mut Cache, number: usize, text: &str) -> String {
    let parts: Vec<&str> = text.split(' ').collect();
    let call = match parts[0] {
        "R" => Call::Read,
        "L" => Call::Look,
        "F" => parts.get(1).map_or(Call::Flush, |most| Call::FlushSome(most.parse().unwrap())),
        "T" => Call::Through(0),
        "B" => Call::Back(0),
        "I" => Call::Invalidate(0),
        other => panic!("no call {other}"),
    };
    let address = parts.get(1).map_or(0, |part| part.parse().unwrap());
    let mut block = vec![parts.get(2).map_or(0, |hh| u8::from_str_radix(hh, 16).unwrap()); B];
    match cache.call(call, address, &mut block) {
        Err(refused) => format!("{number} refused {refused}"),
        Ok(answer) => {
            let (flash, primary) = if call == Call::Look { (0, 0) } else { (answer.first, answer.second) };
            format!("{number} {} {} {} {flash} {primary}", parts[0], parts.get(1).unwrap_or(&"-"), word(answer.word))
        }
    }
}

fn lines(cache: &mut Cache, texts: &[&str]) -> Vec<String> {
    texts.iter().enumerate().map(|(k, text)| line(cache, k + 1, text)).collect()
}

/// Rows as `address:content`, then the block rows, free ones as `-`.
fn shown(cache: &Cache) -> (String, String) {
    // A held row's content is that whose fingerprint it has.
    let content = |g: [u8; 32]| (0..=255u8).find(|k| fingerprint(&OFFICE, &[*k; B]) == g).unwrap();
    let rows: Vec<String> = cache.rows().iter().map(|(a, row)| format!("{a}:{}", content(row.fingerprint))).collect();
    let cached = cache.cached_blocks();
    let free = vec!["-".to_string(); cache.d - cached.len()];
    let used = cached.iter().map(|block| {
        assert!(block.iter().all(|byte| *byte == block[0]));
        block[0].to_string()
    });
    (rows.join(" "), free.into_iter().chain(used).collect::<Vec<_>>().join(" "))
}

fn is(cache: &Cache, rows: &str, blocks: &str) {
    assert_eq!(shown(cache), (rows.to_string(), blocks.to_string()));
}

const REPLAY: [&str; 8] = ["R 1", "R 2", "B 3 01", "R 3", "R 4", "R 2", "F", "L 3"];

fn after_replay() -> Cache {
    let mut cache = fresh(8, 3, 2);
    lines(&mut cache, &REPLAY);
    cache
}

#[test]
fn the_replay() {
    let mut cache = fresh(8, 3, 2);
    let mut output = lines(&mut cache, &REPLAY);
    let counters = cache.counters;
    output.push(format!("reads {} hits {} flash {} primary {}", counters.reads, counters.hits, counters.flash, counters.primary));
    let expected = "1 R 1 miss 1 0
2 R 2 miss 1 0
3 B 3 same 0 0
4 R 3 hit 0 0
5 R 4 miss 1 0
6 R 2 miss 1 1
7 F - done 0 0
8 L 3 disk 0 0
reads 5 hits 1 flash 4 primary 1";
    assert_eq!(output.join("\n"), expected);
    assert_eq!(cache.disk_block(3), [1; B]);
    println!("the document's replay: {} lines", output.len());
}

#[test]
fn e1_to_e8() {
    is(&after_replay(), "3:1 4:4 2:2", "4 2");

    let mut e2 = after_replay();
    assert_eq!(line(&mut e2, 9, "T 4 02"), "9 T 4 same 0 1");
    is(&e2, "3:1 2:2 4:2", "- 2");

    let mut e3 = after_replay();
    assert_eq!(line(&mut e3, 9, "T 4 05"), "9 T 4 new 1 1");
    is(&e3, "3:1 2:2 4:5", "2 5");

    let mut e4 = after_replay();
    assert_eq!(line(&mut e4, 9, "I 2 07"), "9 I 2 new 0 1");
    is(&e4, "3:1 4:4", "- 4");
    assert_eq!(e4.disk_block(2), [7; B]);

    let mut e5 = after_replay();
    assert_eq!(line(&mut e5, 9, "R 3"), "9 R 3 miss 1 0");
    is(&e5, "4:4 2:2 3:1", "2 1");

    let mut e6 = fresh(8, 1, 2);
    lines(&mut e6, &["R 1", "R 2", "R 3"]);
    is(&e6, "3:3", "2 3");

    let mut e7 = fresh(8, 1, 1);
    assert_eq!(lines(&mut e7, &["B 0 09", "R 1"]), ["1 B 0 new 1 0", "2 R 1 miss 1 1"]);
    is(&e7, "1:1", "1");
    assert_eq!(e7.disk_block(0), [9; B]);

    let mut e8 = fresh(8, 2, 2);
    assert_eq!(lines(&mut e8, &["T 0 05", "T 1 05"]), ["1 T 0 new 1 1", "2 T 1 same 0 1"]);
    is(&e8, "0:5 1:5", "- 5");
    println!("the worked states E1 to E8");
}

/// A box in bytes whose disk block k has the byte k, not opened yet.
fn lent(b: usize, p: usize, m: usize, d: usize) -> Lent {
    Lent {
        state: Numbers { b: b as u64, p: p as u64, m: m as u64, d: d as u64, n: 77, counters: [1, 2, 3, 4], label: BEFORE, t: m as u64 }.to_bytes(),
        disk: (0..p).flat_map(|k| vec![k as u8; b]).collect(),
        flash: vec![0xAA; d * b],
        addresses: vec![0xBB; m * 40],
        blocks: vec![0xCC; d * 40],
        block: vec![0xDD; b],
        answer: vec![0xEE; 24],
        label: OFFICE.to_vec(),
    }
}

#[test]
fn edges() {
    for (b, number) in [(64, 0), (4_096, 0), (32, 1), (96, 1), (8_192, 1)] {
        let before = lent(b, 8, 3, 2);
        let mut opened = before.clone();
        assert_eq!(carry_out(Call::Open, 0, &mut opened), number, "B = {b}");
        let mut expected = before.clone();
        // n = 0, and a label of zeros where it is refused.
        expected.state[32..40].fill(0);
        expected.state[STATE_LABEL].fill(0);
        if number == 0 {
            expected.state[40..72].fill(0);
            expected.state[STATE_LABEL].copy_from_slice(&OFFICE);
            expected.addresses.fill(0);
            expected.blocks = [[0; 40], [0; 40]].concat();
            expected.blocks[72] = 1;
        }
        assert_eq!(opened.difference(&expected), None, "B = {b}");
        if number == 0 {
            assert_eq!(carry_out(Call::Read, 7, &mut opened), 0);
            assert!(opened.block.iter().all(|byte| *byte == 7));
            assert_eq!(Answer::from_bytes(&opened.answer), Answer { word: model::MISS, first: 1, second: 0 });
            assert_eq!(carry_out(Call::Look, 7, &mut opened), 0);
            assert_eq!(Answer::from_bytes(&opened.answer), Answer { word: model::CACHE, first: 0, second: b as u64 });
            assert_eq!(carry_out(Call::Look, 6, &mut opened), 0);
            assert_eq!(Answer::from_bytes(&opened.answer), Answer { word: model::DISK, first: 6 * b as u64, second: b as u64 });
            let kept = opened.clone();
            for call in [Call::Read, Call::Through(7), Call::Back(7), Call::Invalidate(7), Call::Look] {
                assert_eq!(carry_out(call, 8, &mut opened), 3);
            }
            assert_eq!(opened.difference(&kept), None);
        }
    }
    println!("the edges of B and of the address");
}

/// The place of the limit among the eights of the state.
const LIMIT: usize = STATE_LIMIT.start / 8;

/// Each call checks the numbers of its own list, in the document's order, and 2 to the power 63 is still served.
#[test]
fn order_of_refusals() {
    let mut sound = lent(64, 8, 3, 2);
    carry_out(Call::Open, 0, &mut sound);
    carry_out(Call::Back(9), 5, &mut sound);
    let set = |lent: &mut Lent, place: usize, number: u64| lent.state[place * 8..place * 8 + 8].copy_from_slice(&number.to_le_bytes());
    let served = {
        let mut lent = sound.clone();
        set(&mut lent, 5, 1 << 63);
        lent
    };
    for call in model::CALLS {
        let mut lent = sound.clone();
        let mut expected = Vec::new();
        // From the last check to the first: each damage is added to those before it.
        set(&mut lent, 8, (1 << 63) + 1);
        expected.push((9, model::refusal(call, 8 - 1, &lent)));
        // Two dirty rows of one block, where the limit is 1.
        let second = [&0u32.to_le_bytes()[..], &lent.addresses[4..40]].concat();
        lent.addresses[40..80].copy_from_slice(&second);
        set(&mut lent, 4, 2);
        set(&mut lent, LIMIT, 1);
        expected.push((13, model::refusal(call, 8 - 1, &lent)));
        lent.blocks[40 + 3] ^= 1;
        expected.push((8, model::refusal(call, 8 - 1, &lent)));
        lent.blocks[37] = 1;
        expected.push((7, model::refusal(call, 8 - 1, &lent)));
        lent.addresses[39] = 1;
        expected.push((6, model::refusal(call, 8 - 1, &lent)));
        expected.push((3, model::refusal(call, 8, &lent)));
        lent.flash.pop();
        expected.push((2, model::refusal(call, 8, &lent)));
        set(&mut lent, LIMIT, 4);
        expected.push((12, model::refusal(call, 8, &lent)));
        set(&mut lent, 0, 65);
        expected.push((1, model::refusal(call, 8, &lent)));
        let mut first = 0;
        for (number, given) in expected {
            if call.checks().contains(&number) {
                first = number;
            }
            assert_eq!(given, first, "{call:?} with damage {number}");
        }
        assert_eq!(model::refusal(call, 7, &served), 0, "{call:?}");
    }
    println!("eight calls with one damage more each time: the first check of the document's order that applies");
}

/// Two dirty rows behind a clean one, and three dirty rows: the rows of `further-states` in crates/paper/specs/Worked.antt.
#[test]
fn a_flush_in_parts() {
    let dirty = |cache: &Cache| cache.rows().iter().filter(|(_, row)| row.dirty).map(|(a, _)| *a).collect::<Vec<_>>();
    let mut cache = fresh(8, 3, 3);
    let said = lines(&mut cache, &["R 4", "B 0 09", "B 1 08", "F 0", "F 1"]);
    assert_eq!(said[3..], ["4 F 0 done 0 0", "5 F 1 done 0 1"]);
    is(&cache, "4:4 0:9 1:8", "4 9 8");
    assert_eq!((dirty(&cache), cache.disk_block(0)[0], cache.disk_block(1)[0]), (vec![1], 9, 1));
    let mut cache = fresh(8, 3, 3);
    let said = lines(&mut cache, &["B 0 09", "B 1 08", "B 2 07", "F 2"]);
    assert_eq!((said[3].as_str(), dirty(&cache)), ("4 F 2 done 0 2", vec![2]));
    assert_eq!(line(&mut cache, 5, "F 9"), "5 F 9 done 0 1");
    assert!(dirty(&cache).is_empty() && (0..3).all(|a| cache.disk_block(a)[0] == 9 - a as u8));
    println!("flushes of 0, of 1 of two dirty rows, of 2 of three, and of more than there are");
}

#[test]
fn printed_dlru() {
    let disk: Vec<u8> = [1u8, 2, 1, 3].iter().flat_map(|k| [*k; B]).collect();
    let mut printed = PrintedDlru::new(&OFFICE, &disk, B, 2, 2);
    // The block of address 2 is that of address 0: its fingerprint is there, its address is not.
    let hits: Vec<Option<bool>> = [0, 1, 0, 2, 0, 3].iter().map(|a| printed.feed(*a, false)).collect();
    assert_eq!(hits, [false, false, true, false, true, false].map(Some));
    assert_eq!(printed.addresses, [0, 3]);
    assert_eq!(printed.fingerprints, [1, 3].map(|k| fingerprint(&OFFICE, &[k; B])));
    assert_eq!(printed.feed(1, true), None);
    println!("the printed D-LRU: six reads and a refused one");
}
