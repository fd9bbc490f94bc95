//! The service on the document's replay, worked states and edges, with the numbers that the document prints.
use model::{fingerprint, read_tables, word, Answer, Call, Lent, Numbers, ROW, STATE_LABEL};
use service::calls::call;
use service::fresh::{fresh, unopened, B, OFFICE};

/// Runs a line of the replay's form: its answer's word, flash writes and primary writes; none of them for a look.
fn line(lent: &mut Lent, text: &str) -> String {
    let parts: Vec<&str> = text.split(' ').collect();
    let kind = match parts[0] {
        "R" => Call::Read,
        "L" => Call::Look,
        "F" => parts.get(1).map_or(Call::Flush, |most| Call::FlushSome(most.parse().unwrap())),
        "T" => Call::Through(0),
        "B" => Call::Back(0),
        _ => Call::Invalidate(0),
    };
    let address = parts.get(1).filter(|_| parts[0] != "F").map_or(0, |part| part.parse().unwrap());
    lent.block = vec![parts.get(2).map_or(0, |hh| u8::from_str_radix(hh, 16).unwrap()); B];
    assert_eq!(call(kind, address, lent), 0, "{text}");
    let answer = Answer::from_bytes(&lent.answer);
    let (flash, primary) = if kind == Call::Look { (0, 0) } else { (answer.first, answer.second) };
    format!("{text} {} {flash} {primary}", word(answer.word))
}

fn lines(lent: &mut Lent, texts: &[&str]) -> Vec<String> {
    texts.iter().map(|text| line(lent, text)).collect()
}

/// The rows as the document writes them: `address:content`, then the block rows.
fn is(lent: &Lent, held: &str, cached: &str) {
    let (rows, blocks) = read_tables(lent);
    let content = |g: [u8; 32]| (0..=255u8).find(|k| fingerprint(&OFFICE, &[*k; B]) == g).unwrap();
    let shown: Vec<String> = rows[..lent.numbers().n as usize].iter().map(|row| format!("{}:{}", row.address, content(row.fingerprint))).collect();
    assert_eq!(shown.join(" "), held);
    let block = |slot: u32| &lent.flash[slot as usize * B..(slot as usize + 1) * B];
    let shown: Vec<String> = blocks
        .iter()
        .map(|row| match row.used {
            0 => "-".to_string(),
            _ => {
                assert_eq!(fingerprint(&OFFICE, block(row.slot)), row.fingerprint);
                content(row.fingerprint).to_string()
            }
        })
        .collect();
    assert_eq!(shown.join(" "), cached);
}

const REPLAY: [&str; 8] = ["R 1", "R 2", "B 3 01", "R 3", "R 4", "R 2", "F", "L 3"];

fn after_replay() -> Lent {
    let mut lent = fresh(8, 3, 2, 3);
    lines(&mut lent, &REPLAY);
    lent
}

#[test]
fn the_replay() {
    let mut lent = fresh(8, 3, 2, 3);
    let expected = ["R 1 miss 1 0", "R 2 miss 1 0", "B 3 01 same 0 0", "R 3 hit 0 0", "R 4 miss 1 0", "R 2 miss 1 1", "F done 0 0", "L 3 disk 0 0"];
    assert_eq!(lines(&mut lent, &REPLAY), expected);
    assert_eq!(lent.numbers(), Numbers { b: 64, p: 8, m: 3, d: 2, n: 3, counters: [5, 1, 4, 1], label: OFFICE, t: 3 });
    assert_eq!(lent.disk[3 * B..4 * B], [1; B]);
    println!("the document's replay: 8 calls and the counters");
}

#[test]
fn e1_to_e8() {
    is(&after_replay(), "3:1 4:4 2:2", "4 2");
    let mut e2 = after_replay();
    line(&mut e2, "T 4 02");
    is(&e2, "3:1 2:2 4:2", "- 2");
    let mut e3 = after_replay();
    assert_eq!(line(&mut e3, "T 4 05"), "T 4 05 new 1 1");
    is(&e3, "3:1 2:2 4:5", "2 5");
    let mut e4 = after_replay();
    line(&mut e4, "I 2 07");
    is(&e4, "3:1 4:4", "- 4");
    let mut e5 = after_replay();
    assert_eq!(line(&mut e5, "R 3"), "R 3 miss 1 0");
    is(&e5, "4:4 2:2 3:1", "2 1");
    let mut e6 = fresh(8, 1, 2, 1);
    lines(&mut e6, &["R 1", "R 2", "R 3"]);
    is(&e6, "3:3", "2 3");
    let mut e7 = fresh(8, 1, 1, 1);
    lines(&mut e7, &["B 0 09", "R 1"]);
    assert_eq!(e7.disk[..B], [9; B]);
    is(&e7, "1:1", "1");
    let mut e8 = fresh(8, 2, 2, 2);
    assert_eq!(lines(&mut e8, &["T 0 05", "T 1 05"]), ["T 0 05 new 1 1", "T 1 05 same 0 1"]);
    is(&e8, "0:5 1:5", "- 5");
    println!("the worked states E1 to E8");
}

/// The rows of `further-states` in crates/paper/specs/Worked.antt, and the largest number.
#[test]
fn a_flush_in_parts() {
    let dirty = |lent: &Lent| read_tables(lent).0.iter().filter(|row| row.dirty == 1).map(|row| row.address).collect::<Vec<_>>();
    let mut lent = fresh(8, 3, 3, 3);
    lines(&mut lent, &["R 4", "B 0 09", "B 1 08"]);
    assert_eq!(line(&mut lent, "F 0"), "F 0 done 0 0");
    assert_eq!(dirty(&lent), [0, 1]);
    assert_eq!(line(&mut lent, "F 1"), "F 1 done 0 1");
    is(&lent, "4:4 0:9 1:8", "4 9 8");
    assert_eq!((dirty(&lent), lent.disk[0], lent.disk[B]), (vec![1], 9, 1));
    for all in ["F 9", "F 18446744073709551615", "F"] {
        let mut lent = fresh(8, 3, 3, 3);
        lines(&mut lent, &["B 0 09", "B 1 08", "B 2 07"]);
        assert_eq!(line(&mut lent, "F 2"), "F 2 done 0 2");
        assert_eq!(dirty(&lent), [2]);
        assert_eq!(line(&mut lent, all), format!("{all} done 0 1"));
        assert!(dirty(&lent).is_empty() && (0..3).all(|k| lent.disk[k * B..(k + 1) * B] == [9 - k as u8; B]));
        assert_eq!(lent.numbers().counters, [0, 0, 3, 3]);
    }
    println!("flushes of 0, of 1 of two dirty rows, of 2 of three, and of more than there are");
}

#[test]
fn edges() {
    for (b, number) in [(64, 0), (4_096, 0), (32, 1), (96, 1), (8_192, 1)] {
        let mut lent = unopened(b, 8, 3, 2, 3);
        let mut expected = lent.clone();
        assert_eq!(call(Call::Open, 0, &mut lent), number, "B = {b}");
        expected.state[32..40].fill(0);
        expected.state[STATE_LABEL].fill(0);
        if number == 0 {
            expected.state[40..72].fill(0);
            expected.state[STATE_LABEL].copy_from_slice(&OFFICE);
            expected.addresses.fill(0);
            expected.blocks.fill(0);
            expected.blocks[ROW + 32] = 1;
        }
        assert_eq!(lent.difference(&expected), None, "B = {b}");
    }
    for p in [1, 2, 255, 256, 65_535, 65_536] {
        let mut lent = fresh(p, 3, 2, 3);
        for kind in [Call::Read, Call::Through(1), Call::Back(2), Call::Invalidate(3), Call::Look] {
            assert_eq!(call(kind, p as u32 - 1, &mut lent), 0, "{kind:?} {}", p - 1);
            let kept = lent.clone();
            assert_eq!(call(kind, p as u32, &mut lent), 3, "{kind:?} {p}");
            assert_eq!(lent.difference(&kept), None);
        }
    }
    println!("the edges of B and of the address");
}

/// 2 to the power 63 is still counted on from; one more is refused with 9, but by look.
#[test]
fn largest_counters() {
    for (counter, counts) in [(0, Call::Read), (1, Call::Read), (2, Call::Back(1)), (3, Call::Through(2))] {
        let mut lent = fresh(8, 3, 2, 3);
        assert_eq!(call(Call::Read, 1, &mut lent), 0);
        let place = (5 + counter) * 8;
        lent.state[place..place + 8].copy_from_slice(&(1u64 << 63).to_le_bytes());
        for kind in [Call::Look, Call::Flush, Call::FlushSome(0)] {
            assert_eq!(call(kind, 1, &mut lent), 0);
        }
        assert_eq!(lent.numbers().counters[counter], 1 << 63);
        lent.block = vec![if matches!(counts, Call::Back(_)) { 0x77 } else { 1 }; B];
        assert_eq!(call(counts, 1, &mut lent), 0);
        assert_eq!(lent.numbers().counters[counter], (1 << 63) + 1, "counter {counter}");
        let kept = lent.clone();
        for kind in [Call::Read, Call::Through(1), Call::Back(2), Call::Invalidate(3), Call::Flush, Call::FlushSome(3)] {
            assert_eq!(call(kind, 1, &mut lent), 9, "{kind:?}, counter {counter}");
        }
        assert_eq!(lent.difference(&kept), None);
        assert_eq!(call(Call::Look, 1, &mut lent), 0);
    }
    println!("each counter at 2 to the power 63 and above");
}
