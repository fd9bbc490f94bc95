//! Images by the model: one worked byte by byte from document 02 (U10), each refusal of a restore alone and their order, 14 after 9 in a save, power cuts.
use model::image::{area_length, body, carry_out_restore, carry_out_save, cut, header, header_length, refusal_save, room, writes};
use model::{carry_out, fingerprint, Answer, Call, Label, Lent, Numbers, DONE, LABEL, ROW};

const B: usize = 64;
const OFFICE: Label = [0x4F; LABEL];
/// The room for a box of two address rows and one block row: L = 28 + 64 + 3 x 40 = 212, in four writes behind the header.
const ROOM: usize = 64 + 256;

/// A box of P = 3, m = 2, d = 1, t = 2: address 2 is held dirty with the content 9, by seat 0x0201.
fn dirty_box() -> Lent {
    let mut lent = Lent {
        state: Numbers { b: 64, p: 3, m: 2, d: 1, n: 0, counters: [0; 4], label: [0; LABEL], t: 2 }.to_bytes(),
        disk: (0..3).flat_map(|k| [k; B]).collect(),
        flash: vec![0xAA; B],
        addresses: vec![0xBB; 2 * ROW],
        blocks: vec![0xCC; ROW],
        block: vec![9; B],
        answer: vec![0xEE; 24],
        label: OFFICE.to_vec(),
    };
    assert_eq!((carry_out(Call::Open, 0, &mut lent), carry_out(Call::Back(0x0201), 2, &mut lent)), (0, 0));
    lent
}

/// A box whose state and tables are any bytes but for the counters, and that has the right lengths for an image of the box above.
fn stale(lent: &Lent) -> Lent {
    let state = Numbers { counters: [5, 6, 7, u64::MAX], ..Numbers::from_bytes(&[0x5A; 144]) }.to_bytes();
    Lent { state, addresses: vec![0x77; 2 * ROW], blocks: vec![0x88; ROW], ..lent.clone() }
}

/// The box saved, and its area with ten bytes more than it needs.
fn saved() -> (Lent, Vec<u8>) {
    let (mut lent, mut area) = (dirty_box(), vec![0xDD; ROOM + 10]);
    assert_eq!(carry_out_save(&mut lent, &mut area), 0);
    (lent, area)
}

#[test]
fn byte_by_byte() {
    let (lent, area) = saved();
    // The flush: address 2 reaches the disk and its row is clean.
    assert_eq!((lent.disk[2 * B..].to_vec(), lent.addresses[36]), (vec![9; B], 0));
    assert_eq!((Answer::from_bytes(&lent.answer), lent.numbers().counters), (Answer { word: DONE, first: 0, second: 1 }, [0, 0, 1, 1]));
    let g = fingerprint(&OFFICE, &[9; B]);
    let mut expected = b"VBX".to_vec();
    expected.extend([1, 0]);
    expected.extend([212, 0, 0, 0]);
    expected.extend([0; 55]);
    expected.extend([0, 0, 0, 0]);
    expected.extend([64, 0, 0, 0]);
    expected.extend([3, 0, 0, 0]);
    expected.extend([2, 0, 0, 0]);
    expected.extend([1, 0, 0, 0]);
    expected.extend([1, 0, 0, 0]);
    expected.extend([2, 0, 0, 0]);
    expected.extend([0x4F; 64]);
    expected.extend([2, 0, 0, 0]);
    expected.extend(g);
    expected.extend([0, 1, 2, 0]);
    expected.extend([0; 40]);
    expected.extend(g);
    expected.extend([0, 0, 0, 0, 1, 0, 0, 0]);
    assert_eq!(expected.len(), 64 + 212);
    expected.extend([0; 44]);
    expected.extend([0xDD; 10]);
    assert_eq!(area, expected);
    println!("an image of {} bytes, byte by byte", ROOM);
}

#[test]
fn given_back() {
    let (lent, mut area) = saved();
    let before = area.clone();
    let mut back = stale(&lent);
    assert_eq!(carry_out_restore(&mut back, &mut area, 0), 0);
    let expected = Lent { state: Numbers { counters: [5, 6, 7, u64::MAX], ..lent.numbers() }.to_bytes(), ..lent.clone() };
    assert_eq!(back.difference(&expected), None);
    assert_eq!((&area[..64], &area[64..]), (&[0; 64][..], &before[64..]));
    // The header is gone: a second restore finds no image, and leaves a record of zeros.
    assert_eq!(carry_out_restore(&mut back, &mut area, 0), 15);
    assert_eq!(back.numbers(), Numbers { counters: [5, 6, 7, u64::MAX], ..Numbers::from_bytes(&[0; 144]) });
    assert!(back.addresses == expected.addresses && back.blocks == expected.blocks);
    println!("a box given back once");
}

/// What can be wrong with a restore, in the order of its checks; every number of the body is wrong in a way of its own.
type Wrong = (&'static str, u32, fn(&mut Vec<u8>, &mut Lent, &mut usize));
const WRONG: [Wrong; 26] = [
    ("no mark", 15, |area, _, _| area[0] = b'v'),
    ("the mark's second byte", 15, |area, _, _| area[1] = 0),
    ("the mark's third byte", 15, |area, _, _| area[2] = b'Y'),
    ("version 0", 15, |area, _, _| area[3] = 0),
    ("version 2", 15, |area, _, _| area[3] = 2),
    ("version 257", 15, |area, _, _| area[4] = 1),
    ("a byte behind the length", 15, |area, _, _| area[9] = 1),
    ("the header's last byte", 15, |area, _, _| area[63] = 1),
    ("an area of 63 bytes", 15, |area, _, _| area.truncate(63)),
    ("an area of no byte", 15, |area, _, _| area.clear()),
    ("an area without the fill's last byte", 14, |area, _, _| area.truncate(ROOM - 1)),
    ("a header alone", 14, |area, _, _| area.truncate(64)),
    ("a length above the area", 14, |area, _, _| area[5..9].fill(255)),
    ("a D-LRU body that starts as a D-ARC one", 16, |area, _, _| area[64] = 1),
    ("a kind that is none", 16, |area, _, _| area[67] = 1),
    ("B of 65", 16, |area, _, _| area[68] = 65),
    ("P of 0", 16, |area, _, _| area[72] = 0),
    ("m too large for any area", 16, |area, _, _| area[76..80].fill(255)),
    ("d too large for any area", 16, |area, _, _| area[80..84].fill(255)),
    ("n above m", 16, |area, _, _| area[84] = 3),
    ("t of 0", 16, |area, _, _| area[88] = 0),
    ("the address table", 16, |area, _, _| area[156 + 39] = 1),
    ("the block table", 16, |area, _, _| area[156 + 2 * ROW + 37] = 1),
    ("a longer address table lent", 2, |_, lent, _| lent.addresses.push(0)),
    ("a shorter block table lent", 2, |_, lent, _| lent.blocks.truncate(ROW - 1)),
    ("lists of a byte", 2, |_, _, lists| *lists = 1),
];

/// Bodies of other lengths by their header, all of them short enough for the area.
const OTHER_LENGTHS: [Wrong; 5] = [
    ("a body of no byte", 16, |area, _, _| area[5] = 0),
    ("a body shorter than its numbers", 16, |area, _, _| area[5] = 27),
    ("a body of its numbers alone", 16, |area, _, _| area[5] = 28),
    ("a body that is a byte shorter", 16, |area, _, _| area[5] -= 1),
    ("a body that is a byte longer", 16, |area, _, _| area[5] += 1),
];

/// A refused restore: its number, with everything kept but the record, which is zeros.
fn refused(wrong: &[&Wrong], number: u32) {
    let (lent, mut area) = saved();
    let (mut back, mut lists) = (stale(&lent), 0);
    // From the last check to the first, so that an area gets shorter last.
    for (_, _, spoil) in wrong.iter().rev() {
        spoil(&mut area, &mut back, &mut lists);
    }
    let names: Vec<&str> = wrong.iter().map(|(name, ..)| *name).collect();
    let (kept, kept_area) = (back.clone(), area.clone());
    assert_eq!(carry_out_restore(&mut back, &mut area, lists), number, "{names:?}");
    let expected = Lent { state: Numbers { counters: kept.numbers().counters, ..Numbers::from_bytes(&[0; 144]) }.to_bytes(), ..kept };
    assert_eq!(back.difference(&expected), None, "{names:?}");
    assert_eq!(area, kept_area, "{names:?}");
}

#[test]
fn each_refusal_alone() {
    for wrong in WRONG.iter().chain(&OTHER_LENGTHS) {
        refused(&[wrong], wrong.1);
    }
    println!("{} ways to refuse a restore, each alone", WRONG.len() + OTHER_LENGTHS.len());
}

/// 15, then 14, then 16, then 2: of any two ways the earlier check is told. (A shorter body makes an area long enough, so it stands beside no 14.)
#[test]
fn the_order() {
    let mut pairs = 0;
    for (k, first) in WRONG.iter().enumerate() {
        for second in WRONG[k + 1..].iter().filter(|second| second.1 != first.1) {
            refused(&[first, second], first.1);
            pairs += 1;
        }
    }
    for (length, other) in OTHER_LENGTHS.iter().flat_map(|length| WRONG.iter().map(move |other| (length, other))) {
        match other.1 {
            15 => refused(&[other, length], 15),
            2 => refused(&[length, other], 16),
            _ => continue,
        }
        pairs += 1;
    }
    println!("{pairs} pairs of ways to refuse a restore");
}

/// Dirty rows: as many as the limit are restored, one more is 13 and one without its block 8, both told as 16.
#[test]
fn dirty_rows_in_a_body() {
    let mut lent = dirty_box();
    let mut two = lent.addresses[..ROW].to_vec();
    two[0] = 1;
    lent.addresses[ROW..].copy_from_slice(&two);
    for (t, missing, number) in [(2, false, 0), (1, false, 16), (2, true, 16)] {
        lent.state = Numbers { n: 2, t, ..lent.numbers() }.to_bytes();
        lent.blocks[0] ^= missing as u8;
        let body = body(&lent);
        let mut area = [&header(body.len() as u32)[..], &body, &[0xFF; 44]].concat();
        assert_eq!(carry_out_restore(&mut stale(&lent), &mut area, 0), number, "t = {t}, missing {missing}");
    }
    println!("dirty rows up to the limit are restored, whatever the fill");
}

#[test]
fn a_state_of_another_length() {
    let (lent, mut area) = saved();
    let kept = area.clone();
    for length in [0, 136, 143, 145] {
        let mut back = stale(&lent);
        back.state.resize(length, 0x5A);
        let expected = back.clone();
        assert_eq!(carry_out_restore(&mut back, &mut area, 0), 2, "{length}");
        assert!(back == expected && area == kept);
        assert_eq!(carry_out_save(&mut back, &mut area), 2, "{length}");
        assert!(back == expected && area == kept);
    }
    println!("states of other lengths");
}

/// 14 is told after 9, and a save that is refused does not flush.
#[test]
fn fourteen_after_nine() {
    for (length, counter, number) in [(ROOM, 0, 0), (ROOM - 1, 0, 14), (0, 0, 14), (ROOM - 1, u64::MAX, 9), (ROOM, u64::MAX, 9)] {
        let (mut lent, mut area) = (dirty_box(), vec![0xDD; length]);
        lent.state[40..48].copy_from_slice(&counter.to_le_bytes());
        let (kept, kept_area) = (lent.clone(), area.clone());
        assert_eq!((refusal_save(&lent, &area), carry_out_save(&mut lent, &mut area)), (number, number), "{length} {counter}");
        assert_eq!((lent == kept, area == kept_area), (number != 0, number != 0), "{length} {counter}");
    }
    println!("14 after 9");
}

/// At every write of a save over an area without an image: 15, unless the last write is new.
#[test]
fn every_cut() {
    let mut lent = dirty_box();
    assert_eq!(carry_out(Call::Flush, 0, &mut lent), 0);
    let writes = writes(&lent);
    assert_eq!(writes.iter().map(|(place, _)| *place).collect::<Vec<_>>(), [0, 64, 128, 192, 256, 0]);
    for (at, new) in (0..writes.len()).flat_map(|at| [(at, false), (at, true)]) {
        let mut area = vec![0xDD; ROOM];
        cut(&mut area, &writes, at, [0x33; 64], new);
        let whole = at == 5 && new;
        assert_eq!(header_length(&area), whole.then_some(212));
        let mut back = stale(&lent);
        assert_eq!(carry_out_restore(&mut back, &mut area, 0), if whole { 0 } else { 15 }, "cut at {at}, new {new}");
        assert_eq!(back.addresses == lent.addresses, whole);
        // Each write of the body is new, junk or old.
        for (k, part) in area[64..].chunks(64).enumerate() {
            let expected = [writes[k + 1].1, [0x33; 64], [0xDD; 64]][(at <= k + 1) as usize + (at < k + 1) as usize];
            assert_eq!(part, expected, "write {} of a cut at {at}", k + 1);
        }
    }
    println!("{} cuts of a save of {} writes", 2 * writes.len(), writes.len());
}

/// Lengths at the edges of a write, and the largest.
#[test]
fn lengths() {
    let lengths = [(0, 64), (1, 128), (63, 128), (64, 128), (65, 192), (212, 320), (u32::MAX as u128, 64 + (1 << 32))];
    for (body, area) in lengths {
        assert_eq!(area_length(body), area, "{body}");
    }
    assert_eq!((room(2, 1), room(1, 1), room(1_024, 256)), (ROOM, 64 + 192, 64 + 51_328));
    println!("{} lengths of bodies and of their areas", lengths.len());
}
