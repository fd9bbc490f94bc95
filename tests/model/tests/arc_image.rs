//! Images of D-ARC boxes by the model (document 02, U10): the bytes of a body, saves and restores from worked states, power cuts, and what a restore refuses.
use common::Random;
use model::arc::image::{body, carry_out_restore, carry_out_save, found, refusal_save, room, writes, BODY_NUMBERS};
use model::arc::worked::{examples, shown, Asked, B};
use model::arc::{carry_out, ArcLent, ArcNumbers, ARC_STATE};
use model::image::{cut, header, HEADER, WRITE};
use model::{Call, Lent, LABEL, ROW, ZEROS};

/// The boxes from which and to which the calls of the worked states lead.
fn boxes() -> Vec<ArcLent> {
    let mut boxes = Vec::new();
    for example in examples() {
        let mut lent = example.from.clone();
        boxes.push(lent.clone());
        for asked in &example.asked {
            if let Asked::One(said) = asked {
                lent.base.block = vec![said.content; B];
                assert_eq!(carry_out(said.call, said.address, &mut lent), 0);
                boxes.push(lent.clone());
            }
        }
    }
    boxes
}

fn area_of(lent: &ArcLent) -> Vec<u8> {
    let ArcNumbers { c, x, .. } = lent.numbers();
    vec![0xDD; room(c as usize, x as usize) + 5]
}

/// The box of a caller who starts again: disk and flash as they are, other bytes in state, tables and lists.
fn cold(lent: &ArcLent) -> ArcLent {
    let other = |bytes: &Vec<u8>| vec![0xA7; bytes.len()];
    let base = Lent { state: vec![0; ARC_STATE], addresses: other(&lent.base.addresses), blocks: other(&lent.base.blocks), ..lent.base.clone() };
    ArcLent { base, lists: other(&lent.lists) }
}

/// "for D-ARC 1, B, P, C, X, n, t, p and the five list sizes, 4 bytes each, little-endian; then label, tables and lists"
#[test]
fn bytes_of_a_body() {
    let lent = &examples().into_iter().find(|example| example.name.contains("a hit in B3 goes to T1")).unwrap().from;
    let body = body(lent);
    let numbers: Vec<u32> = body[..BODY_NUMBERS].chunks_exact(4).map(|word| u32::from_le_bytes(word.try_into().unwrap())).collect();
    assert_eq!(numbers, [1, 64, 6, 2, 2, 4, 6, 1, 1, 1, 0, 0, 2]);
    let parts = [&[0x4F; LABEL][..], &lent.base.addresses, &lent.base.blocks, &lent.lists].concat();
    assert_eq!(body[BODY_NUMBERS..], parts);
    assert_eq!(body.len(), 13 * 4 + 64 + 6 * ROW + 2 * ROW + 6 * 4);
    let writes = writes(lent);
    assert_eq!((writes.len(), writes[0], writes[1].0, *writes.last().unwrap()), (10, (0, [0; HEADER]), HEADER, (0, header(460))));
    println!("the body of a D-ARC box: {} bytes in {} writes", body.len(), writes.len() - 2);
}

/// A save flushes and counts as a flush; a restore gives the box back, clears the header, and touches nothing else.
#[test]
fn saved_and_restored() {
    let boxes = boxes();
    for lent in &boxes {
        let (mut saved, mut area) = (lent.clone(), area_of(lent));
        assert_eq!(carry_out_save(&mut saved, &mut area), 0);
        let mut flushed = lent.clone();
        assert_eq!(carry_out(Call::Flush, 0, &mut flushed), 0);
        assert_eq!(saved.difference(&flushed), None);
        assert!(area[area.len() - 5..] == [0xDD; 5]);
        let (mut warm, mut cleared) = (cold(&saved), area.clone());
        assert_eq!(carry_out_restore(&mut warm, &mut cleared), 0);
        saved.base.state = ArcNumbers { counters: [0; 4], ..saved.numbers() }.to_bytes();
        assert_eq!(warm.difference(&saved), None);
        assert_eq!(shown(&warm), shown(&flushed));
        assert!(cleared[..HEADER] == [0; HEADER] && cleared[HEADER..] == area[HEADER..]);
        // The image serves once; a refused restore leaves a record of zeros.
        assert_eq!(carry_out_restore(&mut warm, &mut cleared), 15);
        assert_eq!(warm.base.state, [0; ARC_STATE]);
    }
    println!("{} D-ARC boxes are saved and restored", boxes.len());
}

/// At every write, where the area had no image: the box is found if the last write is new, else 15.
#[test]
fn every_cut() {
    let seed = 61;
    let mut random = Random(seed);
    let (boxes, mut cuts) = (boxes(), 0);
    for lent in boxes.iter().step_by(7) {
        let (mut saved, area) = (lent.clone(), area_of(lent));
        assert_eq!(carry_out_save(&mut saved, &mut area.clone()), 0);
        let all = writes(&saved);
        for at in 0..all.len() {
            for header_is_new in [false, true] {
                let mut area = area.clone();
                cut(&mut area, &all, at, random.bytes(WRITE).try_into().unwrap(), header_is_new);
                let given = found(&area, lent.base.addresses.len(), lent.base.blocks.len(), lent.lists.len()).map(|found| found.lists == saved.lists);
                assert_eq!(given, if at + 1 == all.len() && header_is_new { Ok(true) } else { Err(15) }, "write {at}");
                cuts += 1;
            }
        }
    }
    println!("{cuts} cuts of saves of D-ARC boxes (seed {seed})");
}

/// 14, 16 and 2, each with the box of a worked state.
#[test]
fn refused_restores() {
    let lent = &examples().into_iter().find(|example| example.name.contains("a hit in B3 goes to T1")).unwrap().from;
    let (mut saved, mut area) = (lent.clone(), area_of(lent));
    let short = area.len() - 6;
    assert_eq!((refusal_save(&saved, &area[..short]), refusal_save(&saved, &area[..short + 1])), (14, 0));
    assert_eq!(carry_out_save(&mut saved, &mut area), 0);
    let [addresses, blocks, lists] = [&lent.base.addresses, &lent.base.blocks, &lent.lists].map(|bytes| bytes.len());
    let number = |area: &[u8], lists: usize| found(area, addresses, blocks, lists).err().unwrap_or(0);
    assert_eq!([number(&area, lists), number(&area, 0), number(&area[..short], lists), number(&area[..63], lists)], [0, 2, 14, 15]);
    // A number of the body and what it becomes: kind, C, X, n, t, p, a size. All of these are refused with 16.
    for (place, other) in [(0, 0), (0, 2), (1, 65), (3, 0), (4, 3), (5, 3), (6, 0), (6, 7), (7, 3), (8, 2)] {
        let mut area = area.clone();
        area[HEADER + place * 4] = other;
        assert_eq!(number(&area, lists), 16, "number {place} is {other}");
        let mut record = cold(lent);
        assert_eq!(carry_out_restore(&mut record, &mut area), 16);
        assert_eq!(record.numbers().label, ZEROS);
    }
    println!("saves and restores of a D-ARC box are refused with 14, 15, 16 and 2");
}
