//! Seat numbers and the two reports by the model: cases worked out by hand from document 02, and where a report is refused.
use model::{carry_out, carry_out_report, refusal, refusal_report, Cache, Call, Label, Lent, Report, CALLS, LABEL, REPORTS, ROW, STATE_LIMIT};

const B: usize = 64;
const OFFICE: Label = [0x4F; LABEL];

/// A fresh box without a limit, which is a limit of m, whose disk block k has the byte k.
fn fresh(p: usize, m: usize, d: usize) -> Cache {
    let disk = (0..p).flat_map(|k| [k as u8; B]).collect();
    Cache::fresh(B, p, m, d, m, OFFICE, disk, vec![0xAA; d * B])
}

fn call(cache: &mut Cache, call: Call, address: u32, content: u8) {
    cache.call(call, address, &mut vec![content; B]).unwrap();
}

/// The held rows: address, whether it is dirty, seat.
fn rows(cache: &Cache) -> Vec<(u32, bool, u16)> {
    cache.rows().iter().map(|(a, row)| (*a, row.dirty, row.seat)).collect()
}

fn bytes_of(cache: &Cache) -> Lent {
    let mut lent = Lent { state: vec![], disk: vec![], flash: vec![], addresses: vec![], blocks: vec![], block: vec![], answer: vec![], label: vec![] };
    cache.clone().store(&mut lent);
    lent
}

/// Which seat a row has after each kind of call.
#[test]
fn the_seat_of_a_row() {
    let mut cache = fresh(8, 3, 2);
    call(&mut cache, Call::Back(7), 1, 9);
    call(&mut cache, Call::Through(8), 2, 9);
    call(&mut cache, Call::Read, 3, 0);
    assert_eq!(rows(&cache), [(1, true, 7), (2, false, 8), (3, false, 0)]);
    // Hits keep the seat, and so does a flush, which cleans.
    call(&mut cache, Call::Read, 1, 0);
    call(&mut cache, Call::Read, 2, 0);
    call(&mut cache, Call::Flush, 0, 0);
    assert_eq!(rows(&cache), [(3, false, 0), (1, false, 7), (2, false, 8)]);
    // A write back that leaves the row clean, as the content is the same, sets the seat.
    call(&mut cache, Call::Back(65_535), 1, 9);
    assert_eq!(rows(&cache), [(3, false, 0), (2, false, 8), (1, false, 65_535)]);
    // Address 4 takes the place of 3. Read again, 3 comes back with 0, and so does 2, which a seat had written; 4 loses its block, is cleaned and keeps its
    // seat.
    call(&mut cache, Call::Back(256), 4, 4);
    call(&mut cache, Call::Read, 3, 0);
    call(&mut cache, Call::Read, 2, 0);
    assert_eq!(rows(&cache), [(4, false, 256), (3, false, 0), (2, false, 0)]);
    // A write invalidate takes the row out, whoever makes it.
    call(&mut cache, Call::Invalidate(5), 4, 1);
    call(&mut cache, Call::Read, 4, 0);
    assert_eq!(rows(&cache), [(3, false, 0), (2, false, 0), (4, false, 0)]);
    // A look moves nothing.
    call(&mut cache, Call::Look, 4, 0);
    assert_eq!(rows(&cache), [(3, false, 0), (2, false, 0), (4, false, 0)]);
    println!("the seats of three rows after eleven calls");
}

/// A miss of an address that is held without its block keeps its seat; the row that loses its block to another, and is cleaned, keeps its own.
#[test]
fn held_without_its_block() {
    let mut cache = fresh(8, 3, 1);
    call(&mut cache, Call::Back(11), 1, 9);
    call(&mut cache, Call::Through(12), 2, 8);
    assert_eq!(rows(&cache), [(1, false, 11), (2, false, 12)]);
    assert_eq!(cache.call(Call::Read, 1, &mut vec![0; B]).unwrap().word, model::MISS);
    assert_eq!(rows(&cache), [(2, false, 12), (1, false, 11)]);
    println!("a miss of a held address keeps its seat");
}

/// In a folder each read is as by itself: a held address keeps its seat, and one that was evicted within the folder comes back with 0.
#[test]
fn in_a_folder() {
    let mut cache = fresh(8, 2, 2);
    call(&mut cache, Call::Back(21), 1, 9);
    call(&mut cache, Call::Back(22), 2, 8);
    cache.read_many(&[2, 1], &mut vec![0; 2 * B]).unwrap();
    assert_eq!(rows(&cache), [(2, true, 22), (1, true, 21)]);
    cache.read_many(&[3, 1, 2], &mut vec![0; 3 * B]).unwrap();
    assert_eq!(rows(&cache), [(1, true, 21), (2, false, 0)]);
    println!("two folders: seats kept, and set to 0 where the address was evicted before its turn");
}

/// The bytes of rows and reports, for the edges of a seat number.
#[test]
fn the_bytes() {
    for (seat, low, high) in [(0, 0, 0), (1, 1, 0), (255, 255, 0), (256, 0, 1), (65_535, 255, 255), (0x1234, 0x34, 0x12)] {
        let mut cache = fresh(65_536, 3, 2);
        call(&mut cache, Call::Through(seat), 0x0201, 9);
        call(&mut cache, Call::Back(seat), 0xFFFF, 9);
        let lent = bytes_of(&cache);
        assert_eq!((&lent.addresses[36..40], &lent.addresses[76..80]), (&[0, low, high, 0][..], &[1, low, high, 0][..]), "seat {seat}");
        let manager = [1, 2, 0, 0, 0, low, high, 255, 255, 0, 0, 1, low, high, 0, 0, 0, 0, 0, 0, 0];
        let desk = [1, 2, 0, 0, 0, 255, 255, 0, 0, 1, 0, 0, 0, 0, 0];
        assert_eq!((cache.report(Report::Manager), cache.report(Report::Desk)), (manager.to_vec(), desk.to_vec()), "seat {seat}");
    }
    println!("rows and reports of six seats, byte for byte");
}

/// A used box with two rows of three, and a report of the right length.
fn used() -> Lent {
    let mut cache = fresh(8, 3, 2);
    call(&mut cache, Call::Back(0x0102), 5, 7);
    call(&mut cache, Call::Read, 6, 0);
    let mut lent = bytes_of(&cache);
    (lent.block, lent.answer) = (vec![0; B], vec![0; 24]);
    lent
}

/// Seats of a held row are any bytes; its last byte is zero, and so is every byte of the rows behind those held.
#[test]
fn what_six_asks_for() {
    for call in CALLS.into_iter().filter(|call| *call != Call::Open) {
        for (row, byte, number) in (0..3).flat_map(|row| [37, 38, 39].map(|byte| (row, byte, if row == 2 || byte == 39 { 6 } else { 0 }))) {
            let (mut lent, place) = (used(), row * ROW + byte);
            lent.addresses[place] ^= 0x81;
            assert_eq!(refusal(call, 5, &lent), number, "{call:?}, byte {place}");
            assert_eq!(REPORTS.map(|report| refusal_report(report, &lent, 3 * report.row())), [number; 2], "byte {place}");
        }
        for place in [37, 38, 39] {
            let mut lent = used();
            lent.blocks[place] = 1;
            assert_eq!(refusal(call, 5, &lent), 7, "{call:?}, byte {place} of a block row");
        }
    }
    println!("each of the last three bytes of a held row, of a row behind and of a block row");
}

/// Each check of a report with those behind it: "Reports count nothing and have no 3 and no 9."
#[test]
fn order_of_refusals() {
    for report in REPORTS {
        let (mut lent, length) = (used(), 3 * report.row());
        lent.state[64..72].copy_from_slice(&u64::MAX.to_le_bytes());
        assert_eq!(refusal_report(report, &lent, length), 0);
        let kept = lent.clone();
        let mut bytes = vec![0xEE; length];
        assert_eq!(carry_out_report(report, &lent, &mut bytes), 0);
        assert!(lent == kept && bytes != vec![0xEE; length]);
        // Two dirty rows, where the limit is 1.
        lent.addresses[ROW + 36] = 1;
        lent.state[STATE_LIMIT.start] = 1;
        assert_eq!(refusal_report(report, &lent, length), 13);
        lent.blocks[3] ^= 1;
        assert_eq!(refusal_report(report, &lent, length), 8);
        lent.blocks[37] = 1;
        assert_eq!(refusal_report(report, &lent, length), 7);
        lent.addresses[39] = 1;
        assert_eq!(refusal_report(report, &lent, length), 6);
        for other in [0, 1, length - 1, length + 1, 3 * 5, 3 * 7, 3 * ROW].into_iter().filter(|other| *other != length) {
            assert_eq!(refusal_report(report, &lent, other), 2, "{other} bytes");
        }
        for buffer in 0..4 {
            let mut short = lent.clone();
            [&mut short.disk, &mut short.flash, &mut short.addresses, &mut short.blocks][buffer].pop();
            assert_eq!(refusal_report(report, &short, length), 2, "buffer {buffer}");
        }
        lent.state[STATE_LIMIT.start] = 0;
        assert_eq!(refusal_report(report, &lent, length + 1), 12);
        lent.state[..8].copy_from_slice(&65u64.to_le_bytes());
        assert_eq!(refusal_report(report, &lent, length + 1), 1);
        lent.state.pop();
        let mut bytes = vec![0xEE; length];
        assert_eq!((carry_out_report(report, &lent, &mut bytes), bytes), (2, vec![0xEE; length]));
    }
    let mut lent = used();
    assert_eq!(carry_out(Call::Look, 8, &mut lent), 3);
    println!("reports with one damage more each time: the first of 1, 12, 2, 6, 7, 8, 13 that applies");
}
