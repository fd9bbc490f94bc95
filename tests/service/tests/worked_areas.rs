//! The box, the image, the cut and the areas that crates/image/specs/Examples.antt works out on paper, by the built engine and the model.
use common::Random;
use model::image::{apply, header, writes};
use model::{AddressRow, BlockRow, Lent, Numbers, ANSWER, ROW};
use service::areas::cold;
use service::compare::{compare_restore, compare_save};

/// The D-LRU box that crates/image/specs/Examples.antt works with: two addresses, two blocks, a limit of 2. Address 1 is held, from seat 770, and its
/// block is in slot 0; slot 1 is free.
fn worked_box() -> Lent {
    let one = [1; 32];
    let blocks = [BlockRow { fingerprint: [0; 32], slot: 1, used: 0, padding: [0; 3] }, BlockRow { fingerprint: one, slot: 0, used: 1, padding: [0; 3] }];
    Lent {
        state: Numbers { b: 64, p: 2, m: 2, d: 2, n: 1, counters: [0; 4], label: [9; 64], t: 2 }.to_bytes(),
        disk: vec![0; 128],
        flash: vec![0; 128],
        addresses: rows(&[AddressRow { address: 1, fingerprint: one, dirty: 0, seat: 770, padding: 0 }]),
        blocks: blocks.iter().flat_map(|row| row.to_bytes()).collect(),
        answer: vec![0; ANSWER],
        ..Lent::default()
    }
}

/// An address table of two rows.
fn rows(held: &[AddressRow]) -> Vec<u8> {
    let mut bytes: Vec<u8> = held.iter().flat_map(|row| row.to_bytes()).collect();
    bytes.resize(2 * ROW, 0);
    bytes
}

/// The areas of that file and their numbers, which are proved there by computing: of D-LRU images as they stand, of its D-ARC image 2, since it is lent no
/// lists. The image is that of a save.
#[test]
fn the_worked_areas() {
    let lent = worked_box();
    let mut image = vec![7; 323];
    assert_eq!(compare_save(&mut lent.clone(), &mut image, 1, &|| "the worked box".to_string()), 0);
    assert_eq!(image.split_off(320), [7; 3]);
    let numbers = [0, 0, 0, 0, 64, 0, 0, 0, 2, 0, 0, 0, 2, 0, 0, 0, 2, 0, 0, 0, 1, 0, 0, 0, 2, 0, 0, 0];
    let head = [&[86, 66, 88, 1, 0, 252, 0, 0, 0][..], &[0; 55], &numbers, &[9; 64]].concat();
    assert_eq!(image, [&head[..], &lent.addresses, &lent.blocks, &[0; 4]].concat());

    let changed = |place: usize, byte: u8| [&image[..place], &[byte], &image[place + 1..]].concat();
    let cut_at = |area: &[u8], at: usize, left: &[u8]| {
        let mut area = area.to_vec();
        apply(&mut area, &writes(&lent)[..at]);
        apply(&mut area, &[(writes(&lent)[at].0, left.try_into().unwrap())]);
        area
    };
    let cut = |at: usize, left: &[u8]| cut_at(&[7; 320], at, left);
    assert_eq!(cut(2, &[170; 64]), [&[0; 64][..], &image[64..128], &[170; 64], &[7; 128]].concat());
    let with_rows = |n: u8, t: u8, held: &[AddressRow]| {
        let mut area = [&image[..156], &rows(held), &image[236..]].concat();
        (area[84], area[88]) = (n, t);
        area
    };
    let row = |address: u32, byte: u8| AddressRow { address, fingerprint: [byte; 32], dirty: 1, seat: 0, padding: 0 };
    let free = |slot: u32| BlockRow { fingerprint: [0; 32], slot, used: 0, padding: [0; 3] }.to_bytes();
    let older = [&changed(84, 0)[..156], &[0; 80], &free(0), &free(1), &[0; 4]].concat();
    let both = [row(0, 1), row(1, 1)];
    let mut three = changed(0, 87);
    three[64] = 2;
    let arc = {
        let numbers = [&[1, 64, 2, 1, 0, 1, 2, 1, 1, 0, 0, 0, 0].map(u32::to_le_bytes).concat()[..], &[9; 64]].concat();
        [&header(244)[..], &numbers, &lent.addresses, &lent.blocks[ROW..], &[1], &[0; 19]].concat()
    };
    let areas: [(Vec<u8>, u32); 48] = [
        (image.clone(), 0),
        ([&image[..], &[7; 3]].concat(), 0),
        (arc, 2),
        (changed(319, 1), 0),
        (vec![], 15),
        (image[..63].to_vec(), 15),
        (changed(0, 87), 15),
        (changed(1, 98), 15),
        (changed(2, 0), 15),
        (changed(3, 2), 15),
        (changed(4, 1), 15),
        (changed(9, 1), 15),
        (changed(63, 1), 15),
        ([&[0; 64][..], &image[64..]].concat(), 15),
        (image[..319].to_vec(), 14),
        (image[..64].to_vec(), 14),
        (changed(6, 1), 14),
        (changed(8, 255), 14),
        (changed(64, 2), 16),
        (changed(67, 1), 16),
        (changed(64, 1), 16),
        (changed(5, 251), 16),
        (changed(5, 253), 16),
        (changed(5, 0), 16),
        (changed(76, 3), 16),
        (changed(68, 65), 16),
        (changed(72, 0), 16),
        (changed(88, 0), 16),
        (changed(88, 3), 16),
        (changed(84, 3), 16),
        (changed(84, 0), 16),
        (changed(156, 2), 16),
        (changed(268, 0), 16),
        (with_rows(1, 2, &[row(1, 2)]), 16),
        (with_rows(2, 2, &both), 0),
        (with_rows(2, 1, &both), 16),
        (three[..319].to_vec(), 15),
        (changed(64, 2)[..319].to_vec(), 14),
        (cut(0, &[7; 64]), 15),
        (cut(0, &[0; 64]), 15),
        (cut(1, &[170; 64]), 15),
        (cut(2, &[7; 64]), 15),
        (cut(3, &image[..64]), 15),
        (cut(4, &[255; 64]), 15),
        (cut(5, &[0; 64]), 15),
        (cut(5, &image[..64]), 0),
        (cut_at(&older, 0, &older[..64]), 0),
        (cut_at(&older, 0, &[0; 64]), 15),
    ];
    for (k, (area, number)) in areas.iter().enumerate() {
        let mut random = Random(k as u64);
        assert_eq!(compare_restore(&mut cold(&mut random, &lent), &mut area.clone(), &mut [], k % 32, &|| format!("area {k}")), *number, "area {k}");
    }
    println!("{} areas of crates/image/specs/Examples.antt", areas.len());
}
