//! The laws of U5 in every state that lists of reads, writes and flushes reach in small boxes of the model.
use model::arc::search::{fresh, reached, steps};
use model::arc::worked::{B, OFFICE};
use model::arc::{carry_out, refusal, ArcLent, B1, B2, B3, T1, T2};
use model::{fingerprint, read_tables, Answer, Call, Fingerprint, CACHE};
use std::collections::{HashMap, HashSet};

/// The plain disk of a box under the premise: its disk, and over it the blocks of dirty rows.
fn plain(lent: &ArcLent) -> Vec<u8> {
    let (rows, blocks) = read_tables(&lent.base);
    let slots: HashMap<Fingerprint, usize> = blocks.iter().filter(|row| row.used == 1).map(|row| (row.fingerprint, row.slot as usize)).collect();
    let mut plain: Vec<u8> = lent.base.disk.chunks_exact(B).map(|block| block[0]).collect();
    for row in rows[..lent.numbers().n as usize].iter().filter(|row| row.dirty == 1) {
        plain[row.address as usize] = lent.base.flash[slots[&row.fingerprint] * B];
    }
    plain
}

/// The laws of a state.
fn laws(lent: &ArcLent, prints: &[Fingerprint]) {
    let numbers = lent.numbers();
    let (sizes, n) = (numbers.sizes, numbers.n as usize);
    assert!(sizes[T1] + sizes[T2] + sizes[B3] <= numbers.c + numbers.x && sizes[B1] + sizes[B2] <= numbers.c && numbers.adaptive <= numbers.c);
    assert_eq!(sizes[B3], 0, "B3 after a call of a list from a fresh box");
    let (rows, blocks) = read_tables(&lent.base);
    let cached: HashSet<Fingerprint> = blocks.iter().filter(|row| row.used == 1).map(|row| row.fingerprint).collect();
    let held: HashMap<u32, Fingerprint> = rows[..n].iter().map(|row| (row.address, row.fingerprint)).collect();
    let words = lent.words();
    assert!(held.len() == n && words[..n].iter().collect::<HashSet<_>>().len() == n && words[..n].iter().all(|word| held.contains_key(word)));
    assert!(words[..(sizes[T1] + sizes[T2]) as usize].iter().all(|word| cached.contains(&held[word])), "an address of T1 or T2 without its block");
    let plain = plain(lent);
    assert!(held.iter().all(|(a, g)| *g == prints[plain[*a as usize] as usize]), "the fingerprints of the plain disk");
    let stored = |slot: u32| lent.base.flash[slot as usize * B] as usize;
    assert!(blocks.iter().all(|row| row.used == 0 || row.fingerprint == prints[stored(row.slot)]), "the fingerprints of the flash");
    assert!(rows.iter().filter(|row| row.dirty == 1).count() as u64 <= numbers.t);
    assert_eq!(refusal(Call::Flush, 0, lent), 0);
}

#[test]
fn every_state() {
    let prints: Vec<Fingerprint> = (0..=255u8).map(|content| fingerprint(&OFFICE, &[content; B])).collect();
    let (mut states, mut calls, mut whole) = (0, 0, 0);
    // C, X and the limit, the contents of the disk, and those of writes.
    let boxes: [(usize, usize, usize, &[u8], &[u8]); 6] = [
        (1, 0, 2, &[0, 1, 0], &[0, 1]),
        (1, 0, 1, &[0, 1, 2], &[1]),
        (1, 1, 3, &[0, 1, 0], &[1]),
        (2, 0, 4, &[0, 1, 2], &[0]),
        (1, 2, 4, &[0, 1, 1, 0], &[1]),
        (2, 1, 2, &[0, 1, 2, 0], &[1]),
    ];
    for (c, x, t, disk, contents) in boxes {
        let start = fresh(c, x, t, disk);
        laws(&start, &prints);
        let (count, all) = reached(start, &steps(disk.len() as u32, contents), 12_000, |before, (call, a, content), after| {
            let mut expected = plain(before);
            if call == Call::Read {
                assert_eq!(after.base.block, [expected[a as usize]; B], "a read of {a}");
                let mut looked = before.clone();
                assert_eq!(carry_out(Call::Look, a, &mut looked), 0);
                let Answer { word, first, .. } = Answer::from_bytes(&looked.base.answer);
                let part = if word == CACHE { &looked.base.flash } else { &looked.base.disk };
                assert_eq!(part[first as usize], expected[a as usize], "a look at {a}");
            } else if call.is_write() {
                expected[a as usize] = content;
            }
            assert_eq!(plain(after), expected, "the plain disk after {call:?} {a}");
            laws(after, &prints);
            calls += 1;
        });
        states += count;
        whole += all as usize;
        println!("C {c}, X {x}, t {t}, P {}: {count} states{}", disk.len(), if all { ", which are all" } else { "" });
    }
    println!("{calls} calls in {states} states that lists reach in small D-ARC boxes keep the laws of U5; of {whole} boxes these are all");
    assert!(whole >= 2 && calls > 100_000);
}
