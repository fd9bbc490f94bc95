//! The service in every state that lists of reads, writes and flushes reach in small D-ARC boxes: every byte is the model's.
use model::arc::search::{fresh, reached, steps};
use model::{Call, Folder, MANY_ANSWER};
use service::arc_compare::{compare, compare_many};
use service::progress::count;

#[test]
fn every_state() {
    let (mut states, mut calls, mut whole) = (0, 0, 0);
    // C, X and the limit, the contents of the disk, and those of writes.
    let boxes: [(usize, usize, usize, &[u8], &[u8]); 4] =
        [(1, 0, 2, &[0, 1, 0], &[0, 1]), (1, 0, 1, &[0, 1, 2], &[1]), (1, 1, 3, &[0, 1, 0], &[1]), (2, 1, 3, &[0, 1, 2, 0], &[1])];
    for (c, x, t, disk, contents) in boxes {
        let p = disk.len() as u32;
        let (found, all) = reached(fresh(c, x, t, disk), &steps(p, contents), count(4_000), |before, (call, a, content), after| {
            let context = || format!("C {c}, X {x}, t {t}, disk {disk:?}");
            let mut lent = before.clone();
            lent.base.block.fill(content);
            assert_eq!(compare(call, a, &mut lent, calls % 32, &context), 0);
            assert_eq!(lent.difference(after), None, "{call:?} {a}, {}", context());
            if call == Call::Read {
                assert_eq!(compare(Call::Look, a, &mut before.clone(), calls % 32, &context), 0);
                let asked = vec![a, (a + 1) % p, a];
                let mut folder = Folder { buffer: vec![0; asked.len() * lent.base.block.len()], asked, answer: vec![0; MANY_ANSWER] };
                assert_eq!(compare_many(&mut before.clone(), &mut folder, calls % 32, &context), 0);
                calls += 2;
            }
            calls += 1;
        });
        states += found;
        whole += all as usize;
    }
    println!(
        "{calls} calls in {states} states that lists reach in small D-ARC boxes agree with the model in every byte; of {whole} boxes these are all states"
    );
    assert!(states > 100);
}
