//! Warm starts: lists with saves and restores in them beside the same lists without, a power cut at every write of a save, and images that no save made.
use common::Random;
use model::image::{cut, header_length, writes, HEADER};
use model::machines::PlainDisk;
use model::{Answer, Call, Lent, Numbers, CACHE, CALLS, DONE, HIT};
use service::areas::{area, cold, image, no_image, with_counters};
use service::asked::{answered, ask, Asked};
use service::boxes::{any_seat, bytes, dirty_rows, fill, office, pick, pick_call, sound, unopened, Contents, Shape};
use service::calls::call;
use service::compare::{compare, compare_restore, compare_save};
use service::fresh::{fresh, B};
use service::progress::{count, seed, Progress};

/// What lists with warm starts have met.
#[derive(Default)]
struct Met {
    calls: usize,
    lists: usize,
    refused: usize,
    saves: usize,
    /// Rows that a save has flushed.
    flushed: usize,
    /// Reads that hit since the last warm start, before any read that missed.
    warm_hits: usize,
}

/// A served call read the plain disk's blocks, or wrote to it.
fn feed(plain: &mut PlainDisk, lent: &Lent, asked: &Asked, number: u32, block: &[u8], context: &str) {
    match asked {
        Asked::One(kind, address, given) => {
            let look = Answer::from_bytes(&lent.answer);
            let Some(expected) = plain.feed(*kind, *address, given, number != 0) else { return };
            let part = match kind {
                Call::Look => {
                    let from = if look.word == CACHE { &lent.flash } else { &lent.disk };
                    &from[look.first as usize..(look.first + look.second) as usize]
                }
                _ => block,
            };
            assert!(part == expected, "{kind:?} {address} is not the plain disk's block, {context}");
        }
        Asked::Many(folder) if number == 0 => {
            let b = block.len() / folder.asked.len();
            for (address, part) in folder.asked.iter().zip(block.chunks_exact(b)) {
                assert!(part == plain.block(*address), "address {address} of a folder is not the plain disk's block, {context}");
            }
        }
        Asked::Many(_) => {}
    }
}

/// Saves a box, loses its state and its tables, and restores it; a second restore finds nothing. The twin is flushed.
fn start_again(random: &mut Random, lent: &mut Lent, twin: &mut Lent, area: &mut [u8], plain: &PlainDisk, context: &dyn Fn() -> String) {
    let dirty = dirty_rows(lent) as u64;
    assert_eq!((compare_save(lent, area, random.below(32), context), call(Call::Flush, 0, twin)), (0, 0), "a save and a flush, {}", context());
    assert_eq!(Answer::from_bytes(&lent.answer), Answer { word: DONE, first: 0, second: dirty }, "{}", context());
    assert_eq!(lent.difference(twin), None, "a save is not as a flush, {}", context());
    assert!(plain.is(&lent.disk), "the disk after a save, {}", context());
    let mut warm = cold(random, lent);
    let counters = warm.numbers().counters;
    let whole = area.to_vec();
    assert_eq!(compare_restore(&mut warm, area, &mut [], random.below(32), context), 0, "a restore, {}", context());
    assert_eq!(warm.difference(&with_counters(lent, counters)), None, "the restored box, {}", context());
    assert!(area[..HEADER] == [0; HEADER] && area[HEADER..] == whole[HEADER..], "the area after a restore, {}", context());
    assert_eq!(compare_restore(&mut cold(random, lent), area, &mut [], random.below(32), context), 15, "a second restore, {}", context());
    // The counters are the caller's, who may keep them beside the area.
    *lent = with_counters(&warm, lent.numbers().counters);
}

fn with_starts(random: &mut Random, shape: Shape, length: usize, met: &mut Met, seed: u64) {
    let pool = 1 + random.below(2 * shape.d + 2);
    let contents = Contents::new(random, shape.b, pool);
    let mut lent = unopened(random, shape, &contents);
    let mut plain = PlainDisk::new(&lent.disk, shape.b);
    let mut area = area(random, shape.m, shape.d);
    no_image(random, &mut area);
    assert_eq!(call(Call::Open, 0, &mut lent), 0);
    let mut twin = lent.clone();
    let mut warm = false;
    for turn in 0..length {
        let context = || format!("call {turn}, {shape:?}, seed {seed}");
        if random.below(12) == 0 {
            met.flushed += dirty_rows(&lent);
            start_again(random, &mut lent, &mut twin, &mut area, &plain, &context);
            met.saves += 1;
            warm = true;
        }
        let asked = match random.below(3) {
            0 => Asked::One(Call::Back(any_seat(random)), random.below(shape.p) as u32, contents.one(random).clone()),
            _ => ask(random, shape, &contents),
        };
        let [one, two] = [&mut lent, &mut twin].map(|lent| answered(lent, &asked));
        assert!(one == two, "number, answer and blocks beside no warm start, {}", context());
        assert_eq!(lent.difference(&twin), None, "beside no warm start, {}", context());
        feed(&mut plain, &lent, &asked, one.0, &one.2, &context());
        if matches!(asked, Asked::One(Call::Read, ..)) && one.0 == 0 {
            warm &= Answer::from_bytes(&one.1).word == HIT;
            met.warm_hits += warm as usize;
        }
        met.refused += (one.0 != 0) as usize;
        met.calls += 1;
    }
    met.lists += 1;
}

#[test]
fn going_on() {
    let (seed, total) = (seed(901), count(60_000));
    let mut random = Random(seed);
    let mut met = Met::default();
    let mut progress = Progress::new("warm starts", total);
    while met.calls < total {
        let b = pick(&mut random, &[64, 64, 128, 256]);
        let most = pick(&mut random, &[Shape { b, p: 5, m: 4, d: 3 }, Shape { b, p: 20, m: 10, d: 6 }, Shape { b, p: 60, m: 40, d: 24 }]);
        let shape = Shape::below(&mut random, most);
        with_starts(&mut random, shape, 100, &mut met, seed);
        progress.at(met.calls);
    }
    let Met { calls, lists, refused, saves, flushed, warm_hits } = met;
    println!("{calls} calls in {lists} lists with {saves} saves and restores beside the same lists without (seed {seed}, {:.1} s)", progress.seconds());
    println!("  {refused} calls refused, {flushed} rows flushed by saves, {warm_hits} hits right after a warm start");
    println!("  every block read is the plain disk's, and every byte of the box the same");
    assert!([saves, refused * 2, flushed, warm_hits].iter().all(|count| *count > total / 20));
}

/// The largest tables, and the smallest box.
#[test]
fn large_and_small() {
    let seed = seed(902);
    let mut random = Random(seed);
    let mut met = Met::default();
    for shape in [Shape { b: 64, p: 1_500, m: 1_024, d: 256 }, Shape { b: 4_096, p: 40, m: 30, d: 20 }, Shape { b: 64, p: 1, m: 1, d: 1 }] {
        with_starts(&mut random, shape, 300, &mut met, seed);
    }
    println!("{} saves and restores of large and small boxes among {} calls (seed {seed})", met.saves, met.calls);
    assert!(met.saves > 40 && met.flushed > 0);
}

/// Two addresses of three are held, one of them dirty until the save.
#[test]
fn by_hand() {
    let mut lent = fresh(8, 3, 2, 1);
    assert_eq!(call(Call::Read, 1, &mut lent), 0);
    lent.block = vec![7; B];
    assert_eq!(call(Call::Back(0x0201), 5, &mut lent), 0);
    let mut area = vec![0xDD; 64 + 320 + 5];
    // L = 28 + 64 + 5 x 40 = 292, in five writes.
    assert_eq!(compare_save(&mut lent, &mut area, 1, &|| "by hand".to_string()), 0);
    assert_eq!(area[..12], [b'V', b'B', b'X', 1, 0, 36, 1, 0, 0, 0, 0, 0]);
    assert_eq!(area[12..64], [0; 52]);
    assert_eq!(area[64..92], [0, 0, 0, 0, 64, 0, 0, 0, 8, 0, 0, 0, 3, 0, 0, 0, 2, 0, 0, 0, 2, 0, 0, 0, 1, 0, 0, 0]);
    assert_eq!(area[92..156], [0x4F; 64]);
    assert_eq!((&area[156..276], &area[276..356]), (&lent.addresses[..], &lent.blocks[..]));
    assert_eq!((&area[356..384], &area[384..]), (&[0; 28][..], &[0xDD; 5][..]));
    // The row of address 5, flushed: clean, with its seat.
    assert_eq!((&area[196..200], &area[232..236], &lent.disk[5 * B..6 * B]), (&[5, 0, 0, 0][..], &[0, 1, 2, 0][..], &[7; B][..]));
    assert_eq!((Answer::from_bytes(&lent.answer), lent.numbers().counters), (Answer { word: DONE, first: 0, second: 1 }, [1, 0, 2, 1]));
    let mut warm = Lent { state: vec![0xEE; 144], addresses: vec![0xEE; 120], blocks: vec![0xEE; 80], ..lent.clone() };
    assert_eq!(compare_restore(&mut warm, &mut area, &mut [], 2, &|| "by hand".to_string()), 0);
    assert_eq!(warm.numbers(), Numbers { counters: [u64::from_le_bytes([0xEE; 8]); 4], ..lent.numbers() });
    assert!(warm.addresses == lent.addresses && warm.blocks == lent.blocks && area[..64] == [0; 64]);
    println!("an image of 292 bytes by hand");
}

/// A box that a short list has reached, with the plain disk of that list.
fn reached(random: &mut Random, shape: Shape) -> (Lent, PlainDisk) {
    let contents = Contents::new(random, shape.b, 1 + shape.d);
    let mut lent = unopened(random, shape, &contents);
    let mut plain = PlainDisk::new(&lent.disk, shape.b);
    assert_eq!(call(Call::Open, 0, &mut lent), 0);
    for _ in 0..random.below(30) {
        let asked = ask(random, shape, &contents);
        let (number, _, block) = answered(&mut lent, &asked);
        feed(&mut plain, &lent, &asked, number, &block, "before a save");
    }
    (lent, plain)
}

/// After a start without an image the caller opens anew: every read is the plain disk's.
fn opened_anew(lent: &Lent, plain: &PlainDisk, context: &str) {
    let Numbers { p, .. } = lent.numbers();
    let mut anew = Lent { label: office(lent).to_vec(), ..lent.clone() };
    assert_eq!(call(Call::Open, 0, &mut anew), 0, "{context}");
    anew.block.resize(anew.numbers().b as usize, 0);
    for address in 0..p as u32 {
        assert_eq!(call(Call::Read, address, &mut anew), 0, "{context}");
        assert!(anew.block == plain.block(address), "address {address} after an opening anew, {context}");
    }
}

/// What is left of a write at the cut: any bytes, zeros, the new ones up to a byte, or a whole header of an image.
fn junk(random: &mut Random, new: &[u8; 64]) -> [u8; 64] {
    let mut junk = [0; 64];
    match random.below(4) {
        0 => {}
        1 => {
            let end = random.below(65);
            junk[..end].copy_from_slice(&new[..end]);
        }
        2 => junk = model::image::header(new.len() as u32),
        _ => fill(random, &mut junk),
    }
    junk
}

#[test]
fn every_cut() {
    let (seed, total) = (seed(903), count(60_000));
    let mut random = Random(seed);
    let (mut cuts, mut boxes, mut whole) = (0, 0, 0);
    let mut progress = Progress::new("cuts of a save", total);
    while cuts < total {
        let b = pick(&mut random, &[64, 64, 128]);
        let shape = Shape::below(&mut random, Shape { b, p: 12, m: 8, d: 6 });
        let (mut lent, plain) = reached(&mut random, shape);
        let mut before = area(&mut random, shape.m, shape.d);
        no_image(&mut random, &mut before);
        assert_eq!(header_length(&before), None);
        let context = || format!("{shape:?}, box {boxes}, seed {seed}");
        let mut after = before.clone();
        assert_eq!(compare_save(&mut lent, &mut after, random.below(32), &context), 0);
        // The flush is complete at every cut.
        assert!(plain.is(&lent.disk), "{}", context());
        let writes = writes(&lent);
        let last = writes.len() - 1;
        for (at, new) in (0..=last).flat_map(|at| [(at, false), (at, true)]) {
            let context = || format!("cut at write {at} of {last}, new {new}, {shape:?}, box {boxes}, seed {seed}");
            let mut left = before.clone();
            cut(&mut left, &writes, at, junk(&mut random, &writes[at].1), new);
            let found = at == last && new;
            assert_eq!(left == after, found, "{}", context());
            let mut warm = cold(&mut random, &lent);
            let counters = warm.numbers().counters;
            assert_eq!(compare_restore(&mut warm, &mut left, &mut [], random.below(32), &context), if found { 0 } else { 15 }, "{}", context());
            if found {
                assert_eq!(warm.difference(&with_counters(&lent, counters)), None, "{}", context());
            }
            whole += found as usize;
            cuts += 1;
        }
        opened_anew(&lent, &plain, &context());
        boxes += 1;
        progress.at(cuts);
    }
    println!("{cuts} cuts at every write of the saves of {boxes} boxes: {whole} give the saved box, the others 15 (seed {seed}, {:.1} s)", progress.seconds());
    assert_eq!(whole, boxes);
}

/// Images by the model's writer of sound boxes, reachable or not, dirty rows and any fill among it; calls on them afterwards are the model's.
#[test]
fn images_of_sound_boxes() {
    let (seed, total) = (seed(904), count(20_000));
    let mut random = Random(seed);
    let (mut dirty, mut calls) = (0, 0);
    let mut progress = Progress::new("images of sound boxes", total);
    for turn in 0..total {
        let b = pick(&mut random, &[64, 64, 64, 128]);
        let most = if turn % 500 == 499 { Shape { b, p: 2_000, m: 1_024, d: 256 } } else { Shape { b, p: 16, m: 10, d: 8 } };
        let shape = Shape::below(&mut random, most);
        let lent = sound(&mut random, shape);
        let mut area = image(&mut random, &lent);
        let context = || format!("turn {turn}, {shape:?}, seed {seed}");
        let mut warm = cold(&mut random, &lent);
        let counters = warm.numbers().counters;
        assert_eq!(compare_restore(&mut warm, &mut area, &mut [], random.below(32), &context), 0);
        assert_eq!(warm.difference(&with_counters(&lent, counters)), None, "{}", context());
        dirty += (dirty_rows(&warm) > 0) as usize;
        // With the counters of the box.
        warm = with_counters(&warm, lent.numbers().counters);
        for _ in 0..2 {
            let kind = pick_call(&mut random, &CALLS);
            warm.block = bytes(&mut random, shape.b);
            compare(kind, random.below(shape.p) as u32, &mut warm, random.below(32), &context);
            calls += 1;
        }
        progress.at(turn);
    }
    println!("{total} images of sound boxes restored, {dirty} with dirty rows, {calls} calls on them (seed {seed}, {:.1} s)", progress.seconds());
    assert!(dirty > total / 10);
}
