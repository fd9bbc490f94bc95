//! Images and areas that must be refused, and saves that must be: the number is right, and every byte is kept but the record of a refused restore.
use common::Random;
use model::image::{header, room, HEADER, RESTORE_CHECKS, SAVE_CHECKS, WRITE};
use model::{Call, Lent, Numbers, ROW, STATE};
use service::areas::{arc_image, area, cold, image};
use service::boxes::{bytes, damage, damaged, fill, number_of, pick, small, sound, Counts, Damage, Shape, DAMAGES};
use service::compare::{compare_restore, compare_save};
use service::progress::{count, seed, Progress};

/// Where the label starts in an area, and the tables.
const LABEL_AT: usize = HEADER + 28;
const TABLES_AT: usize = LABEL_AT + 64;

fn show(name: &str, turns: usize, checks: &[u32], numbers: &Counts, seed: u64, progress: &Progress) {
    let refused: Vec<String> = checks.iter().map(|k| format!("{k}: {}", numbers[*k as usize])).collect();
    println!("{name}: {turns}, refused with {}; served {} (seed {seed}, {:.1} s)", refused.join(", "), numbers[0], progress.seconds());
    assert_eq!(checks.iter().map(|k| numbers[*k as usize]).sum::<usize>() + numbers[0], turns, "a number that is none of these");
    assert!(checks.iter().all(|k| numbers[*k as usize] > 0) && numbers[0] > 0, "{numbers:?}");
}

/// A restore's input: the area, the box that lends its state and tables, and the lists.
#[derive(Clone)]
struct Input {
    area: Vec<u8>,
    lent: Lent,
    lists: Vec<u8>,
}

impl Input {
    /// An image of a box, to be restored into tables of the right lengths.
    fn of(random: &mut Random, lent: &Lent) -> Input {
        Input { area: image(random, lent), lent: cold(random, lent), lists: vec![] }
    }

    fn restore(&mut self, random: &mut Random, context: &dyn Fn() -> String) -> u32 {
        compare_restore(&mut self.lent, &mut self.area, &mut self.lists, random.below(32), context)
    }

    fn word(&self, place: usize) -> u32 {
        u32::from_le_bytes(self.area[place..place + 4].try_into().unwrap())
    }

    fn set_word(&mut self, place: usize, word: u32) {
        self.area[place..place + 4].copy_from_slice(&word.to_le_bytes());
    }
}

/// Every other value of every byte of a header, said without the model: a byte of the length gives 14 or 16, any other 15.
#[test]
fn every_byte_of_a_header() {
    let seed = seed(911);
    let mut random = Random(seed);
    let lent = sound(&mut random, Shape { b: 64, p: 4, m: 3, d: 2 });
    let right = Input::of(&mut random, &lent);
    let mut numbers = Counts::default();
    for (place, change) in (0..HEADER).flat_map(|place| (1..=255u8).map(move |change| (place, change))) {
        let mut input = right.clone();
        input.area[place] ^= change;
        let number = input.restore(&mut random, &|| format!("byte {place} changed by {change}"));
        let length = input.word(5) as u64;
        let expected = match place {
            5..9 if 64 + length.div_ceil(64) * 64 > input.area.len() as u64 => 14,
            5..9 => 16,
            _ => 15,
        };
        assert_eq!(number, expected, "byte {place} changed by {change}");
        numbers[number as usize] += 1;
    }
    println!("headers with one byte changed: 14: {}, 15: {}, 16: {}", numbers[14], numbers[15], numbers[16]);
    assert!(numbers[14] > 500 && numbers[15] == 60 * 255 && numbers[16] > 50);
}

const EDGES: [u32; 22] =
    [0, 1, 2, 27, 28, 63, 64, 65, 255, 256, 257, 1_024, 1_025, 4_096, 65_535, 65_536, 65_537, 0x0666_6666, 1 << 31, (1 << 31) + 1, u32::MAX - 1, u32::MAX];

/// Every number of a body and the length in the header at every edge, one below and one above what it was, and with one bit more: alone, and m and d with
/// tables that fit it. (2 to the power 29 rows more are 0 bytes more in 32 bits.)
#[test]
fn every_number_at_its_edges() {
    let (seed, turns) = (seed(912), count(60));
    let mut random = Random(seed);
    let (mut tried, mut numbers) = (0, Counts::default());
    let mut progress = Progress::new("numbers at their edges", turns);
    for turn in 0..turns {
        let shape = small(&mut random);
        let lent = sound(&mut random, shape);
        let right = Input::of(&mut random, &lent);
        for place in [5].into_iter().chain((0..7).map(|k| HEADER + 4 * k)) {
            let was = right.word(place);
            for number in EDGES.into_iter().chain([was.wrapping_sub(1), was + 1, was ^ (1 << 16), was ^ (1 << 24), was ^ (1 << 29)]) {
                for fitted in [false, true] {
                    let mut input = right.clone();
                    input.set_word(place, number);
                    if fitted {
                        fit(&mut input);
                    }
                    let got = input.restore(&mut random, &|| format!("{number} at byte {place}, fitted {fitted}, turn {turn}, {shape:?}, seed {seed}"));
                    numbers[got as usize] += 1;
                    tried += 1;
                }
            }
        }
        progress.at(turn);
    }
    let refused: Vec<String> = [14, 16].iter().map(|k| format!("{k}: {}", numbers[*k])).collect();
    println!(
        "numbers of a body at their edges: {tried}, refused with {}; served {} (seed {seed}, {:.1} s)",
        refused.join(", "),
        numbers[0],
        progress.seconds()
    );
    assert_eq!(numbers[0] + numbers[14] + numbers[16], tried);
    assert!([numbers[0], numbers[14], numbers[16]].iter().all(|count| *count > turns));
}

/// Makes tables, header and area as long as the numbers of the body say, where that is not much, with rows of zeros where rows are missing; the lent
/// tables too.
fn fit(input: &mut Input) {
    let (m, d) = (input.word(HEADER + 12) as usize, input.word(HEADER + 16) as usize);
    if m > 1_100 || d > 300 {
        return;
    }
    let (old_m, old_d) = (input.lent.addresses.len() / ROW, input.lent.blocks.len() / ROW);
    let tables = input.area[TABLES_AT..][..(old_m + old_d) * ROW].to_vec();
    let (mut addresses, mut blocks) = (tables[..old_m * ROW].to_vec(), tables[old_m * ROW..].to_vec());
    addresses.resize(m * ROW, 0);
    // Free rows come first; the new ones have the slots that are missing.
    let more: Vec<u8> = (old_d..d).flat_map(|k| [&[0; 32][..], &(k as u32).to_le_bytes(), &[0; 4]].concat()).collect();
    blocks.truncate(d * ROW);
    blocks = [more, blocks].concat();
    input.area.truncate(TABLES_AT);
    input.area.extend([&addresses[..], &blocks].concat());
    let length = input.area.len() - HEADER;
    input.area[..HEADER].copy_from_slice(&header(length as u32));
    input.area.resize(room(m, d), 0xF1);
    input.lent.addresses.resize(m * ROW, 0x77);
    input.lent.blocks.resize(d * ROW, 0x88);
}

/// Damages of the tables, which an image of a broken box has too.
fn of_tables(kind: Damage) -> bool {
    DAMAGES.iter().any(|(other, number)| *other == kind && [6, 7, 8, 13].contains(number) && kind != Damage::TooManyHeld)
}

/// Spoils a restore in one of many ways, some of which leave it right.
fn spoil(random: &mut Random, input: &mut Input) {
    let length = input.area.len();
    let any = |random: &mut Random, from: usize, to: usize| from + random.below(to.saturating_sub(from).max(1));
    match random.below(16) {
        // A byte of the header, often the mark and the version.
        0 | 1 if length >= HEADER => {
            let place = pick(random, &[0, 1, 2, 3, 4, 9, 63, 5, 6, 7, 8]);
            let place = if random.below(2) == 0 { random.below(HEADER) } else { place };
            input.area[place] = pick(random, &[0, 1, 2, 255, b'V', b'B', b'X']);
        }
        // The length.
        2 if length >= HEADER => {
            let was = input.word(5);
            let others =
                [0, 1, 27, 28, 91, 92, was.wrapping_sub(1), was.wrapping_add(1), was ^ 40, was.wrapping_sub(40), u32::MAX, u32::MAX - 63, 1 << 31, 1 << 16];
            let number = pick(random, &others);
            input.set_word(5, number);
        }
        // A number of the body, the first of which is the kind.
        3..=5 if length >= LABEL_AT => {
            let place = HEADER + 4 * random.below(7);
            let was = input.word(place);
            let number = if random.below(2) == 0 { pick(random, &EDGES) } else { pick(random, &[was.wrapping_sub(1), was.wrapping_add(1), was ^ (1 << 16)]) };
            input.set_word(place, number);
            let reads_on = length >= TABLES_AT + input.lent.addresses.len() + input.lent.blocks.len();
            if random.below(2) == 0 && reads_on && input.lent.addresses.len() % ROW == 0 && input.lent.blocks.len() % ROW == 0 {
                fit(input);
            }
        }
        // A byte of the label.
        6 if length >= TABLES_AT => {
            let place = any(random, LABEL_AT, TABLES_AT);
            input.area[place] ^= 1 << random.below(8);
        }
        // A byte of the tables, the fill or what is behind it.
        7..=9 if length > TABLES_AT => {
            let place = any(random, TABLES_AT, length);
            match random.below(3) {
                0 => input.area[place] ^= 1 << random.below(8),
                1 => input.area[place] = random.below(3) as u8,
                _ => input.area[place] = random.number() as u8,
            }
        }
        // An area of another length: around its header, its body and its fill.
        10 => {
            let end = length.saturating_sub(random.below(130));
            let other = pick(random, &[0, 1, 8, 9, 63, 64, 65, 91, 92, 127, 128, 155, 156, end, end, length + 1, length + 64]);
            input.area.resize(other, 0);
        }
        // Tables or lists of other lengths.
        11 => {
            let table = if random.below(2) == 0 { &mut input.lent.addresses } else { &mut input.lent.blocks };
            let was = table.len();
            let other = pick(random, &[0, 1, ROW, was + 1, was.saturating_sub(1), was + ROW, was.saturating_sub(ROW), was * 2]);
            table.resize(other, 0x99);
        }
        12 => {
            let lent = &mut input.lent;
            std::mem::swap(&mut lent.addresses, &mut lent.blocks);
        }
        13 => {
            let long = 4 * input.lent.addresses.len() / ROW;
            let length = pick(random, &[1, 1, 4, ROW, long.max(1)]);
            input.lists = bytes(random, length);
        }
        // Right as it was, as far as this goes.
        _ => fill(random, &mut input.lent.addresses),
    }
}

/// Images of sound boxes, of broken ones and of D-ARC boxes, each spoilt in up to three ways more.
#[test]
fn damaged_images() {
    let (seed, total) = (seed(913), count(120_000));
    let mut random = Random(seed);
    let mut numbers = Counts::default();
    let mut progress = Progress::new("damaged images", total);
    for turn in 0..total {
        let shape = small(&mut random);
        let mut lent = sound(&mut random, shape);
        let kind = pick(&mut random, &DAMAGES).0;
        if random.below(4) == 0 && of_tables(kind) {
            // A damage that this box cannot have leaves it sound.
            damage(&mut random, &mut lent, &mut 0, kind);
        }
        let mut input = Input::of(&mut random, &lent);
        if random.below(30) == 0 {
            input.area = arc_image(&mut random, shape);
        }
        let spoilt = random.below(4);
        for _ in 0..spoilt {
            spoil(&mut random, &mut input);
        }
        let number = input.restore(&mut random, &|| format!("turn {turn}, {shape:?}, damage {kind:?}, seed {seed}"));
        numbers[number as usize] += 1;
        progress.at(turn);
    }
    show("damaged images", total, &RESTORE_CHECKS, &numbers, seed, &progress);
    assert!(RESTORE_CHECKS.iter().all(|k| numbers[*k as usize] > total / 50) && numbers[0] > total / 10, "{numbers:?}");
}

/// Each damage of a box's tables is seen in its image, whatever the rest: 16. So are numbers outside their sets.
#[test]
fn images_of_broken_boxes() {
    let (seed, turns) = (seed(914), count(200));
    let mut random = Random(seed);
    let (mut tried, kinds) = (0, DAMAGES.iter().filter(|(kind, _)| of_tables(*kind)).count());
    for turn in 0..turns {
        for (kind, _) in DAMAGES.into_iter().filter(|(kind, _)| of_tables(*kind)) {
            let (lent, _) = damaged(&mut random, &[kind], small);
            let mut input = Input::of(&mut random, &lent);
            // 2 comes after it.
            if random.below(3) == 0 {
                input.lists = vec![0];
                input.lent.blocks.pop();
            }
            assert_eq!(input.restore(&mut random, &|| format!("{kind:?}, turn {turn}, seed {seed}")), 16, "{kind:?}, turn {turn}, seed {seed}");
            tried += 1;
        }
    }
    println!("{tried} images of boxes broken in {kinds} ways get 16 (seed {seed})");
    assert_eq!((kinds, tried), (15, 15 * turns));
}

/// Each damage in the image of a box of large tables, at any row.
#[test]
fn large_images_of_broken_boxes() {
    let (seed, turns) = (seed(915), count(20));
    let mut random = Random(seed);
    let mut tried = 0;
    let large = |random: &mut Random| Shape { b: 64, p: 1_024 + random.below(500), m: pick(random, &[1_024, 700, 257]), d: pick(random, &[256, 255, 100]) };
    for (kind, _) in (0..turns).flat_map(|_| DAMAGES).filter(|(kind, _)| of_tables(*kind)) {
        let (lent, _) = damaged(&mut random, &[kind], large);
        assert_eq!(Input::of(&mut random, &lent).restore(&mut random, &|| format!("{kind:?}, seed {seed}")), 16, "{kind:?}, seed {seed}");
        tried += 1;
    }
    println!("{tried} images of large broken boxes get 16 (seed {seed})");
}

/// Any bytes behind a header that is right, often short ones.
#[test]
fn any_bodies() {
    let (seed, total) = (seed(916), count(40_000));
    let mut random = Random(seed);
    let mut numbers = Counts::default();
    let shape = Shape { b: 64, p: 4, m: 3, d: 2 };
    for turn in 0..total {
        let right = sound(&mut random, shape);
        let mut input = Input::of(&mut random, &right);
        let length: usize = pick(&mut random, &[0, 27, 28, 29, 91, 92, 93, 172, 212, 252, 291, 292, 293, 320]);
        let kind = random.below(3);
        let old = input.area.split_off(HEADER);
        input.area = header(length as u32).to_vec();
        // The right numbers before any bytes, zeros alone, or any bytes.
        let body = match kind {
            0 => [&old[..28], &bytes(&mut random, 400)].concat(),
            1 => vec![0; 400],
            _ => bytes(&mut random, 400),
        };
        let behind = random.below(80);
        input.area.extend(&body[..(length.next_multiple_of(WRITE) + behind).saturating_sub(40).min(400)]);
        let number = input.restore(&mut random, &|| format!("turn {turn}, seed {seed}"));
        numbers[number as usize] += 1;
    }
    println!("any bodies: {total}, refused with 14: {}, 16: {} (seed {seed})", numbers[14], numbers[16]);
    assert!(numbers[14] + numbers[16] == total && numbers[14] > total / 10 && numbers[16] > total / 10, "{numbers:?}");
}

/// A state that is not 144 bytes gives 2 in both calls, and an answer that is not 24 in a save, whatever else is wrong; nothing is changed.
#[test]
fn other_lengths_of_state_and_answer() {
    let (seed, turns) = (seed(917), count(4_000));
    let mut random = Random(seed);
    for turn in 0..turns {
        let context = || format!("turn {turn}, seed {seed}");
        let kind = pick(&mut random, &DAMAGES).0;
        let (mut lent, _) = damaged(&mut random, &[kind], small);
        let mut into = bytes(&mut random, 100 + turn % 400);
        let mut input = Input { area: into.clone(), lent: lent.clone(), lists: vec![] };
        spoil(&mut random, &mut input);
        let length = pick(&mut random, &[0, 1, 8, 72, 136, 143, 145, 200, 288]);
        input.lent.state.resize(length, 0x33);
        assert_eq!(input.restore(&mut random, &context), 2, "{}", context());
        if random.below(2) == 0 {
            lent.state.resize(length, 0x33);
        } else {
            let length = pick(&mut random, &[0, 1, 8, 16, 23, 25, 32, 144]);
            lent.answer.resize(length, 0x33);
        }
        assert_eq!(compare_save(&mut lent, &mut into, random.below(32), &context), 2, "{}", context());
    }
    println!("states and answers of other lengths: {} calls give 2 (seed {seed})", 2 * turns);
}

/// Areas for a box that may be broken: long enough, or shorter by some bytes.
fn any_area(random: &mut Random, lent: &Lent) -> (Vec<u8>, bool) {
    let Numbers { m, d, .. } = lent.numbers();
    let (m, d) = (m.min(1_024) as usize, d.min(256) as usize);
    if random.below(2) == 0 {
        return (area(random, m, d), false);
    }
    let most = room(m, d);
    let any = random.below(most);
    let length = pick(random, &[0, 1, 63, 64, most - 1, most - 63, most - 64, any]);
    (bytes(random, length), true)
}

/// Every damage and every two of them, with areas that are too short and that are not: 14 comes after all else, and nothing is flushed.
#[test]
fn refused_saves() {
    let (seed, turns) = (seed(918), count(30));
    let mut random = Random(seed);
    let (mut saves, mut numbers) = (0, Counts::default());
    let mut progress = Progress::new("refused saves", turns);
    for turn in 0..turns {
        for (k, (one, _)) in DAMAGES.into_iter().enumerate() {
            for (two, _) in DAMAGES.into_iter().take(k + 1) {
                let (mut lent, _) = damaged(&mut random, &[two, one], small);
                let (mut area, short) = any_area(&mut random, &lent);
                let context = || format!("{two:?} and {one:?}, short {short}, turn {turn}, seed {seed}");
                let expected = match number_of(Call::Flush, &[two, one]) {
                    0 if short => 14,
                    number => number,
                };
                assert_eq!(compare_save(&mut lent, &mut area, random.below(32), &context), expected, "{}", context());
                numbers[expected as usize] += 1;
                saves += 1;
            }
        }
        progress.at(turn);
    }
    show("saves", saves, &SAVE_CHECKS, &numbers, seed, &progress);
}

/// Every length of an area around the edges, and no other number than 0 and 14: served exactly where there is room.
#[test]
fn every_length_of_an_area() {
    let (seed, mut saves) = (seed(919), 0);
    let mut random = Random(seed);
    for (m, d) in [(1, 1), (2, 1), (3, 2), (1, 4), (7, 9)] {
        let lent = sound(&mut random, Shape { b: 64, p: 12, m, d });
        for length in 0..room(m, d) + 130 {
            let mut area = bytes(&mut random, length);
            let expected = if length < room(m, d) { 14 } else { 0 };
            assert_eq!(compare_save(&mut lent.clone(), &mut area, length % 32, &|| format!("m = {m}, d = {d}")), expected, "{length} bytes, m = {m}, d = {d}");
            saves += 1;
        }
    }
    assert_eq!((room(1, 1), room(3, 2), STATE), (256, 384, 144));
    println!("{saves} saves into areas of every length (seed {seed})");
}
