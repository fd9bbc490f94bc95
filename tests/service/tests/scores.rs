//! Exam questions: the counts of the service against every list, by the printed D-LRU of the model and by the service's own reads; refusals.
use common::Random;
use model::exam::{carry_out_question, lists, refusal_question, scores, Question, COUNTS};
use model::{Call, Lent, Numbers, ANSWER, BLOCK_SIZES, HIT, LABEL, ROW};
use service::boxes::{any_label, bytes, pick};
use service::calls::{call, call_question, call_question_guarded};
use service::progress::{count, seed, Progress};

/// Every way in which p addresses share contents: each is told by the first address that has it.
fn sharings(p: usize) -> Vec<Vec<usize>> {
    let mut all = vec![vec![]];
    for a in 0..p {
        all = all
            .iter()
            .flat_map(|before: &Vec<usize>| {
                let firsts = (0..a).filter(|b| before[*b] == *b).chain([a]);
                firsts.map(|content| [&before[..], &[content]].concat()).collect::<Vec<_>>()
            })
            .collect();
    }
    all
}

/// A question over blocks of any bytes, which are the same where the contents are.
fn asked(random: &mut Random, [p, m, d, k]: [usize; 4], contents: &[usize]) -> Question {
    let blocks: Vec<Vec<u8>> = (0..p).map(|_| bytes(random, 64)).collect();
    let disk = contents.iter().flat_map(|content| blocks[*content].clone()).collect();
    Question { b: 64, p, m, d, t: 1 + random.below(m), label: any_label(random).to_vec(), disk, k, counts: bytes(random, COUNTS) }
}

/// The counts in the bytes.
fn counts_in(q: &Question) -> [u64; 9] {
    std::array::from_fn(|h| u64::from_le_bytes(q.counts[8 * h..8 * h + 8].try_into().unwrap()))
}

/// All boxes of at most four addresses, with room for fewer, for all and for more, and every way of sharing contents.
#[test]
fn every_small_box() {
    let mut random = Random(seed(120));
    let (mut boxes, mut questions, mut counted) = (0, 0, 0);
    let mut progress = Progress::new("exam questions, every small box", 575);
    for p in 1..=4 {
        for contents in sharings(p) {
            for (m, d) in (1..=5).flat_map(|m| (1..=5).map(move |d| (m, d))) {
                for k in 0..=6 {
                    let mut q = asked(&mut random, [p, m, d, k], &contents);
                    let expected = scores(&q);
                    assert_eq!(call_question(&mut q), 0, "{q:?}");
                    assert_eq!(counts_in(&q), expected, "P {p}, m {m}, d {d}, k {k}, contents {contents:?}");
                    assert_eq!(expected.iter().sum::<u64>(), (p as u64).pow(k as u32));
                    questions += 1;
                    counted += expected.iter().sum::<u64>();
                }
                boxes += 1;
                progress.at(boxes);
            }
        }
    }
    assert_eq!(boxes, (1 + 2 + 5 + 15) * 25);
    println!("{boxes} boxes, {questions} questions, {counted} lists, in {:.0} s", progress.seconds());
}

/// A box opened by the service over the question's disk.
fn opened(q: &Question) -> Lent {
    let label: [u8; LABEL] = q.label[..].try_into().unwrap();
    let numbers = Numbers { b: q.b as u64, p: q.p as u64, m: q.m as u64, d: q.d as u64, n: 7, counters: [7; 4], label, t: q.t as u64 };
    let [flash, addresses, blocks] = [q.d * q.b, q.m * ROW, q.d * ROW].map(|length| vec![0xA5; length]);
    let disk = q.disk.clone();
    let mut lent = Lent { state: numbers.to_bytes(), disk, flash, addresses, blocks, block: vec![0; q.b], answer: vec![0; ANSWER], label: q.label.clone() };
    assert_eq!(call(Call::Open, 0, &mut lent), 0);
    lent
}

/// The counts by the service's own reads, each list from the box that its first reads have left.
fn by_reads(lent: &Lent, p: usize, k: usize, hits: usize, counts: &mut [u64; 9]) {
    if k == 0 {
        counts[hits] += 1;
        return;
    }
    for a in 0..p as u32 {
        let mut next = lent.clone();
        assert_eq!(call(Call::Read, a, &mut next), 0);
        let hit = u64::from_le_bytes(next.answer[..8].try_into().unwrap()) == HIT;
        by_reads(&next, p, k - 1, hits + hit as usize, counts);
    }
}

#[test]
fn by_the_services_own_reads() {
    let mut random = Random(seed(121));
    let cases: [([usize; 3], &[usize]); 8] = [
        ([4, 2, 2], &[0, 1, 2, 3]),
        ([4, 3, 2], &[0, 1, 2, 3]),
        ([4, 3, 1], &[0, 1, 1, 3]),
        ([4, 2, 3], &[0, 0, 2, 2]),
        ([4, 1, 1], &[0, 0, 0, 0]),
        ([4, 9, 7], &[0, 1, 2, 2]),
        ([3, 2, 1], &[0, 1, 0]),
        ([1, 1, 1], &[0]),
    ];
    let mut reads = 0;
    for ([p, m, d], contents) in cases {
        let mut q = asked(&mut random, [p, m, d, 8], contents);
        assert_eq!(call_question(&mut q), 0);
        let mut counts = [0; 9];
        by_reads(&opened(&q), p, 8, 0, &mut counts);
        assert_eq!(counts_in(&q), counts, "P {p}, m {m}, d {d}, contents {contents:?}");
        reads += (1..=8).map(|k| p.pow(k)).sum::<usize>();
    }
    println!("{} boxes at k = 8, {reads} reads of the service", cases.len());
}

/// Lists of eight reads in boxes as large as there are.
#[test]
fn large_boxes_by_every_list() {
    let mut random = Random(seed(122));
    let mut done = 0;
    for [p, m, d] in [[4, 1024, 256], [4, 1024, 1], [3, 1, 256], [2, 2, 2]] {
        for contents in sharings(p).into_iter().step_by(4) {
            let mut q = asked(&mut random, [p, m, d, 8], &contents);
            let expected = scores(&q);
            assert_eq!(call_question(&mut q), 0);
            assert_eq!(counts_in(&q), expected, "P {p}, m {m}, d {d}, contents {contents:?}");
            done += lists(p, 8).count();
        }
    }
    println!("{done} lists of 8 reads");
}

/// A number at or beside a limit, now and then any.
fn near(random: &mut Random, limits: &[usize]) -> usize {
    let limit = pick(random, limits);
    match random.below(16) {
        0 => random.number() as usize,
        1 => limit.wrapping_sub(1),
        2 => limit + 1,
        _ => limit,
    }
}

fn length(random: &mut Random, right: usize) -> usize {
    match random.below(12) {
        0 => right.saturating_sub(1),
        1 => right + 1,
        2 => 0,
        3 => random.below(200),
        _ => right,
    }
}

/// A question of which much may be wrong, over a disk that is not too large to make.
fn any(random: &mut Random) -> Question {
    let b = if random.below(4) == 0 { pick(random, &[0, 32, 63, 65, 96, 128, 4096, 8192, usize::MAX]) } else { 64 };
    let [p, m] = [near(random, &[1, 3, 4, 4]), near(random, &[1, 2, 3, 1024])];
    let [d, k] = [near(random, &[1, 2, 3, 256]), near(random, &[0, 1, 4, 5, 8])];
    let disk = p.checked_mul(b).filter(|length| *length < 1 << 20).unwrap_or(256);
    let [label, disk, counts] = [LABEL, disk, COUNTS].map(|right| length(random, right)).map(|length| bytes(random, length));
    let any = 1 + random.below(m.clamp(1, 1024));
    let t = near(random, &[1, any, m.max(1)]);
    Question { b, p, m, d, t, label, disk, k, counts }
}

/// Numbers, lengths and k, right and wrong in any mixture: the number, the nine counts or zeros, and no byte elsewhere.
#[test]
fn any_question() {
    let mut random = Random(seed(123));
    let total = count(60_000);
    let mut progress = Progress::new("exam questions, right and wrong", total);
    let mut numbers = std::collections::BTreeMap::new();
    for done in 0..total {
        let mut q = any(&mut random);
        // Lists of at most five reads, or the model takes most of the time.
        if refusal_question(&q) == 0 && q.k > 5 {
            q.k = random.below(6);
        }
        let mut expected = q.clone();
        let number = carry_out_question(&mut expected);
        assert_eq!(call_question_guarded(&mut q, random.below(32)), number, "{expected:?}");
        assert_eq!(q, expected);
        *numbers.entry(number).or_insert(0) += 1;
        progress.at(done);
    }
    assert!([0, 1, 2, 12, 17].iter().all(|number| numbers.get(number).is_some_and(|count| *count > total / 50)) && numbers.len() == 5, "{numbers:?}");
    println!("{total} questions from the seed 123; how many got each number: {numbers:?}, in {:.0} s", progress.seconds());
}

/// Each refusal at its edge, one thing wrong at a time, then the order of two.
#[test]
fn the_edges() {
    let mut random = Random(seed(124));
    let good = asked(&mut random, [4, 3, 2, 8], &[0, 1, 2, 3]);
    let sized = |b: usize, p: usize| Question { b, p, disk: vec![5; p * b], ..good.clone() };
    let cases = [
        (good.clone(), 0),
        (sized(64, 1), 0),
        (sized(64, 5), 17),
        (Question { k: 9, ..good.clone() }, 17),
        (Question { k: usize::MAX, ..good.clone() }, 17),
        (Question { p: 0, disk: vec![], ..good.clone() }, 1),
        (Question { m: 0, ..good.clone() }, 1),
        (Question { m: 1025, ..good.clone() }, 1),
        (Question { d: 257, ..good.clone() }, 1),
        (Question { b: 32, disk: vec![5; 128], ..good.clone() }, 1),
        (Question { t: 0, ..good.clone() }, 12),
        (Question { t: 1, ..good.clone() }, 0),
        (Question { t: 3, ..good.clone() }, 0),
        (Question { t: 4, ..good.clone() }, 12),
        (Question { t: (1 << 32) + 1, ..good.clone() }, 12),
        (Question { t: usize::MAX, ..good.clone() }, 12),
        (Question { disk: vec![5; 255], t: 0, ..good.clone() }, 12),
        (Question { k: 9, counts: vec![5; 71], t: 4, ..good.clone() }, 12),
        (Question { m: 0, t: 0, ..good.clone() }, 1),
        (Question { disk: vec![5; 255], ..good.clone() }, 2),
        (Question { label: vec![0; 63], ..good.clone() }, 2),
        (Question { label: vec![0; 65], ..good.clone() }, 2),
        (Question { counts: vec![5; 71], ..good.clone() }, 2),
        (Question { counts: vec![5; 80], ..good.clone() }, 2),
        (Question { counts: vec![], k: 9, ..good.clone() }, 2),
        (Question { label: vec![], ..sized(64, 5) }, 2),
        (Question { d: 0, k: 9, counts: vec![5; 64], ..sized(64, 5) }, 1),
    ];
    for (given, number) in &cases {
        let mut q = given.clone();
        assert_eq!(refusal_question(given), *number, "{given:?}");
        assert_eq!(call_question(&mut q), *number, "{given:?}");
        let left = if given.counts.len() != COUNTS { given.counts.clone() } else { vec![0; COUNTS] };
        assert!(*number == 0 || q.counts == left, "{given:?}: {:?}", q.counts);
    }
    for b in BLOCK_SIZES.into_iter().filter(|b| *b != 64) {
        assert_eq!(call_question(&mut sized(b, 2)), 17, "B {b}");
    }
    println!("{} questions at the edges", cases.len() + 6);
}
