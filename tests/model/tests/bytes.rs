//! The two ways of the model agree: a list run in maps and queues, and each of its calls loaded from bytes and stored to bytes.
use common::Random;
use model::{carry_out, carry_out_report, Answer, Cache, Call, Lent, Numbers, LABEL, REPORTS};

#[test]
fn lists_in_bytes() {
    let seed = 11;
    let mut random = Random(seed);
    let (mut calls, mut refused) = (0, 0);
    for _ in 0..400 {
        let b = [64, 128][random.below(2)];
        let (p, m, d) = (1 + random.below(12), 1 + random.below(6), 1 + random.below(5));
        let t = 1 + random.below(m);
        let contents = 1 + random.below(8);
        let disk: Vec<u8> = (0..p).flat_map(|_| vec![random.below(contents) as u8; b]).collect();
        let flash = random.bytes(d * b);
        let [label, other] = std::array::from_fn(|_| random.bytes(LABEL).try_into().unwrap());
        let (n, counters) = (random.number(), [random.number(); 4]);
        let mut lent = Lent {
            state: Numbers { b: b as u64, p: p as u64, m: m as u64, d: d as u64, n, counters, label: other, t: t as u64 }.to_bytes(),
            disk: disk.clone(),
            flash: flash.clone(),
            addresses: random.bytes(m * 40),
            blocks: random.bytes(d * 40),
            block: Vec::new(),
            answer: vec![0; 24],
            label: label.to_vec(),
        };
        let mut cache = Cache::fresh(b, p, m, d, t, label, disk, flash);
        assert_eq!(carry_out(Call::Open, 0, &mut lent), 0);
        assert_eq!(cache.difference(&lent), None, "seed {seed}");
        for _ in 0..100 {
            let call = model::CALLS[1 + random.below(7)].by_seat(random.number() as u16);
            let address = random.below(p + 1) as u32;
            let length = if random.below(20) == 0 { b - 1 } else { b };
            let mut block = vec![random.below(contents) as u8; length];
            lent.block = block.clone();
            let answer = lent.answer.clone();
            let number = carry_out(call, address, &mut lent);
            match cache.call(call, address, &mut block) {
                Err(other) => {
                    assert_eq!(number, other);
                    assert_eq!(lent.answer, answer);
                    refused += 1;
                }
                Ok(answer) => {
                    assert_eq!(number, 0, "{call:?} {address}");
                    assert_eq!(Answer::from_bytes(&lent.answer), answer);
                }
            }
            assert_eq!(lent.block, block);
            assert_eq!(cache.difference(&lent), None, "seed {seed}, {call:?} {address}");
            for report in REPORTS {
                let mut bytes = random.bytes(m * report.row());
                assert_eq!((carry_out_report(report, &lent, &mut bytes), bytes), (0, cache.report(report)), "seed {seed}, {call:?} {address}");
            }
            calls += 1;
        }
    }
    println!("{calls} calls, {refused} of them refused, leave the same in maps and in bytes (seed {seed})");
}
