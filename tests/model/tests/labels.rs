//! The office label by the model: digests made elsewhere, what an opening does with the label, and where it is refused.
use model::{carry_out, carry_out_many, fingerprint, Call, Folder, Label, Lent, Numbers, CALLS, LABEL, ROW, STATE, STATE_LABEL, ZEROS};

const B: usize = 64;

fn hex(bytes: &[u8]) -> String {
    bytes.iter().map(|byte| format!("{byte:02x}")).collect()
}

/// As Python makes them: `hashlib.sha256(label + block).hexdigest()`, with `bytes(range(64))` for a label that counts.
#[test]
fn digests() {
    let counting: Label = std::array::from_fn(|k| k as u8);
    let more: Vec<u8> = (0..512).map(|k| k as u8).collect();
    let digests: [(Label, &[u8], &str); 5] = [
        (ZEROS, &[7; 64], "264f8a26c694fa2f7d81b35042a2a1990ba39ca8c64baa5887ef1bfd1e6387d9"),
        ([255; LABEL], &[0; 64], "9f9350f79a9d8070eb26392f0c611b000c4c8dc725abef87b385944b6ece5bdb"),
        (counting, &[7; 64], "2cf9ee50d1aee4eae73d1e36c173f91272e0605cd6061033d59c9799ceedbe15"),
        (counting, &more, "478108ce185a4fba3ee87c86940bf8b761c342f70ed4389a70b551880d4fff4d"),
        (counting, &[0xA5; 4_096], "fabbf55c10f7831dc6bcd4e010dabb6aefc11a6525f4749a5b04eb5f4f815ea1"),
    ];
    for (label, block, digest) in digests {
        assert_eq!(hex(&fingerprint(&label, block)), digest, "a block of {} bytes", block.len());
    }
    println!("{} fingerprints are those that Python makes", digests.len());
}

/// A box that was in use: its state has this label, n = 1 and counters.
fn used(label: &[u8]) -> Lent {
    let mut lent = Lent {
        state: Numbers { b: B as u64, p: 8, m: 3, d: 2, n: 0, counters: [0; 4], label: ZEROS, t: 2 }.to_bytes(),
        disk: (0..8u8).flat_map(|k| [k; B]).collect(),
        flash: vec![0xAA; 2 * B],
        addresses: vec![0; 3 * ROW],
        blocks: vec![0; 2 * ROW],
        block: vec![0xDD; B],
        answer: vec![0xEE; 24],
        label: label.to_vec(),
    };
    assert_eq!((carry_out(Call::Open, 0, &mut lent), carry_out(Call::Read, 5, &mut lent)), (0, 0));
    lent
}

/// The label of an opening is in the state, and in the fingerprints of every call that hashes: a miss, the three writes, a folder.
#[test]
fn in_every_fingerprint() {
    let label: Label = std::array::from_fn(|k| 200 - k as u8);
    let lent = used(&label);
    assert_eq!(lent.state[STATE_LABEL], label);
    assert_eq!(lent.addresses[4..36], fingerprint(&label, &[5; B]));
    for call in [Call::Through(1), Call::Back(2)] {
        let mut lent = lent.clone();
        lent.block = vec![9; B];
        assert_eq!(carry_out(call, 1, &mut lent), 0);
        assert_eq!(lent.addresses[ROW + 4..ROW + 36], fingerprint(&label, &[9; B]), "{call:?}");
        assert_eq!(lent.blocks[ROW..ROW + 32], fingerprint(&label, &[9; B]), "{call:?}");
    }
    // Content 5 is in flash under this label, and under no other.
    for (other, word) in [(label, model::SAME), (ZEROS, model::NEW)] {
        let mut lent = lent.clone();
        lent.state[STATE_LABEL].copy_from_slice(&other);
        lent.block = vec![5; B];
        assert_eq!(carry_out(Call::Invalidate(3), 1, &mut lent), 0);
        assert_eq!(model::Answer::from_bytes(&lent.answer).word, word);
    }
    let mut lent = lent.clone();
    let mut folder = Folder { asked: vec![6], buffer: vec![0; B], answer: vec![0; 32] };
    assert_eq!(carry_out_many(&mut lent, &mut folder), 0);
    assert_eq!(lent.addresses[ROW + 4..ROW + 36], fingerprint(&label, &[6; B]));
    assert_eq!(lent.state[STATE_LABEL], label);
    println!("a read, three writes and a folder by the label of the opening");
}

/// 2 for a label that has not 64 bytes, 1 before it; a refused opening leaves n = 0 and a label of zeros, and all else as it was.
#[test]
fn refused_openings() {
    let (before, label): (Lent, Label) = (used(&[0x77; LABEL]), [0x33; LABEL]);
    let mut zeros = before.clone();
    zeros.state[32..40].fill(0);
    zeros.state[STATE_LABEL].fill(0);
    for length in [0, 1, 63, 65, 72, 128, STATE] {
        for (b, number) in [(B as u64, 2), (65, 1)] {
            let mut lent = before.clone();
            lent.label = vec![0x33; length];
            lent.state[..8].copy_from_slice(&b.to_le_bytes());
            let mut expected = Lent { label: lent.label.clone(), ..zeros.clone() };
            expected.state[..8].copy_from_slice(&b.to_le_bytes());
            assert_eq!(carry_out(Call::Open, 0, &mut lent), number, "a label of {length} bytes, B = {b}");
            assert_eq!(lent.difference(&expected), None, "a label of {length} bytes, B = {b}");
        }
    }
    let mut short = Lent { label: label.to_vec(), ..before.clone() };
    short.blocks.pop();
    assert_eq!(carry_out(Call::Open, 0, &mut short), 2);
    assert_eq!(short.state, zeros.state);
    println!("openings refused for the label, for the numbers before it, and for a buffer");
}

/// The other calls take no label, and a state of another length is refused before all else, with nothing changed.
#[test]
fn other_calls_and_states() {
    let before = used(&[0x77; LABEL]);
    for call in CALLS.into_iter().filter(|call| *call != Call::Open) {
        let mut lent = Lent { label: vec![], ..before.clone() };
        assert_eq!((carry_out(call, 5, &mut lent), &lent.state[STATE_LABEL]), (0, &[0x77; LABEL][..]), "{call:?}");
    }
    for length in [72, 136, STATE - 1, STATE + 1] {
        let mut lent = before.clone();
        lent.state.resize(length, 0);
        let kept = lent.clone();
        assert!(CALLS.into_iter().all(|call| carry_out(call, 5, &mut lent) == 2 && lent == kept), "a state of {length} bytes");
    }
    println!("seven calls without a label, and eight on states of other lengths");
}
