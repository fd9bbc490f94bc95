//! The proved SHA-256 against the standard's examples and against RustCrypto's `sha2`.
use common::Random;
use hash::{hex, other, other_labelled, proved, proved_labelled, put_labelled, Label, SIZES};

fn any_label(random: &mut Random) -> Label {
    random.bytes(64).try_into().unwrap()
}

/// The standard's messages, with the digests as NIST prints them.
#[test]
fn standard_vectors() {
    let million = vec![b'a'; 1_000_000];
    let vectors: [(&[u8], &str); 5] = [
        (b"", "e3b0c44298fc1c149afbf4c8996fb92427ae41e4649b934ca495991b7852b855"),
        (b"abc", "ba7816bf8f01cfea414140de5dae2223b00361a396177a9cb410ff61f20015ad"),
        (
            b"abcdbcdecdefdefgefghfghighijhijkijkljklmklmnlmnomnopnopq",
            "248d6a61d20638b8e5c026930c3e6039a33ce45964ff2167f6ecedd419db06c1",
        ),
        (
            b"abcdefghbcdefghicdefghijdefghijkefghijklfghijklmghijklmnhijklmnoijklmnopjklmnopqklmnopqrlmnopqrsmnopqrstnopqrstu",
            "cf5b16a778af8380036ce59e7b0492370b249b11e8f07a51afac45037afee9d1",
        ),
        (&million, "cdc76e5c9914fb9281a1c7e284d73e67f1809a48a497200e046d39ccc7112cd0"),
    ];
    for (message, digest) in vectors {
        assert_eq!(hex(proved(message)), digest, "a message of {} bytes", message.len());
    }
    println!("{} messages of the standard have its digests", vectors.len());
}

/// Every length from 0 to 1,100: each count of whole blocks up to 17 with each rest.
#[test]
fn every_length() {
    let seed = 2;
    let bytes = Random(seed).bytes(1100);
    for length in 0..=1100 {
        assert_eq!(proved(&bytes[..length]), other(&bytes[..length]), "seed {seed}, length {length}");
    }
    println!("1,101 messages of 0 to 1,100 bytes agree with RustCrypto's (seed {seed})");
}

/// The seven block sizes of the cache, as messages and as blocks under a label: one byte repeated, for each byte, and random bytes. The labels are random, and
/// zeros.
#[test]
fn block_sizes() {
    let seed = 3;
    let mut random = Random(seed);
    for size in SIZES {
        let repeated = (0..=255).map(|byte| vec![byte; size]);
        let any: Vec<Vec<u8>> = (0..100).map(|_| random.bytes(size)).collect();
        for (turn, block) in repeated.chain(any).enumerate() {
            assert_eq!(proved(&block), other(&block), "seed {seed}, size {size}, turn {turn}");
            for label in [any_label(&mut random), [0; 64]] {
                assert_eq!(proved_labelled(&label, &block), other_labelled(&label, &block), "label {label:?}, seed {seed}, size {size}, turn {turn}");
            }
        }
    }
    println!("{} blocks of 64 to 4,096 bytes, each under two labels, agree with RustCrypto's (seed {seed})", SIZES.len() * 356);
}

/// Every length from 0 to 4,200 handed over as a block: the seven sizes get their digest, and at any other length that is said and the digest is kept.
#[test]
fn no_blocks() {
    let seed = 6;
    let mut random = Random(seed);
    let bytes = random.bytes(4200);
    let mut blocks = 0;
    for length in 0..=4200 {
        let (label, before) = (any_label(&mut random), random.bytes(32).try_into().unwrap());
        let is_size = SIZES.contains(&length);
        let expected = if is_size { other_labelled(&label, &bytes[..length]) } else { before };
        let mut digest = before;
        assert_eq!(put_labelled(&label, &bytes[..length], &mut digest), is_size, "seed {seed}, length {length}");
        assert_eq!(digest, expected, "seed {seed}, length {length}");
        blocks += is_size as usize;
    }
    assert_eq!(blocks, 7);
    println!("4,201 slices of 0 to 4,200 bytes, handed over as blocks: {blocks} are, and agree with RustCrypto's (seed {seed})");
}

/// Blocks and labels that begin at any place of a buffer.
#[test]
fn random_blocks() {
    let seed = 7;
    let mut random = Random(seed);
    let count = 3000;
    for turn in 0..count {
        let size = SIZES[random.below(7)];
        let (buffer, more) = (random.bytes(size + 16), random.bytes(64 + 16));
        let (start, place) = (random.below(16), random.below(16));
        let (label, block) = (more[place..place + 64].first_chunk().unwrap(), &buffer[start..start + size]);
        assert_eq!(proved_labelled(label, block), other_labelled(label, block), "seed {seed}, turn {turn}, size {size}, start {start}, label at {place}");
    }
    println!("{count} random blocks under random labels agree with RustCrypto's (seed {seed})");
}

/// Random messages, which begin at any place of a buffer so that no alignment is special.
#[test]
fn random_messages() {
    let seed = 4;
    let mut random = Random(seed);
    let count = 5000;
    for turn in 0..count {
        let length = random.below(10_000);
        let buffer = random.bytes(length + 16);
        let start = random.below(16);
        let message = &buffer[start..start + length];
        assert_eq!(proved(message), other(message), "seed {seed}, turn {turn}, length {length}, start {start}");
    }
    println!("{count} random messages below 10,000 bytes agree with RustCrypto's (seed {seed})");
}

/// A message, or a label, that differs in one bit has another digest: the comparison tells digests apart.
#[test]
fn one_bit() {
    let seed = 5;
    let bytes = Random(seed).bytes(200);
    for bit in 0..1600 {
        let mut changed = bytes.clone();
        changed[bit / 8] ^= 1 << (bit % 8);
        assert_ne!(proved(&changed), other(&bytes), "seed {seed}, bit {bit}");
        assert_eq!(proved(&changed), other(&changed), "seed {seed}, bit {bit}");
    }
    let (label, block): (Label, _) = (bytes[..64].try_into().unwrap(), &bytes[64..128]);
    for bit in 0..512 {
        let mut changed = label;
        changed[bit / 8] ^= 1 << (bit % 8);
        assert_ne!(proved_labelled(&changed, block), other_labelled(&label, block), "seed {seed}, bit {bit} of the label");
        assert_eq!(proved_labelled(&changed, block), other_labelled(&changed, block), "seed {seed}, bit {bit} of the label");
    }
    println!("1,600 messages and 512 labels with one bit changed have another digest (seed {seed})");
}
