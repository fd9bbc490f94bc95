//! Times the proved SHA-256, of a message and of a block under a label, beside others in one run, interleaved, and prints the best of each as ratios.
use sha2::{Digest, Sha256};
use std::time::Instant;

extern "C" {
    fn hash_probe_sha256(message: *const u8, length: usize, digest: *mut u8);
    fn hash_probe_labelled_sha256(label: *const u8, block: *const u8, length: usize, digest: *mut u8) -> bool;
    fn sha256_clang(message: *const u8, length: usize, digest: *mut u8);
    fn sha256_gcc(message: *const u8, length: usize, digest: *mut u8);
    fn sha256_fused_clang(message: *const u8, length: usize, digest: *mut u8);
    fn sha256_fused_gcc(message: *const u8, length: usize, digest: *mut u8);
    fn SHA256(message: *const u8, length: usize, digest: *mut u8) -> *mut u8;
}

type Hash = fn(&[u8]) -> [u8; 32];

/// A digest by one of the functions above, all of which read `message` and write 32 bytes.
macro_rules! foreign {
    ($function:ident) => {
        |message| {
            let mut digest = [0; 32];
            unsafe { $function(message.as_ptr(), message.len(), digest.as_mut_ptr()) };
            digest
        }
    };
}

static LABEL: [u8; 64] = *b"The label of an office: 64 bytes before each block of its pages.";

/// The fingerprint of a block under the label, by the proved code.
fn labelled(block: &[u8]) -> [u8; 32] {
    let mut digest = [0; 32];
    // The length is one of the seven, or nothing would be written and the digest would not be that of the peers.
    unsafe { hash_probe_labelled_sha256(LABEL.as_ptr(), block.as_ptr(), block.len(), digest.as_mut_ptr()) };
    digest
}

fn soft_labelled(block: &[u8]) -> [u8; 32] {
    Sha256::new().chain_update(LABEL).chain_update(block).finalize().into()
}

/// The codes that hash a message, the proved one first: the others are compared with it. Then those that hash the label and the block.
const CODES: [(&str, Hash); 9] = [
    ("proved", foreign!(hash_probe_sha256)),
    ("RustCrypto soft", |message| Sha256::digest(message).into()),
    ("C clang", foreign!(sha256_clang)),
    ("C gcc", foreign!(sha256_gcc)),
    ("fused C clang", foreign!(sha256_fused_clang)),
    ("fused C gcc", foreign!(sha256_fused_gcc)),
    ("OpenSSL", foreign!(SHA256)),
    ("proved, label", labelled),
    ("RustCrypto, label", soft_labelled),
];
const UNLABELLED: usize = 7;
const LABELLED: usize = 7;
const SOFT_LABELLED: usize = 8;

const SIZES: [usize; 7] = [64, 128, 256, 512, 1024, 2048, 4096];
const RUNS: usize = 201;
const BYTES_A_RUN: usize = 1 << 20;

/// How fast a fingerprint of 4,096 bytes is to be at least, over SHA-256 of the block alone: the label and its block are 66 chunks with the padding, the
/// block alone 65.
const LEAST_OF_LABELLED: f64 = 0.97;

/// Nanoseconds of one digest by each code.
type Times = [f64; CODES.len()];

/// The value, through memory that the compiler may not look through, so that each digest is made anew.
fn hidden<T: Copy>(value: T) -> T {
    // SAFETY: the reference is to a live value that can be copied.
    unsafe { std::ptr::read_volatile(&value) }
}

/// Nanoseconds of one digest, over BYTES_A_RUN bytes of messages.
fn time(hash: Hash, message: &[u8]) -> f64 {
    let turns = BYTES_A_RUN / message.len();
    let start = Instant::now();
    for _ in 0..turns {
        hidden(hidden(hash)(hidden(message)));
    }
    start.elapsed().as_nanos() as f64 / turns as f64
}

/// The codes agree on the digests before they are measured.
fn compare(message: &[u8]) {
    for size in SIZES {
        let block = &message[..size];
        let whole = [&LABEL, block].concat();
        for (k, (name, hash)) in CODES.iter().enumerate() {
            let expected = CODES[0].1(if k < UNLABELLED { block } else { &whole });
            assert_eq!(hash(block), expected, "{name} at {size} bytes");
        }
    }
}

/// The best of all runs, for each size. Codes and sizes take turns, so that a change of the machine's speed meets all of them.
fn measured(message: &[u8]) -> [Times; SIZES.len()] {
    let mut best = [[f64::INFINITY; CODES.len()]; SIZES.len()];
    for _ in 0..RUNS {
        for (row, size) in best.iter_mut().zip(SIZES) {
            for (cell, (_, hash)) in row.iter_mut().zip(CODES) {
                *cell = cell.min(time(hash, &message[..size]));
            }
        }
    }
    best
}

/// Speed of a fingerprint of `block` over that of SHA-256 of the block alone: the median, and how many of the ratios are below the bound. Each ratio is of
/// two runs that follow each other, either of them first in turn, so that both have the machine at one speed.
fn labelled_over_alone(block: &[u8]) -> (f64, usize) {
    let mut ratios: Vec<f64> = (0..RUNS)
        .map(|turn| {
            let order = if turn % 2 == 0 { [0, LABELLED] } else { [LABELLED, 0] };
            let times = order.map(|code| time(CODES[code].1, block));
            times[turn % 2] / times[1 - turn % 2]
        })
        .collect();
    ratios.sort_by(f64::total_cmp);
    (ratios[RUNS / 2], ratios.iter().filter(|&&ratio| ratio < LEAST_OF_LABELLED).count())
}

/// A line of the table: the size, then a column for each code.
fn line(first: &str, columns: impl Iterator<Item = String>) {
    println!("{first:>6}{}", columns.map(|column| format!("{column:>19}")).collect::<String>());
}

fn print_all(best: &[Times; SIZES.len()]) {
    println!("Best of {RUNS} interleaved runs; in each run each code hashes {BYTES_A_RUN} bytes in messages of each size.");
    println!("\nNanoseconds of one digest (megabytes of messages a second); the last two hash a label of 64 bytes before each message:");
    line("bytes", CODES.iter().map(|(name, _)| name.to_string()));
    for (row, size) in best.iter().zip(SIZES) {
        line(&size.to_string(), row.iter().map(|ns| format!("{ns:.0} ({:.0})", size as f64 * 1000.0 / ns)));
    }
    println!("\nSpeed of the proved code over that of the other (above 1: the proved code is faster):");
    line("bytes", CODES[1..UNLABELLED].iter().map(|(name, _)| name.to_string()));
    for (row, size) in best.iter().zip(SIZES) {
        line(&size.to_string(), row[1..UNLABELLED].iter().map(|ns| format!("{:.2}", ns / row[0])));
    }
}

/// The tables of README, in Markdown.
fn print_markdown(best: &[Times; SIZES.len()]) {
    let [proved, soft, clang, gcc, fused_clang, fused_gcc, openssl, ..] = best[SIZES.len() - 1];
    println!("\nMicroseconds of SHA-256 of 4,096 bytes, also over the proved code's:\n");
    println!("| SHA-256 of 4,096 bytes by | µs | over the proved code's |\n|---|---:|---:|");
    let lines = [
        ("the proved code", proved),
        ("RustCrypto's portable code", soft),
        ("plain C at -O3, the best of two compilers and two forms", clang.min(gcc).min(fused_clang).min(fused_gcc)),
        ("OpenSSL, with the processor's SHA instructions where it has them", openssl),
    ];
    for (name, nanoseconds) in lines {
        println!("| {name} | {:.2} | {:.2} |", nanoseconds / 1000.0, nanoseconds / proved);
    }
    println!("\nA fingerprint: a label of 64 bytes and the block:\n");
    println!("| a fingerprint by the proved code, nanoseconds | the block alone | label and block | speed over the block's alone | speed over RustCrypto's |");
    println!("|---|---:|---:|---:|---:|");
    for (row, size) in best.iter().zip(SIZES) {
        let [alone, labelled, soft] = [row[0], row[LABELLED], row[SOFT_LABELLED]];
        let size = if size < 1000 { size.to_string() } else { format!("{},{:03}", size / 1000, size % 1000) };
        println!("| a block of {size} bytes | {alone:.0} | {labelled:.0} | {:.2} | {:.2} |", alone / labelled, soft / labelled);
    }
}

fn main() {
    let message: Vec<u8> = (0..4096u32).map(|i| (i * 167 + 13) as u8).collect();
    compare(&message);
    let best = measured(&message);
    print_all(&best);
    print_markdown(&best);
    let (speed, below) = labelled_over_alone(&message);
    let met = speed >= LEAST_OF_LABELLED;
    let what = format!("a fingerprint of 4,096 bytes, times as fast as SHA-256 of the block alone, at least {LEAST_OF_LABELLED}:");
    println!("\nBounds:\n{what:92}{speed:>6.3} {}", if met { "met" } else { "MISSED" });
    println!("the median of {RUNS} turns in each of which the two follow each other; {below} of them are below the bound");
    if !met {
        std::process::exit(1);
    }
}
