//! Inputs with something wrong in them, of many kinds.
use crate::lists::{pick, random_list, Shape};
use common::Random;
use model::BLOCK_SIZES;

type Kind = (&'static str, fn(&mut Random) -> Vec<u8>);

/// Each kind by its name, with what makes one input of it.
pub const KINDS: [Kind; 25] = [
    ("any bytes", |random| { let length = random.below(300); random.bytes(length) }),
    ("any bytes after a box line", |random| { let length = random.below(300); [b"box 64 8 3 2\n".to_vec(), random.bytes(length)].concat() }),
    ("letters of the form in any order", |random| { let length = random.below(200); letters(random, length) }),
    ("letters of the form after a box line", |random| { let length = random.below(400); [b"box 128 16 4 3\n".to_vec(), letters(random, length)].concat() }),
    ("a byte changed", |random| edited(random, |input, at, byte| input[at] = byte)),
    ("a byte put in", |random| edited(random, |input, at, byte| input.insert(at, byte))),
    ("a byte left out", |random| edited(random, |input, at, _| { input.remove(at); })),
    ("cut short", |random| { let mut input = random_list(random); input.truncate(random.below(input.len() + 1)); input }),
    ("trailing spaces", |random| every_line(random, |line| line.push(b' '))),
    ("leading spaces", |random| every_line(random, |line| line.insert(0, b' '))),
    ("two spaces", |random| every_line(random, |line| replace(line, b' ', b"  "))),
    ("tabs", |random| every_line(random, |line| replace(line, b' ', b"\t"))),
    ("carriage returns", |random| every_line(random, |line| line.push(b'\r'))),
    ("lower case", |random| every_line(random, |line| line.make_ascii_lowercase())),
    ("leading zeros", |random| every_line(random, |line| replace(line, b' ', b" 0"))),
    ("six digits", |random| every_line(random, |line| replace(line, b' ', b" 10000"))),
    ("signs", |random| { let sign: &'static [u8] = pick(random, &[b" +", b" -", b" \xE2\x88\x92"]); every_line(random, |line| replace(line, b' ', sign)) }),
    ("bytes of zero", |random| every_line(random, |line| line.push(0))),
    ("digits of another script", |random| every_line(random, |line| replace(line, b'1', "١".as_bytes()))),
    ("lines of 32 and 33 bytes", |random| { let length = 32 + random.below(2); every_line(random, |line| line.resize(length.max(line.len()), b' ')) }),
    ("lines whose length modulo a power of two is that of a call", long_lines),
    ("later box lines", |random| every_line(random, |line| *line = b"box 64 8 3 2".to_vec())),
    ("a box line with numbers at and past their bounds", bounds),
    ("a box that can be opened, or is more than a replay takes", large_boxes),
    ("empty lines", |random| every_line(random, |line| line.insert(0, b'\n'))),
];

fn letters(random: &mut Random, length: usize) -> Vec<u8> {
    (0..length).map(|_| pick(random, b"RLFTBIbox 0123456789ABCDEFabc \n\n\r")).collect()
}

/// A list with one place edited; the places of the box line are as likely as all others together.
fn edited(random: &mut Random, edit: fn(&mut Vec<u8>, usize, u8)) -> Vec<u8> {
    let mut input = random_list(random);
    let at = if random.below(2) == 0 { random.below(input.len().min(16)) } else { random.below(input.len()) };
    let byte = if random.below(2) == 0 { random.number() as u8 } else { letters(random, 1)[0] };
    edit(&mut input, at, byte);
    input
}

fn replace(line: &mut Vec<u8>, old: u8, new: &[u8]) {
    *line = line.split(|byte| *byte == old).collect::<Vec<_>>().join(new);
}

/// A list with some of its lines changed, the box line in one of four.
fn every_line(random: &mut Random, change: impl Fn(&mut Vec<u8>)) -> Vec<u8> {
    let input = random_list(random);
    let with_box = random.below(4) == 0;
    let mut lines: Vec<Vec<u8>> = input.split(|byte| *byte == b'\n').map(|line| line.to_vec()).collect();
    for (k, line) in lines.iter_mut().enumerate() {
        if k == 0 && with_box || k > 0 && random.below(3) == 0 {
            change(line);
        }
    }
    lines.join(&b'\n')
}

/// Longer lines that start or end with a call, with lengths whose last 5, 8 or 16 bits are the call's own.
fn long_lines(random: &mut Random) -> Vec<u8> {
    let more = pick(random, &[32, 64, 256, 65_536]);
    let mut input = b"box 64 8 3 2\nR 1\n".to_vec();
    for call in ["R 2", "B 3 01", "F"] {
        let filling = vec![pick(random, b" 0R"); more];
        let parts = if random.below(2) == 0 { [call.as_bytes(), &filling] } else { [&filling, call.as_bytes()] };
        input.extend(parts.concat());
        input.extend(b"\nR 1\n");
    }
    input
}

/// A box line whose numbers are in their sets, at their ends, just past them and far past, so that 4, 1 and 5 meet; then some calls.
fn bounds(random: &mut Random) -> Vec<u8> {
    let b = pick(random, &["0", "1", "32", "63", "64", "65", "96", "128", "1024", "2048", "4096", "4097", "8192", "65536", "99999", "064", "100000"]);
    let p = pick(random, &["0", "1", "4", "5", "8", "64", "65", "255", "256", "257", "65535", "65536", "65537", "99999", "00", "065536"]);
    let m = pick(random, &["0", "1", "3", "1023", "1024", "1025", "65536", "99999", "03"]);
    let d = pick(random, &["0", "1", "2", "4", "5", "255", "256", "257", "99999", "02"]);
    let Shape { b: size, p: blocks, m: held, d: cached } = Shape::random(random);
    // All four odd, or one odd number beside three that can be opened.
    let line = match random.below(5) {
        0 => format!("box {b} {p} {m} {d}"),
        1 => format!("box {b} {blocks} {held} {cached}"),
        2 => format!("box {size} {p} {held} {cached}"),
        3 => format!("box {size} {blocks} {m} {cached}"),
        _ => format!("box {size} {blocks} {held} {d}"),
    };
    format!("{line}\nR 0\nB 1 07\nR 99999\nF\n").into_bytes()
}

/// A box line with every number in its set, about the bounds of P, P x B and d x B; then some calls.
fn large_boxes(random: &mut Random) -> Vec<u8> {
    let b = pick(random, &BLOCK_SIZES);
    let mut number = |most: usize| match random.below(6) {
        0 => 1 + random.below(most),
        1 => (16_384 / b).min(most),
        2 => (16_384 / b + 1).min(most),
        3 => 256,
        4 => 257.min(most),
        _ => 1 + random.below(16_384 / b),
    };
    let (p, d) = (number(65_536), number(256));
    format!("box {b} {p} {} {d}\nR {}\nT {p} 07\nF\n", 1 + random.below(1_024), p - 1).into_bytes()
}
