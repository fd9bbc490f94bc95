//! Random lists: a box that can be opened, and calls in which sharing, eviction and writing back are frequent, refused lines among them.
use common::Random;
use model::BLOCK_SIZES;

pub fn pick<T: Copy>(random: &mut Random, list: &[T]) -> T {
    list[random.below(list.len())]
}

/// The numbers of a box.
#[derive(Clone, Copy, Debug)]
pub struct Shape {
    pub b: usize,
    pub p: usize,
    pub m: usize,
    pub d: usize,
}

impl Shape {
    /// Small numbers most of the time, the largest that a replay takes now and then.
    pub fn random(random: &mut Random) -> Shape {
        let b = pick(random, &BLOCK_SIZES);
        let (most_p, most_d) = (256.min(16_384 / b), 256.min(16_384 / b));
        let mut number = |small: usize, most: usize| match random.below(12) {
            0 => most,
            1 => 1 + random.below(most),
            _ => 1 + random.below(small.min(most)),
        };
        let (p, d, m) = (number(12, most_p), number(4, most_d), number(6, 1_024));
        Shape { b, p, m, d }
    }

    pub fn line(&self) -> String {
        format!("box {} {} {} {}", self.b, self.p, self.m, self.d)
    }
}

/// The addresses and contents that the lines of a list draw from, few enough to meet again.
struct Pool {
    addresses: Vec<usize>,
    contents: Vec<u8>,
    p: usize,
}

impl Pool {
    fn random(random: &mut Random, shape: &Shape) -> Pool {
        let addresses = (0..shape.m.min(40) + 3).map(|_| random.below(shape.p)).chain([0, shape.p - 1]).collect();
        // Half of the contents are those of disk blocks.
        let contents = (0..shape.d.min(20) + 2).map(|k| if k % 2 == 0 { random.below(shape.p) } else { random.below(256) } as u8).collect();
        Pool { addresses, contents, p: shape.p }
    }

    fn address(&self, random: &mut Random) -> usize {
        match random.below(40) {
            0 => pick(random, &[self.p, self.p + 1, 255, 256, 65_535, 65_536, 99_999]),
            _ => pick(random, &self.addresses),
        }
    }

    fn line(&self, random: &mut Random) -> String {
        let (a, content) = (self.address(random), pick(random, &self.contents));
        match random.below(40) {
            0 => pick(random, &["", " ", "F ", "R", "R  1", "T 1", "B 1 0a", "I 01 00", "L 000", "X 1", "r 1", "box 64 8 3 2", "R 1 00", "F 1", "T 1 0G"])
                .to_string(),
            1..=3 => "F".to_string(),
            4..=7 => format!("L {a}"),
            8..=20 => format!("R {a}"),
            21..=28 => format!("B {a} {content:02X}"),
            29..=34 => format!("T {a} {content:02X}"),
            _ => format!("I {a} {content:02X}"),
        }
    }
}

/// A list: its lines, and a newline after the last one or not.
pub fn random_list(random: &mut Random) -> Vec<u8> {
    let shape = Shape::random(random);
    let pool = Pool::random(random, &shape);
    let length = match random.below(20) {
        0 => 300 + random.below(200),
        1 => random.below(3),
        _ => random.below(80),
    };
    let mut lines = vec![shape.line()];
    lines.extend((0..length).map(|_| pool.line(random)));
    let mut input = lines.join("\n").into_bytes();
    if random.below(8) != 0 {
        input.push(b'\n');
    }
    input
}
