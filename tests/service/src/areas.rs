//! Areas for images, and boxes to restore into.
use crate::boxes::{any_label, bytes, pick, Shape};
use common::Random;
use model::image::{body, header, room, HEADER, WRITE};
use model::{Lent, Numbers, ROW, STATE};

/// An area of any bytes with room for an image of a box of these numbers: often with bytes behind the fill.
pub fn area(random: &mut Random, m: usize, d: usize) -> Vec<u8> {
    let few = random.below(200);
    let more = pick(random, &[0, 0, 1, 63, 64, few]);
    bytes(random, room(m, d) + more)
}

/// Makes the area's header no image: any bytes, zeros as a restore leaves them, or that of an image with one byte changed that is none of the length.
pub fn no_image(random: &mut Random, area: &mut [u8]) {
    let mut first: [u8; HEADER] = match random.below(4) {
        0 => [0; HEADER],
        1 => bytes(random, HEADER).try_into().unwrap(),
        _ => header((area.len() - HEADER) as u32),
    };
    if first[..5] == header(0)[..5] {
        let place = pick(random, &[0, 1, 2, 3, 4, 9, 63]);
        first[place] ^= 1 << random.below(8);
    }
    area[..HEADER].copy_from_slice(&first);
}

/// An image by the model's writer, dirty rows and all: any bytes in the fill, and often bytes behind it.
pub fn image(random: &mut Random, lent: &Lent) -> Vec<u8> {
    let body = body(lent);
    let mut image = [&header(body.len() as u32)[..], &body].concat();
    let fill = body.len().next_multiple_of(WRITE) - body.len();
    let more = pick(random, &[0, 0, 1, 64, 100]);
    image.extend(if random.below(2) == 0 { vec![0; fill] } else { bytes(random, fill) });
    image.extend(bytes(random, more));
    image
}

/// The box of a caller who starts again: disk and flash as they are, any bytes in state and tables.
pub fn cold(random: &mut Random, lent: &Lent) -> Lent {
    let (state, addresses, blocks) = (bytes(random, STATE), bytes(random, lent.addresses.len()), bytes(random, lent.blocks.len()));
    Lent { state, addresses, blocks, ..lent.clone() }
}

/// This box with the counters of another.
pub fn with_counters(lent: &Lent, counters: [u64; 4]) -> Lent {
    Lent { state: Numbers { counters, ..lent.numbers() }.to_bytes(), ..lent.clone() }
}

/// A D-ARC image that is sound by document 02: a fresh box of these numbers (C is d, X is m). A restore that lends no lists gets 2.
pub fn arc_image(random: &mut Random, shape: Shape) -> Vec<u8> {
    let (c, x) = (shape.d, shape.m);
    let m = 2 * c + x;
    // 1, B, P, C, X, n, t, p and the five list sizes.
    let numbers = [1, shape.b, shape.p, c, x, 0, m, 0, 0, 0, 0, 0, 0].map(|number| (number as u32).to_le_bytes()).concat();
    let rows: Vec<u8> = (0..c as u32).flat_map(|k| [&[0; 32][..], &k.to_le_bytes(), &[0; 4]].concat()).collect();
    let body = [&numbers[..], &any_label(random), &vec![0; m * ROW], &rows, &vec![0; m * 4]].concat();
    let mut image = [&header(body.len() as u32)[..], &body].concat();
    image.resize(HEADER + body.len().next_multiple_of(WRITE), 0);
    image
}
