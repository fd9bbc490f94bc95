//! Saves a box again and again into a mapped file, until it is killed. The arguments: the file and a seed; and the number of a write, to end at the first store
//! to it or to what is behind it.
use common::Random;
use model::image::HEADER;
use model::{Call, ANSWER, ROW};
use service::boxes::{any_label, bytes, pick_call, Contents, Shape};
use service::calls::{on_slices, restore_on_slices, save_on_slices, Buffers};
use service::mapped::{close, enter, length, map, parts, Parts, CALLING, OLD, SAVED, SAVING, SHAPE};
use std::time::{Duration, Instant};

const CALLS: usize = 30;
const SAVES: usize = 20;
/// Ends by itself after this time, should nobody kill it.
const MOST: Duration = Duration::from_secs(60);

fn on(call: Call, address: u32, buffers: Buffers<8>) {
    assert_eq!(on_slices(call, address, buffers), 0, "{call:?} {address}");
}

fn main() {
    let mut arguments = std::env::args().skip(1);
    let (path, seed) = (arguments.next().expect("a file"), arguments.next().expect("a seed").parse().expect("a seed"));
    let at: Option<usize> = arguments.next().map(|at| at.parse().expect("the number of a write"));
    let (phase, start) = map(path.as_ref());
    // SAFETY: the mapping is of this length and stays, and its phase is not among the parts.
    let Parts { area, disk, flash, plain, state: saved_state, addresses: saved_addresses, blocks: saved_blocks } =
        parts(unsafe { std::slice::from_raw_parts_mut(start, length()) }, at.unwrap_or(0));
    let Shape { b, p, m, d } = SHAPE;
    let mut random = Random(seed);
    let contents = Contents::new(&mut random, b, 2 * d);
    disk.copy_from_slice(&contents.many(&mut random, p));
    plain.copy_from_slice(disk);
    area.fill(OLD);
    let mut label = any_label(&mut random);
    let (mut state, mut addresses, mut blocks) = (SHAPE.numbers(label).to_bytes(), vec![0; m * ROW], vec![0; d * ROW]);
    let (mut block, mut answer) = (vec![0; b], vec![0; ANSWER]);
    on(Call::Open, 0, [&mut state, disk, flash, &mut addresses, &mut blocks, &mut block, &mut answer, &mut label]);
    let begun = Instant::now();
    while begun.elapsed() < MOST {
        enter(phase, CALLING);
        for _ in 0..CALLS {
            let call = pick_call(&mut random, &[Call::Read, Call::Back(0), Call::Back(0), Call::Through(0), Call::Invalidate(0)]);
            let address = random.below(p);
            block.copy_from_slice(contents.one(&mut random));
            if call.is_write() {
                plain[address * b..(address + 1) * b].copy_from_slice(&block);
            }
            on(call, address as u32, [&mut state, disk, flash, &mut addresses, &mut blocks, &mut block, &mut answer, &mut label]);
        }
        // What the save's flush is to leave, by a flush of copies.
        saved_state.copy_from_slice(&state);
        saved_addresses.copy_from_slice(&addresses);
        saved_blocks.copy_from_slice(&blocks);
        let (mut copied_disk, mut copied_flash) = (disk.to_vec(), flash.to_vec());
        on(Call::Flush, 0, [saved_state, &mut copied_disk, &mut copied_flash, saved_addresses, saved_blocks, &mut block, &mut answer, &mut label]);
        at.into_iter().for_each(|at| close(start, at));
        for _ in 0..SAVES {
            enter(phase, SAVING);
            assert_eq!(save_on_slices([&mut state, disk, flash, &mut addresses, &mut blocks, area, &mut answer]), 0, "a save");
            enter(phase, SAVED);
            addresses.copy_from_slice(&bytes(&mut random, m * ROW));
            assert_eq!(restore_on_slices([&mut state, area, &mut addresses, &mut blocks, &mut []]), 0, "a restore");
            assert!(area[..HEADER] == [0; HEADER], "the header after a restore");
            area.fill(OLD);
        }
    }
}
