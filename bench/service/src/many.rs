//! A folder of 64 reads by the service: one call beside 64 single calls, on copies of the same box.
use crate::boxes::{number, Lent, Start};
#[cfg(not(feature = "double"))]
use crate::service;
#[cfg(feature = "double")]
use engines::maps as service;
use std::time::{Duration, Instant};

const READS: usize = 64;

/// A folder: its name, its addresses, and what one call for it must answer.
struct Folder {
    name: &'static str,
    asked: Vec<u32>,
    hits: u64,
    fetches: u64,
}

/// What was measured for a folder: nanoseconds of all of its reads, by one call and by single calls.
pub struct Times {
    pub name: &'static str,
    pub many: f64,
    pub single: f64,
    runs: usize,
}

impl Times {
    /// How many times as fast as the single calls the one call is.
    pub fn speed(&self) -> f64 {
        self.single / self.many
    }
}

/// The hits are on held addresses at equal distances in the table, the misses on addresses that are not held.
fn folders(start: &Start) -> Vec<Folder> {
    let hits: Vec<u32> = (0..READS).map(|k| start.with_block[k * start.with_block.len() / READS]).collect();
    let misses: Vec<u32> = (0..READS).map(|k| start.others[k * 37 % start.others.len()]).collect();
    let half = &misses[..READS / 2];
    // Every seventh read is a miss.
    let mixed = (0..READS).map(|k| if k % 7 == 6 { misses[k / 7] } else { hits[k - k / 7] }).collect();
    vec![
        Folder { name: "64 hits", asked: hits, hits: 64, fetches: 0 },
        Folder { name: "64 misses", asked: misses.clone(), hits: 0, fetches: 64 },
        Folder { name: "32 misses, then each again", asked: [half, half].concat(), hits: 32, fetches: 32 },
        Folder { name: "9 misses and 55 hits", asked: mixed, hits: 55, fetches: 9 },
    ]
}

fn read_many(lent: &mut Lent, asked: &[u32], buffer: &mut [u8], answer: &mut [u8]) -> Duration {
    let Lent { state, disk, flash, addresses, blocks, .. } = lent;
    let start = Instant::now();
    let refused = service::read_many(state, asked, disk, flash, addresses, blocks, buffer, answer);
    let time = start.elapsed();
    assert_eq!(refused, 0);
    time
}

fn read_each(lent: &mut Lent, asked: &[u32], buffer: &mut [u8]) -> Duration {
    let Lent { state, disk, flash, addresses, blocks, block, answer, .. } = lent;
    let start = Instant::now();
    let places = asked.iter().zip(buffer.chunks_exact_mut(block.len()));
    let refused: u32 = places.map(|(a, into)| service::read(state, *a, disk, flash, addresses, blocks, into, answer)).sum();
    let time = start.elapsed();
    assert_eq!(refused, 0);
    time
}

/// Everything but the disk is put back; of the disk the blocks that the reads have changed.
fn put_back(lent: &mut Lent, first: &Lent, b: usize, touched: &[usize]) {
    lent.state.copy_from_slice(&first.state);
    lent.addresses.copy_from_slice(&first.addresses);
    lent.blocks.copy_from_slice(&first.blocks);
    lent.flash.copy_from_slice(&first.flash);
    for a in touched {
        lent.disk[a * b..(a + 1) * b].copy_from_slice(&first.disk[a * b..(a + 1) * b]);
    }
}

fn measured(start: &Start, folder: Folder) -> Times {
    let Folder { name, asked, hits, fetches } = folder;
    let (b, p) = (start.shape.b, start.shape.p);
    let [mut one, mut two] = [start.lent.clone(), start.lent.clone()];
    let [mut first, mut second] = [vec![0; READS * b], vec![0; READS * b]];
    let mut answer = vec![0; 32];
    let mut best = [Duration::MAX; 2];
    let (mut runs, mut touched) = (0, Vec::new());
    let begun = Instant::now();
    // The two ways take turns, so that a change of the machine's speed meets both.
    while runs < 15 || runs < 400 && begun.elapsed() < Duration::from_secs(3) {
        best[0] = best[0].min(read_many(&mut one, &asked, &mut first, &mut answer));
        best[1] = best[1].min(read_each(&mut two, &asked, &mut second));
        if runs == 0 {
            assert_eq!([number(&answer, 0), number(&answer, 3)], [hits, fetches], "hits and fetches of {name}");
            let changed = |a: &usize| one.disk[a * b..(a + 1) * b] != start.lent.disk[a * b..(a + 1) * b];
            touched = (0..p).filter(changed).collect();
            assert!(one.disk == two.disk, "{name}: other disks");
        }
        let same = one.state == two.state && one.addresses == two.addresses && one.blocks == two.blocks && one.flash == two.flash && first == second;
        assert!(same, "{name}: the single calls differ");
        put_back(&mut one, &start.lent, b, &touched);
        put_back(&mut two, &start.lent, b, &touched);
        runs += 1;
    }
    let [many, single] = best.map(|time| time.as_nanos() as f64);
    Times { name, many, single, runs }
}

/// Measures each folder on a box and prints the times.
pub fn all(start: &Start) -> Vec<Times> {
    let times: Vec<Times> = folders(start).into_iter().map(|folder| measured(start, folder)).collect();
    println!("\n{}. A folder of {READS} reads by the service, nanoseconds of all of them:", start.name);
    println!("{:28}{:>12}{:>16}{:>12}{:>8}", "", "one call", "single calls", "speed", "runs");
    for one in &times {
        println!("{:28}{:>12.0}{:>16.0}{:>12.2}{:>8}", one.name, one.many, one.single, one.speed(), one.runs);
    }
    times
}
