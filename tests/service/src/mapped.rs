//! A file that src/saver.rs has mapped while it saves, and that outlives it: what it holds when that program is killed is every store made so far.
use crate::boxes::Shape;
use model::image::{room, WRITE};
use model::{ROW, STATE};
use std::fs::OpenOptions;
use std::os::fd::AsRawFd;
use std::path::Path;
use std::sync::atomic::{fence, AtomicU64, Ordering};

pub const SHAPE: Shape = Shape { b: 64, p: 1_200, m: 1_024, d: 256 };
/// The area's bytes before a save, in its header too, which is no image; some of them are behind the fill.
pub const OLD: u8 = 0xDD;
const BEHIND: usize = 100;

/// What the program is doing: calls on its box; one save; or a restore, after which the area gets its old bytes again.
pub const CALLING: u64 = 0;
pub const SAVING: u64 = 1;
pub const SAVED: u64 = 2;

/// The parts of the file, in their order.
pub struct Parts<'a> {
    pub area: &'a mut [u8],
    pub disk: &'a mut [u8],
    pub flash: &'a mut [u8],
    /// The plain disk of all calls so far.
    pub plain: &'a mut [u8],
    /// The box that is saved, as its flush leaves it.
    pub state: &'a mut [u8],
    pub addresses: &'a mut [u8],
    pub blocks: &'a mut [u8],
}

/// The phase is the file's first number, and the parts follow. The area has pages of its own, behind them.
const PHASE: usize = 8;

fn lengths() -> [usize; 6] {
    let Shape { b, p, m, d } = SHAPE;
    [p * b, d * b, p * b, STATE, m * ROW, d * ROW]
}

fn page() -> usize {
    // SAFETY: it takes nothing and changes nothing.
    unsafe { getpagesize() as usize }
}

/// The border of a page at which write `at` of an area starts, counted from the header, which is write 0.
fn border(at: usize) -> usize {
    (PHASE + lengths().iter().sum::<usize>()).next_multiple_of(page()) + (at * WRITE).next_multiple_of(page())
}

pub fn length() -> usize {
    border(0) + (room(SHAPE.m, SHAPE.d) + BEHIND).next_multiple_of(page()) + page()
}

/// The parts, with the area where its write `at` starts a page.
pub fn parts(bytes: &mut [u8], at: usize) -> Parts<'_> {
    let (before, behind) = bytes.split_at_mut(border(at) - at * WRITE);
    let mut rest = &mut before[PHASE..];
    let [disk, flash, plain, state, addresses, blocks] = lengths().map(|length| {
        let (part, behind) = std::mem::take(&mut rest).split_at_mut(length);
        rest = behind;
        part
    });
    Parts { area: &mut behind[..room(SHAPE.m, SHAPE.d) + BEHIND], disk, flash, plain, state, addresses, blocks }
}

extern "C" {
    fn mmap(address: *mut u8, length: usize, protection: i32, flags: i32, file: i32, offset: i64) -> *mut u8;
    fn mprotect(address: *mut u8, length: usize, protection: i32) -> i32;
    fn getpagesize() -> i32;
}

const READ: i32 = 1;
const READ_AND_WRITE: i32 = 3;
const SHARED: i32 = 1;

/// Closes the mapping from write `at` of the area on: the first store to it ends the program.
pub fn close(start: *mut u8, at: usize) {
    // SAFETY: whole pages of the mapping, which can still be read.
    assert_eq!(unsafe { mprotect(start.add(border(at)), length() - border(at), READ) }, 0, "pages cannot be closed");
}

/// Maps the file for as long as this program runs. Its phase, and its bytes, which are the other program's while that runs.
pub fn map(path: &Path) -> (&'static AtomicU64, *mut u8) {
    let file = OpenOptions::new().read(true).write(true).open(path).unwrap();
    assert_eq!(file.metadata().unwrap().len(), length() as u64, "the file's length");
    // SAFETY: a new mapping of the whole file.
    let start = unsafe { mmap(std::ptr::null_mut(), length(), READ_AND_WRITE, SHARED, file.as_raw_fd(), 0) };
    assert!(!start.is_null() && start as isize != -1, "the file cannot be mapped");
    // SAFETY: the mapping starts at a page and is never taken away; both programs use its first number through an atomic alone.
    (unsafe { AtomicU64::from_ptr(start.cast()) }, start)
}

/// Says what is done next, before and behind all stores that stand before and behind it.
pub fn enter(phase: &AtomicU64, next: u64) {
    fence(Ordering::SeqCst);
    phase.store(next, Ordering::SeqCst);
    fence(Ordering::SeqCst);
}
