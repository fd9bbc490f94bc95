//! The cache of documents 01 and 02 in maps and queues, made from the documents alone, to compare an engine over tables with.
//!
//! `Cache` runs calls from a fresh box. `Lent` is a box in bytes, any bytes: `carry_out` gives what a call must answer and what every buffer
//! must hold after it. The call that reads a folder of addresses is lent a `Folder` beside the box: `Cache::read_many`, `carry_out_many`.
//! The two reports are lent their bytes: `Cache::report`, `carry_out_report`. `image` has the images that a save makes and a restore takes.
//! `arc` has D-ARC boxes: a `Cache` with lists, and `ArcLent`, a box in bytes.
//! `machines` has the two machines that the document compares a list of calls with, `exam` what is counted of all lists of a few reads.
pub mod arc;
mod cache;
pub mod exam;
pub mod image;
mod lent;
pub mod machines;

pub use cache::{Answer, Cache, Counters, Held, ManyAnswer};
pub use lent::{carry_out, carry_out_many, carry_out_report, read_tables, refusal, refusal_many, refusal_report};
pub use lent::{AddressRow, BlockRow, Folder, Lent, Numbers};

use sha2::{Digest, Sha256};
use std::ops::Range;

pub type Fingerprint = [u8; 32];

pub type Label = [u8; LABEL];

/// "The fingerprint becomes SHA-256 over a 64-byte office label followed by the block." (document 02, U6)
pub fn fingerprint(label: &Label, block: &[u8]) -> Fingerprint {
    Sha256::new().chain_update(label).chain_update(block).finalize().into()
}

/// "replay's label is all zeros" (document 02, U6), and so is that of a refused opening.
pub const ZEROS: Label = [0; LABEL];

pub const BLOCK_SIZES: [usize; 7] = [64, 128, 256, 512, 1_024, 2_048, 4_096];
pub const MOST_P: usize = 65_536;
pub const MOST_M: usize = 1_024;
pub const MOST_D: usize = 256;
/// A counter above this is refused.
pub const MOST_COUNTED: u64 = 1 << 63;
pub const ROW: usize = 40;
pub const LABEL: usize = 64;
/// Nine numbers of 8 bytes, then the label, then the limit.
pub const STATE: usize = 144;
pub const STATE_LABEL: Range<usize> = 72..136;
pub const STATE_LIMIT: Range<usize> = 136..144;
pub const ANSWER: usize = 24;
/// The answer of one call for a folder, and the most addresses of it.
pub const MANY_ANSWER: usize = 32;
pub const MOST_ASKED: usize = 64;
/// The refusals that one call for a folder checks, in the order of the documents.
pub const MANY_CHECKS: [u32; 10] = [1, 12, 2, 10, 3, 6, 7, 8, 13, 9];

/// The two reports on the held rows (document 02, U7).
#[derive(Clone, Copy, Debug, PartialEq, Eq)]
pub enum Report {
    Manager,
    Desk,
}

pub const REPORTS: [Report; 2] = [Report::Manager, Report::Desk];
/// The refusals that a report checks, in the order of the documents: "no 3 and no 9".
pub const REPORT_CHECKS: [u32; 7] = [1, 12, 2, 6, 7, 8, 13];

impl Report {
    /// The bytes of a row: "address, dirty byte and seat [..] in m × 7 lent bytes", "address and dirty byte only, in m × 5".
    pub fn row(self) -> usize {
        match self {
            Report::Manager => 7,
            Report::Desk => 5,
        }
    }
}

/// A write carries the number of the seat that makes it.
#[derive(Clone, Copy, Debug, PartialEq, Eq, Hash)]
pub enum Call {
    Open,
    Read,
    Through(u16),
    Back(u16),
    Invalidate(u16),
    Flush,
    /// A flush of at most so many dirty rows (document 02, U3).
    FlushSome(usize),
    Look,
}

/// All calls. The flush in parts is of one row; each write is of a seat of its own.
pub const CALLS: [Call; 8] =
    [Call::Open, Call::Read, Call::Through(0x0102), Call::Back(0x0304), Call::Invalidate(0x0506), Call::Flush, Call::Look, Call::FlushSome(1)];

impl Call {
    pub fn is_write(self) -> bool {
        matches!(self, Call::Through(_) | Call::Back(_) | Call::Invalidate(_))
    }

    /// The same call, made by this seat where it is a write.
    pub fn by_seat(self, seat: u16) -> Call {
        match self {
            Call::Through(_) => Call::Through(seat),
            Call::Back(_) => Call::Back(seat),
            Call::Invalidate(_) => Call::Invalidate(seat),
            other => other,
        }
    }

    /// Reads and writes are lent one block.
    pub fn takes_block(self) -> bool {
        self == Call::Read || self.is_write()
    }

    pub fn takes_address(self) -> bool {
        self.takes_block() || self == Call::Look
    }

    /// The refusals that the documents check in this call, in their order: 12 "in every call right after 1", 13 "right after 8" (document 02, U8).
    pub fn checks(self) -> &'static [u32] {
        match self {
            Call::Open => &[1, 12, 2],
            Call::Flush | Call::FlushSome(_) => &[1, 12, 2, 6, 7, 8, 13, 9],
            Call::Look => &[1, 12, 2, 3, 6, 7, 8, 13],
            _ => &[1, 12, 2, 3, 6, 7, 8, 13, 9],
        }
    }
}

/// The words of an answer.
pub const HIT: u64 = 1;
pub const MISS: u64 = 2;
pub const SAME: u64 = 3;
pub const NEW: u64 = 4;
pub const CACHE: u64 = 5;
pub const DISK: u64 = 6;
pub const DONE: u64 = 7;

pub fn word(number: u64) -> &'static str {
    ["hit", "miss", "same", "new", "cache", "disk", "done"][number as usize - 1]
}
