//! The index is an array on the stack, made by hand: nothing is allocated.
use crate::engine::Index;
use crate::layout::*;

/// Twice as many places as there can be block rows. Block row k stands as k + 1 in the first free place from that of its fingerprint's first bytes on.
pub struct Array([u16; PLACES]);

const PLACES: usize = 512;

impl Array {
    /// The row of a fingerprint, or the place where it is to stand.
    fn search(&self, blocks: &[u8], g: &Fingerprint) -> Result<usize, usize> {
        let mut at = u16::from_le_bytes([g[0], g[1]]) as usize % PLACES;
        while self.0[at] != 0 {
            let k = self.0[at] as usize - 1;
            if cached_fingerprint(row(blocks, k)) == g {
                return Ok(k);
            }
            at = (at + 1) % PLACES;
        }
        Err(at)
    }
}

impl Default for Array {
    fn default() -> Array {
        Array([0; PLACES])
    }
}

impl Index for Array {
    fn reserve(&mut self, _: usize) {}

    fn add(&mut self, blocks: &[u8], k: usize) -> bool {
        let free = self.search(blocks, cached_fingerprint(row(blocks, k)));
        if let Err(at) = free {
            self.0[at] = k as u16 + 1;
        }
        free.is_err()
    }

    fn find(&self, blocks: &[u8], g: &Fingerprint) -> Option<usize> {
        self.search(blocks, g).ok()
    }

    fn has(&self, blocks: &[u8], g: &Fingerprint) -> bool {
        self.search(blocks, g).is_ok()
    }
}

crate::calls!(Array);
