//! The index is a hash map of the standard library. A fingerprint is a hash already, so its first eight bytes are its hash.
use crate::engine::Index;
use crate::layout::*;
use std::collections::HashMap;
use std::hash::{BuildHasherDefault, Hasher};

/// Takes the first eight bytes of a fingerprint as they are. Only fingerprints are hashed by it.
#[derive(Default)]
pub struct FirstBytes(u64);

impl Hasher for FirstBytes {
    fn write(&mut self, fingerprint: &[u8]) {
        self.0 = u64::from_le_bytes(fingerprint[..8].try_into().unwrap());
    }

    /// The length of the array, which comes before it.
    fn write_usize(&mut self, _: usize) {}

    fn finish(&self) -> u64 {
        self.0
    }
}

pub type ByFingerprint<T> = HashMap<Fingerprint, T, BuildHasherDefault<FirstBytes>>;

#[derive(Default)]
pub struct Maps(ByFingerprint<u8>);

impl Index for Maps {
    fn reserve(&mut self, d: usize) {
        self.0.reserve(d);
    }

    #[inline(always)]
    fn add(&mut self, blocks: &[u8], k: usize) -> bool {
        self.0.insert(*cached_fingerprint(row(blocks, k)), k as u8).is_none()
    }

    fn find(&self, _: &[u8], g: &Fingerprint) -> Option<usize> {
        self.0.get(g).map(|k| *k as usize)
    }

    #[inline(always)]
    fn has(&self, _: &[u8], g: &Fingerprint) -> bool {
        self.0.contains_key(g)
    }
}

crate::calls!(Maps);
