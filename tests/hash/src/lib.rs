//! The proved SHA-256, as Rust calls it, and RustCrypto's to compare with.
use sha2::{Digest, Sha256};

pub type Label = [u8; 64];
pub const SIZES: [usize; 7] = [64, 128, 256, 512, 1_024, 2_048, 4_096];

extern "C" {
    fn hash_probe_sha256(message: *const u8, length: usize, digest: *mut u8);
    fn hash_probe_labelled_sha256(label: *const u8, block: *const u8, length: usize, digest: *mut u8) -> bool;
}

/// The digest by the proved library.
pub fn proved(message: &[u8]) -> [u8; 32] {
    let mut digest = [0; 32];
    // SAFETY: the library reads the message and writes 32 bytes.
    unsafe { hash_probe_sha256(message.as_ptr(), message.len(), digest.as_mut_ptr()) };
    digest
}

/// Puts the fingerprint of a block under a label into `digest`, by the proved library, which chooses the padding by the block's size. False where the length
/// is that of no block.
pub fn put_labelled(label: &Label, block: &[u8], digest: &mut [u8; 32]) -> bool {
    // SAFETY: the library reads the 64 bytes of the label and the block, and writes 32 bytes.
    unsafe { hash_probe_labelled_sha256(label.as_ptr(), block.as_ptr(), block.len(), digest.as_mut_ptr()) }
}

/// The same for a block of one of the seven sizes.
pub fn proved_labelled(label: &Label, block: &[u8]) -> [u8; 32] {
    let mut digest = [0; 32];
    assert!(put_labelled(label, block, &mut digest), "a block of {} bytes", block.len());
    digest
}

/// The digest by RustCrypto's `sha2`.
pub fn other(message: &[u8]) -> [u8; 32] {
    Sha256::digest(message).into()
}

/// The digest of the label followed by the block, by RustCrypto's `sha2`.
pub fn other_labelled(label: &Label, block: &[u8]) -> [u8; 32] {
    other(&[label, block].concat())
}

pub fn hex(digest: [u8; 32]) -> String {
    digest.iter().map(|byte| format!("{byte:02x}")).collect()
}
