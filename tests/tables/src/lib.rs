//! The proved tables as Rust calls them, a model of them made from documents 01 and 02, and random tables, sound and damaged.
pub mod model;
pub mod probe;
pub mod random;

/// The numbers of a box and its two tables.
#[derive(Clone, Debug, PartialEq)]
pub struct Tables {
    pub p: usize,
    pub m: usize,
    pub n: usize,
    pub d: usize,
    pub addresses: Vec<u8>,
    pub blocks: Vec<u8>,
}
