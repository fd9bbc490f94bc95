//! The two machines that the document compares a list of calls with. Neither knows the cache.
use crate::{fingerprint, Call, Fingerprint, Label};
use std::collections::VecDeque;

/// P blocks that writes replace and reads and looks answer. It hears of refusals only that they were.
pub struct PlainDisk {
    blocks: Vec<Vec<u8>>,
}

impl PlainDisk {
    pub fn new(disk: &[u8], b: usize) -> PlainDisk {
        PlainDisk { blocks: disk.chunks_exact(b).map(|block| block.to_vec()).collect() }
    }

    /// Feeds a call, with the block lent to it. A read or a look that was not refused answers a block.
    pub fn feed(&mut self, call: Call, address: u32, lent: &[u8], refused: bool) -> Option<&[u8]> {
        match call {
            _ if refused => None,
            Call::Read | Call::Look => Some(&self.blocks[address as usize]),
            Call::Through(_) | Call::Back(_) | Call::Invalidate(_) => {
                self.blocks[address as usize] = lent.to_vec();
                None
            }
            Call::Open | Call::Flush | Call::FlushSome(_) => None,
        }
    }

    pub fn block(&self, address: u32) -> &[u8] {
        &self.blocks[address as usize]
    }

    /// Whether a disk of these bytes has the same blocks.
    pub fn is(&self, disk: &[u8]) -> bool {
        let b = self.blocks[0].len();
        disk.len() == b * self.blocks.len() && disk.chunks_exact(b).zip(&self.blocks).all(|(one, two)| one == two)
    }
}

/// D-LRU as it is printed: two lists, oldest first. An address has the content that it had on the disk at first.
#[derive(Clone)]
pub struct PrintedDlru {
    m: usize,
    d: usize,
    contents: Vec<Fingerprint>,
    pub addresses: VecDeque<u32>,
    pub fingerprints: VecDeque<Fingerprint>,
}

fn put<T: PartialEq>(list: &mut VecDeque<T>, most: usize, one: T) -> bool {
    let place = list.iter().position(|other| *other == one);
    match place {
        Some(place) => drop(list.remove(place)),
        None if list.len() == most => drop(list.pop_front()),
        None => {}
    }
    list.push_back(one);
    place.is_some()
}

impl PrintedDlru {
    /// Contents are told apart by the fingerprints of an office's label.
    pub fn new(label: &Label, disk: &[u8], b: usize, m: usize, d: usize) -> PrintedDlru {
        let contents = disk.chunks_exact(b).map(|block| fingerprint(label, block)).collect();
        PrintedDlru { m, d, contents, addresses: VecDeque::new(), fingerprints: VecDeque::new() }
    }

    /// Feeds a read; one that was not refused answers whether it is a hit.
    pub fn feed(&mut self, address: u32, refused: bool) -> Option<bool> {
        if refused {
            return None;
        }
        let known = put(&mut self.addresses, self.m, address);
        let cached = put(&mut self.fingerprints, self.d, self.contents[address as usize]);
        Some(known && cached)
    }
}
