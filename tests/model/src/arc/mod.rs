//! D-ARC boxes (document 02, U5, and Algorithms 2 and 3 of source document 001): the five lists and the step here, boxes in bytes in `lent`, images in
//! `image`. A D-ARC box is a `Cache` with lists, whose m is 2 × C + X and whose d is C; all calls are those of the cache, but for the step.
pub mod image;
mod lent;
pub mod search;
pub mod worked;

pub use lent::{carry_out, carry_out_many, carry_out_report, refusal, refusal_many, refusal_report};
pub use lent::{ArcLent, ArcNumbers, ARC_STATE, STATE_ADAPTIVE, STATE_SIZES, WORD};

use crate::cache::{Cache, Held, Writes};
use crate::{Fingerprint, Label};
use std::collections::{HashSet, VecDeque};

/// The lists, in the order of their bytes.
pub const T1: usize = 0;
pub const T2: usize = 1;
pub const B1: usize = 2;
pub const B2: usize = 3;
pub const B3: usize = 4;

/// "its lists T1, T2, B1, B2, B3, oldest first", and "the number p, first 0"
#[derive(Clone, Debug, Default, PartialEq, Eq)]
pub struct Lists {
    pub of: [VecDeque<u32>; 5],
    pub p: usize,
}

impl Lists {
    pub fn size(&self, list: usize) -> usize {
        self.of[list].len()
    }

    /// The list that an address is in.
    pub fn holding(&self, a: u32) -> Option<usize> {
        self.of.iter().position(|list| list.contains(&a))
    }

    /// Takes an address out of its list, and says which list it was.
    pub(crate) fn leave(&mut self, a: u32) -> Option<usize> {
        let list = self.holding(a)?;
        self.of[list].retain(|other| *other != a);
        Some(list)
    }

    pub fn sizes(&self) -> [u64; 5] {
        std::array::from_fn(|list| self.size(list) as u64)
    }

    /// "oldest first, end to end in m × 4 bytes, little-endian, zeros after"
    pub fn to_bytes(&self, m: usize) -> Vec<u8> {
        let mut bytes: Vec<u8> = self.of.iter().flatten().flat_map(|a| a.to_le_bytes()).collect();
        bytes.resize(m * WORD, 0);
        bytes
    }

    /// Any sound lists of these held addresses, each with whether its block is cached, and any p. `below` gives any number below another one. The lists are in
    /// no order of use.
    pub fn any(rows: &[(u32, bool)], c: usize, x: usize, mut below: impl FnMut(usize) -> usize) -> Lists {
        let (least, most) = (rows.len().saturating_sub(c + x), rows.len().min(c));
        let ghosts = least + below(most - least + 1);
        let mut left = rows.to_vec();
        let mut lists = Lists { p: below(c + 1), ..Lists::default() };
        while !left.is_empty() {
            let (address, cached) = left.swap_remove(below(left.len()));
            let list = match (lists.size(B1) + lists.size(B2) < ghosts, cached) {
                (true, _) => [B1, B2][below(2)],
                (false, true) => [T1, T2, B3][below(3)],
                (false, false) => B3,
            };
            lists.of[list].push_back(address);
        }
        lists
    }

    /// "move LRU from .. to .."
    fn move_oldest(&mut self, from: usize, to: usize) {
        let oldest = self.of[from].pop_front().expect("an address to move");
        self.of[to].push_back(oldest);
    }

    /// "A hit in B1 raises p by the larger of 1 and the quotient of B2's size by B1's, rounded down, to at most C. A hit in B2 lowers p by the larger of 1
    /// and the opposite quotient, to at least 0." The sizes are those before the address left.
    fn change_p(&mut self, was: Option<usize>, b1: usize, b2: usize, c: usize) {
        match was {
            Some(B1) => self.p = (self.p + (b2 / b1).max(1)).min(c),
            Some(B2) => self.p = self.p.saturating_sub((b1 / b2).max(1)),
            _ => {}
        }
    }

    /// The list that the replacement takes from: by the print, but T1 "Where the replacement would take from an empty T2", and none "where both are empty".
    fn replaced(&self, was: Option<usize>) -> Option<(usize, usize)> {
        let t1 = self.size(T1);
        if t1 > 0 && (t1 > self.p || was == Some(B2) && t1 == self.p || self.size(T2) == 0) {
            Some((T1, B1))
        } else if self.size(T2) > 0 {
            Some((T2, B2))
        } else {
            None
        }
    }
}

impl Cache {
    /// A fresh D-ARC box over the disk and flash given. The numbers are in their sets and the lengths are right.
    #[allow(clippy::too_many_arguments)]
    pub fn fresh_arc(b: usize, p: usize, c: usize, x: usize, t: usize, label: Label, disk: Vec<u8>, flash: Vec<u8>) -> Cache {
        Cache { lists: Some(Lists::default()), ..Cache::fresh(b, p, 2 * c + x, c, t, label, disk, flash) }
    }

    fn arc(&mut self) -> &mut Lists {
        self.lists.as_mut().expect("a D-ARC box")
    }

    /// The step of a request of a D-ARC box, PROCESSREQUEST: "the requested address leaves its list first and joins one last; which list it was is remembered".
    pub(crate) fn arc_step(&mut self, a: u32, new: Held, block: &[u8]) -> Writes {
        let mut writes = Writes::default();
        let c = self.d;
        if self.held.contains_key(&a) {
            self.take_out(a);
        }
        let (b1, b2) = (self.arc().size(B1), self.arc().size(B2));
        let was = self.arc().leave(a);
        self.arc().change_p(was, b1, b2, c);
        // "A changed content is inserted whichever list held the address"
        let g = new.fingerprint;
        match self.slots.contains_key(&g) {
            true => {
                self.cached.retain(|other| *other != g);
                self.cached.push_back(g);
            }
            false => self.insert_in_data_cache(was, g, block, &mut writes),
        }
        if matches!(was, Some(B1) | Some(B2) | None) {
            self.check_metadata_cache(was, &mut writes);
        }
        // "an address of T1 or T2 goes to T2", and so does one of B1 or B2; one of B3 and a new one go to T1.
        let list = if matches!(was, Some(B3) | None) { T1 } else { T2 };
        self.arc().of[list].push_back(a);
        self.addresses.push_back(a);
        self.held.insert(a, new);
        writes
    }

    /// Base step 4 for a block that is not cached, with D-ARC's victim.
    fn insert_in_data_cache(&mut self, was: Option<usize>, g: Fingerprint, block: &[u8], writes: &mut Writes) {
        // "A free block row is taken before any victim."
        let slot = match self.free.pop_front() {
            Some(slot) => slot,
            None => self.take_victim(was, writes),
        };
        self.flash.put(slot as usize, block);
        writes.flash += 1;
        self.slots.insert(g, slot);
        self.cached.push_back(g);
    }

    /// "Step 4's victim is the oldest block whose fingerprint no address of T1 or T2 has; where a row is needed and there is neither that nor a free one, the
    /// replacement runs again until there is." Gives the slot of the victim.
    fn take_victim(&mut self, was: Option<usize>, writes: &mut Writes) -> u32 {
        let victim = loop {
            match self.victim() {
                Some(victim) => break victim,
                None => self.replace(was, writes),
            }
        };
        // "If it was a used row and dirty address rows have its fingerprint, the block is first copied to each of their disk addresses, oldest row first"
        for x in self.addresses.clone() {
            if self.held[&x].dirty && self.held[&x].fingerprint == victim {
                self.clean(x);
                writes.primary += 1;
            }
        }
        self.cached.retain(|other| *other != victim);
        self.slots.remove(&victim).expect("a used block row")
    }

    fn victim(&self) -> Option<Fingerprint> {
        let lists = self.lists.as_ref().expect("a D-ARC box");
        let wanted: HashSet<Fingerprint> = lists.of[T1].iter().chain(&lists.of[T2]).map(|a| self.held[a].fingerprint).collect();
        self.cached.iter().find(|g| !wanted.contains(*g)).copied()
    }

    /// REPLACEINMETADATACACHE, the replacement.
    fn replace(&mut self, was: Option<usize>, writes: &mut Writes) {
        let Some((from, to)) = self.arc().replaced(was) else {
            return;
        };
        // "Where B1 and B2 would pass C, B1's oldest, or B2's if B1 is empty, is evicted first."
        if self.arc().size(B1) + self.arc().size(B2) + 1 > self.d {
            let list = if self.arc().size(B1) > 0 { B1 } else { B2 };
            self.evict_oldest(list, writes);
        }
        self.arc().move_oldest(from, to);
    }

    /// MANAGEMETADATACACHE: "Of the metadata subroutine's four ways, the two that name the replacement always run it."
    fn manage_metadata_cache(&mut self, was: Option<usize>, writes: &mut Writes) {
        let c = self.d;
        let [t1, b1, b2] = [T1, B1, B2].map(|list| self.arc().size(list));
        if t1 + b1 >= c && t1 < c {
            self.arc().move_oldest(B1, B3);
            self.replace(was, writes);
        } else if t1 + b1 >= c && b1 > 0 {
            self.arc().move_oldest(B1, B3);
            self.arc().move_oldest(T1, B1);
        } else if t1 + b1 >= c {
            self.arc().move_oldest(T1, B3);
        } else {
            if b1 + b2 >= c {
                self.arc().move_oldest(B2, B3);
            }
            self.replace(was, writes);
        }
    }

    /// CHECKMETADATACACHE: "B3's oldest is evicted only if there is one."
    fn check_metadata_cache(&mut self, was: Option<usize>, writes: &mut Writes) {
        // C + X, where m is 2 × C + X and d is C.
        let most = self.m - self.d;
        if [T1, T2, B3].map(|list| self.arc().size(list)).iter().sum::<usize>() == most {
            if self.arc().size(B3) == 0 {
                self.manage_metadata_cache(was, writes);
            }
            if self.arc().size(B3) > 0 {
                self.evict_oldest(B3, writes);
            }
        }
    }

    /// The oldest address of a list is no longer held; "evicted dirty addresses reach disk first, as in the base".
    fn evict_oldest(&mut self, list: usize, writes: &mut Writes) {
        let a = self.arc().of[list].pop_front().expect("an address to evict");
        if self.held[&a].dirty {
            self.clean(a);
            writes.primary += 1;
        }
        self.take_out(a);
    }
}
