//! The proved library. Every function may be given any bytes and any numbers.
use crate::Tables;

/// The answer where there is no such row, or what is given does not fit.
pub const NONE: usize = 0xffff_ffff;

mod foreign {
    type P = *const u8;
    type M = *mut u8;
    extern "C" {
        pub fn tables_probe_addresses_unsound(t: P, len: usize, m: usize, n: usize, p: usize) -> bool;
        pub fn tables_probe_blocks_unsound(t: P, len: usize, d: usize) -> bool;
        pub fn tables_probe_refused(a: P, alen: usize, m: usize, n: usize, p: usize, b: P, blen: usize, d: usize) -> u32;
        pub fn tables_probe_place(a: P, alen: usize, m: usize, n: usize, p: usize, b: P, blen: usize, d: usize, k: usize) -> usize;
        pub fn tables_probe_some_uncached(a: P, alen: usize, m: usize, n: usize, p: usize, b: P, blen: usize, d: usize) -> usize;
        pub fn tables_probe_oldest_unknown(a: P, alen: usize, m: usize, n: usize, p: usize, b: P, blen: usize, d: usize) -> usize;
        pub fn tables_probe_find_address(t: P, len: usize, n: usize, a: u32) -> usize;
        pub fn tables_probe_find_fingerprint(t: P, len: usize, n: usize, g: P, glen: usize) -> usize;
        pub fn tables_probe_find_cached(t: P, len: usize, n: usize, g: P, glen: usize) -> usize;
        pub fn tables_probe_address_at(t: P, len: usize, n: usize, i: usize) -> u32;
        pub fn tables_probe_slot_at(t: P, len: usize, n: usize, i: usize) -> u32;
        pub fn tables_probe_is_dirty(t: P, len: usize, n: usize, i: usize) -> bool;
        pub fn tables_probe_is_used(t: P, len: usize, n: usize, i: usize) -> bool;
        pub fn tables_probe_remove_row(t: M, len: usize, n: usize, i: usize);
        pub fn tables_probe_push_address(t: M, len: usize, n: usize, a: u32, g: P, glen: usize, dirty: u8, seat: u16);
        pub fn tables_probe_set_clean(t: M, len: usize, n: usize, i: usize);
        pub fn tables_probe_to_newest(t: M, len: usize, d: usize, i: usize);
        pub fn tables_probe_to_front(t: M, len: usize, d: usize, i: usize);
        pub fn tables_probe_put_block(t: M, len: usize, d: usize, i: usize, g: P, glen: usize);
        pub fn tables_probe_fresh_addresses(t: M, len: usize, m: usize);
        pub fn tables_probe_fresh_blocks(t: M, len: usize, d: usize);
    }
}

/// A safe function over a foreign one that takes one shared table, another that takes both, and one that changes a table. Slices are lent as
/// pointer and length, and the library stays within them.
macro_rules! shared {
    ($name:ident, $foreign:ident ($($arg:ident : $ty:ty),*) -> $result:ty) => {
        pub fn $name(t: &[u8], $($arg: $ty),*) -> $result {
            unsafe { foreign::$foreign(t.as_ptr(), t.len(), $($arg),*) }
        }
    };
}
macro_rules! searching {
    ($name:ident, $foreign:ident ($($arg:ident : $ty:ty),*)) => {
        pub fn $name(t: &[u8], $($arg: $ty,)* g: &[u8]) -> usize {
            unsafe { foreign::$foreign(t.as_ptr(), t.len(), $($arg,)* g.as_ptr(), g.len()) }
        }
    };
}
macro_rules! both {
    ($name:ident, $foreign:ident ($($arg:ident : $ty:ty),*) -> $result:ty) => {
        pub fn $name(t: &Tables, $($arg: $ty),*) -> $result {
            unsafe { foreign::$foreign(t.addresses.as_ptr(), t.addresses.len(), t.m, t.n, t.p, t.blocks.as_ptr(), t.blocks.len(), t.d, $($arg),*) }
        }
    };
}
macro_rules! changing {
    ($name:ident, $foreign:ident ($($arg:ident : $ty:ty),*)) => {
        pub fn $name(t: &mut [u8], $($arg: $ty),*) {
            unsafe { foreign::$foreign(t.as_mut_ptr(), t.len(), $($arg),*) }
        }
    };
}

shared!(addresses_unsound, tables_probe_addresses_unsound(m: usize, n: usize, p: usize) -> bool);
shared!(blocks_unsound, tables_probe_blocks_unsound(d: usize) -> bool);
both!(refused, tables_probe_refused() -> u32);
both!(place, tables_probe_place(k: usize) -> usize);
both!(some_uncached, tables_probe_some_uncached() -> usize);
both!(oldest_unknown, tables_probe_oldest_unknown() -> usize);
shared!(find_address, tables_probe_find_address(n: usize, a: u32) -> usize);
searching!(find_fingerprint, tables_probe_find_fingerprint(n: usize));
searching!(find_cached, tables_probe_find_cached(n: usize));
shared!(address_at, tables_probe_address_at(n: usize, i: usize) -> u32);
shared!(slot_at, tables_probe_slot_at(n: usize, i: usize) -> u32);
shared!(is_dirty, tables_probe_is_dirty(n: usize, i: usize) -> bool);
shared!(is_used, tables_probe_is_used(n: usize, i: usize) -> bool);
changing!(remove_row, tables_probe_remove_row(n: usize, i: usize));
changing!(set_clean, tables_probe_set_clean(n: usize, i: usize));
changing!(to_newest, tables_probe_to_newest(d: usize, i: usize));
changing!(to_front, tables_probe_to_front(d: usize, i: usize));
changing!(fresh_addresses, tables_probe_fresh_addresses(m: usize));
changing!(fresh_blocks, tables_probe_fresh_blocks(d: usize));

pub fn push_address(t: &mut [u8], n: usize, a: u32, g: &[u8], dirty: u8, seat: u16) {
    unsafe { foreign::tables_probe_push_address(t.as_mut_ptr(), t.len(), n, a, g.as_ptr(), g.len(), dirty, seat) }
}

pub fn put_block(t: &mut [u8], d: usize, i: usize, g: &[u8]) {
    unsafe { foreign::tables_probe_put_block(t.as_mut_ptr(), t.len(), d, i, g.as_ptr(), g.len()) }
}
