//! The proved service: its functions on slices.
type P = *const u8;
type M = *mut u8;

extern "C" {
    fn mindavehu_read(s: M, sl: usize, address: u32, d: M, dl: usize, f: M, fl: usize, a: M, al: usize, b: M, bl: usize, k: M, kl: usize, w: M,
        wl: usize) -> u32;
    fn mindavehu_read_many(
        s: M, sl: usize, asked: *const u32, count: usize, d: M, dl: usize, f: M, fl: usize, a: M, al: usize, b: M, bl: usize, k: M, kl: usize, w: M, wl: usize,
    ) -> u32;
    fn mindavehu_write_through(
        s: M, sl: usize, address: u32, seat: u16, d: M, dl: usize, f: M, fl: usize, a: M, al: usize, b: M, bl: usize, k: P, kl: usize, w: M, wl: usize,
    ) -> u32;
    fn mindavehu_write_back(
        s: M, sl: usize, address: u32, seat: u16, d: M, dl: usize, f: M, fl: usize, a: M, al: usize, b: M, bl: usize, k: P, kl: usize, w: M, wl: usize,
    ) -> u32;
    fn mindavehu_write_invalidate(
        s: M, sl: usize, address: u32, seat: u16, d: M, dl: usize, f: P, fl: usize, a: M, al: usize, b: M, bl: usize, k: P, kl: usize, w: M, wl: usize,
    ) -> u32;
    fn mindavehu_flush(s: M, sl: usize, d: M, dl: usize, f: P, fl: usize, a: M, al: usize, b: P, bl: usize, w: M, wl: usize) -> u32;
    fn mindavehu_look(s: P, sl: usize, address: u32, d: P, dl: usize, f: P, fl: usize, a: P, al: usize, b: P, bl: usize, w: M, wl: usize) -> u32;
    fn mindavehu_scores(b: usize, p: usize, m: usize, d: usize, t: usize, l: P, ll: usize, disk: P, dl: usize, k: usize, c: M, cl: usize) -> u32;
}

/// Functions on slices, each slice given with its own length: those of the library.
macro_rules! functions {
    ($($name:ident = $function:ident(
        $state:ident: $kind:ty, $pointer:ident $(, $number:ident: $width:ty)*; $($slice:ident: $type:ty, $other:ident),*);)*) => { $(
        #[allow(clippy::too_many_arguments)]
        pub fn $name($state: $kind, $($number: $width,)* $($slice: $type),*) -> u32 {
            unsafe { $function($state.$pointer(), $state.len(), $($number,)* $($slice.$other(), $slice.len()),*) }
        }
    )* };
}

functions! {
    read = mindavehu_read(s: &mut [u8], as_mut_ptr, address: u32; d: &mut [u8], as_mut_ptr, f: &mut [u8], as_mut_ptr, a: &mut [u8], as_mut_ptr, b: &mut [u8],
        as_mut_ptr, k: &mut [u8], as_mut_ptr, w: &mut [u8], as_mut_ptr);
    write_through = mindavehu_write_through(s: &mut [u8], as_mut_ptr, address: u32, seat: u16; d: &mut [u8], as_mut_ptr, f: &mut [u8], as_mut_ptr,
        a: &mut [u8], as_mut_ptr, b: &mut [u8], as_mut_ptr, k: &[u8], as_ptr, w: &mut [u8], as_mut_ptr);
    write_back = mindavehu_write_back(s: &mut [u8], as_mut_ptr, address: u32, seat: u16; d: &mut [u8], as_mut_ptr, f: &mut [u8], as_mut_ptr,
        a: &mut [u8], as_mut_ptr, b: &mut [u8], as_mut_ptr, k: &[u8], as_ptr, w: &mut [u8], as_mut_ptr);
    write_invalidate = mindavehu_write_invalidate(s: &mut [u8], as_mut_ptr, address: u32, seat: u16; d: &mut [u8], as_mut_ptr, f: &[u8], as_ptr,
        a: &mut [u8], as_mut_ptr, b: &mut [u8], as_mut_ptr, k: &[u8], as_ptr, w: &mut [u8], as_mut_ptr);
    flush = mindavehu_flush(s: &mut [u8], as_mut_ptr; d: &mut [u8], as_mut_ptr, f: &[u8], as_ptr, a: &mut [u8], as_mut_ptr, b: &[u8], as_ptr, w: &mut [u8],
        as_mut_ptr);
    look = mindavehu_look(s: &[u8], as_ptr, address: u32; d: &[u8], as_ptr, f: &[u8], as_ptr, a: &[u8], as_ptr, b: &[u8], as_ptr, w: &mut [u8], as_mut_ptr);
}

/// The one function that takes a slice of addresses.
#[allow(clippy::too_many_arguments)]
pub fn read_many(s: &mut [u8], asked: &[u32], d: &mut [u8], f: &mut [u8], a: &mut [u8], b: &mut [u8], k: &mut [u8], w: &mut [u8]) -> u32 {
    let [s, d, f, a, b, k, w] = [s, d, f, a, b, k, w].map(|bytes| (bytes.as_mut_ptr(), bytes.len()));
    unsafe { mindavehu_read_many(s.0, s.1, asked.as_ptr(), asked.len(), d.0, d.1, f.0, f.1, a.0, a.1, b.0, b.1, k.0, k.1, w.0, w.1) }
}

/// The one function that takes a box's numbers: B, P, m, d and the limit.
pub fn scores([b, p, m, d, t]: [usize; 5], label: &[u8], disk: &[u8], k: usize, counts: &mut [u8]) -> u32 {
    unsafe { mindavehu_scores(b, p, m, d, t, label.as_ptr(), label.len(), disk.as_ptr(), disk.len(), k, counts.as_mut_ptr(), counts.len()) }
}

/// The calls on D-ARC boxes. The library has no such C names yet: these are built, and not called, with `double` alone.
#[cfg(feature = "double")]
pub mod arc {
    use super::{M, P};

    extern "C" {
        fn mindavehu_arc_read(
            s: M, sl: usize, address: u32, d: M, dl: usize, f: M, fl: usize, a: M, al: usize, b: M, bl: usize, i: M, il: usize, k: M, kl: usize, w: M,
            wl: usize,
        ) -> u32;
        fn mindavehu_arc_write_through(
            s: M, sl: usize, address: u32, seat: u16, d: M, dl: usize, f: M, fl: usize, a: M, al: usize, b: M, bl: usize, i: M, il: usize, k: P, kl: usize,
            w: M, wl: usize,
        ) -> u32;
        fn mindavehu_arc_write_back(
            s: M, sl: usize, address: u32, seat: u16, d: M, dl: usize, f: M, fl: usize, a: M, al: usize, b: M, bl: usize, i: M, il: usize, k: P, kl: usize,
            w: M, wl: usize,
        ) -> u32;
        fn mindavehu_arc_write_invalidate(
            s: M, sl: usize, address: u32, seat: u16, d: M, dl: usize, f: M, fl: usize, a: M, al: usize, b: M, bl: usize, i: M, il: usize, k: P, kl: usize,
            w: M, wl: usize,
        ) -> u32;
        fn mindavehu_arc_flush(s: M, sl: usize, d: M, dl: usize, f: P, fl: usize, a: M, al: usize, b: P, bl: usize, i: P, il: usize, w: M, wl: usize) -> u32;
        fn mindavehu_arc_look(
            s: P, sl: usize, address: u32, d: P, dl: usize, f: P, fl: usize, a: P, al: usize, b: P, bl: usize, i: P, il: usize, w: M, wl: usize,
        ) -> u32;
    }

    functions! {
        read = mindavehu_arc_read(s: &mut [u8], as_mut_ptr, address: u32; d: &mut [u8], as_mut_ptr, f: &mut [u8], as_mut_ptr, a: &mut [u8], as_mut_ptr,
            b: &mut [u8], as_mut_ptr, i: &mut [u8], as_mut_ptr, k: &mut [u8], as_mut_ptr, w: &mut [u8], as_mut_ptr);
        write_through = mindavehu_arc_write_through(s: &mut [u8], as_mut_ptr, address: u32, seat: u16; d: &mut [u8], as_mut_ptr, f: &mut [u8], as_mut_ptr,
            a: &mut [u8], as_mut_ptr, b: &mut [u8], as_mut_ptr, i: &mut [u8], as_mut_ptr, k: &[u8], as_ptr, w: &mut [u8], as_mut_ptr);
        write_back = mindavehu_arc_write_back(s: &mut [u8], as_mut_ptr, address: u32, seat: u16; d: &mut [u8], as_mut_ptr, f: &mut [u8], as_mut_ptr,
            a: &mut [u8], as_mut_ptr, b: &mut [u8], as_mut_ptr, i: &mut [u8], as_mut_ptr, k: &[u8], as_ptr, w: &mut [u8], as_mut_ptr);
        write_invalidate = mindavehu_arc_write_invalidate(s: &mut [u8], as_mut_ptr, address: u32, seat: u16; d: &mut [u8], as_mut_ptr, f: &mut [u8],
            as_mut_ptr, a: &mut [u8], as_mut_ptr, b: &mut [u8], as_mut_ptr, i: &mut [u8], as_mut_ptr, k: &[u8], as_ptr, w: &mut [u8], as_mut_ptr);
        flush = mindavehu_arc_flush(s: &mut [u8], as_mut_ptr; d: &mut [u8], as_mut_ptr, f: &[u8], as_ptr, a: &mut [u8], as_mut_ptr, b: &[u8], as_ptr,
            i: &[u8], as_ptr, w: &mut [u8], as_mut_ptr);
        look = mindavehu_arc_look(s: &[u8], as_ptr, address: u32; d: &[u8], as_ptr, f: &[u8], as_ptr, a: &[u8], as_ptr, b: &[u8], as_ptr, i: &[u8], as_ptr,
            w: &mut [u8], as_mut_ptr);
    }
}
