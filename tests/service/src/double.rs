//! The engine with maps, and the search in plain Rust, behind the service's C names.
use std::slice::{from_raw_parts, from_raw_parts_mut};

type P = *const u8;
type M = *mut u8;

#[no_mangle]
unsafe extern "C" fn mindavehu_open(s: M, sl: usize, l: P, ll: usize, d: P, dl: usize, f: P, fl: usize, a: M, al: usize, b: M, bl: usize) -> u32 {
    engines::maps::open(
        from_raw_parts_mut(s, sl),
        from_raw_parts(l, ll),
        from_raw_parts(d, dl),
        from_raw_parts(f, fl),
        from_raw_parts_mut(a, al),
        from_raw_parts_mut(b, bl),
    )
}

#[no_mangle]
unsafe extern "C" fn mindavehu_read(
    s: M, sl: usize, address: u32, d: M, dl: usize, f: M, fl: usize, a: M, al: usize, b: M, bl: usize, k: M, kl: usize, w: M, wl: usize,
) -> u32 {
    engines::maps::read(
        from_raw_parts_mut(s, sl),
        address,
        from_raw_parts_mut(d, dl),
        from_raw_parts_mut(f, fl),
        from_raw_parts_mut(a, al),
        from_raw_parts_mut(b, bl),
        from_raw_parts_mut(k, kl),
        from_raw_parts_mut(w, wl),
    )
}

#[no_mangle]
unsafe extern "C" fn mindavehu_read_many(
    s: M, sl: usize, asked: *const u32, count: usize, d: M, dl: usize, f: M, fl: usize, a: M, al: usize, b: M, bl: usize, k: M, kl: usize, w: M, wl: usize,
) -> u32 {
    engines::maps::read_many(
        from_raw_parts_mut(s, sl),
        from_raw_parts(asked, count),
        from_raw_parts_mut(d, dl),
        from_raw_parts_mut(f, fl),
        from_raw_parts_mut(a, al),
        from_raw_parts_mut(b, bl),
        from_raw_parts_mut(k, kl),
        from_raw_parts_mut(w, wl),
    )
}

macro_rules! writes {
    ($($name:ident $function:ident $flash:ident $slice:ident;)*) => { $(
        #[no_mangle]
        unsafe extern "C" fn $name(
            s: M, sl: usize, address: u32, seat: u16, d: M, dl: usize, f: $flash, fl: usize, a: M, al: usize, b: M, bl: usize, k: P, kl: usize, w: M, wl: usize,
        ) -> u32 {
            engines::maps::$function(
                from_raw_parts_mut(s, sl),
                address,
                seat,
                from_raw_parts_mut(d, dl),
                $slice(f, fl),
                from_raw_parts_mut(a, al),
                from_raw_parts_mut(b, bl),
                from_raw_parts(k, kl),
                from_raw_parts_mut(w, wl),
            )
        }
    )* };
}

writes! {
    mindavehu_write_through write_through M from_raw_parts_mut;
    mindavehu_write_back write_back M from_raw_parts_mut;
    mindavehu_write_invalidate write_invalidate P from_raw_parts;
}

#[no_mangle]
unsafe extern "C" fn mindavehu_flush(s: M, sl: usize, d: M, dl: usize, f: P, fl: usize, a: M, al: usize, b: P, bl: usize, w: M, wl: usize) -> u32 {
    engines::maps::flush(
        from_raw_parts_mut(s, sl),
        from_raw_parts_mut(d, dl),
        from_raw_parts(f, fl),
        from_raw_parts_mut(a, al),
        from_raw_parts(b, bl),
        from_raw_parts_mut(w, wl),
    )
}

#[no_mangle]
unsafe extern "C" fn mindavehu_flush_some(
    s: M,
    sl: usize,
    most: usize,
    d: M,
    dl: usize,
    f: P,
    fl: usize,
    a: M,
    al: usize,
    b: P,
    bl: usize,
    w: M,
    wl: usize,
) -> u32 {
    engines::maps::flush_some(
        from_raw_parts_mut(s, sl),
        most,
        from_raw_parts_mut(d, dl),
        from_raw_parts(f, fl),
        from_raw_parts_mut(a, al),
        from_raw_parts(b, bl),
        from_raw_parts_mut(w, wl),
    )
}

#[no_mangle]
unsafe extern "C" fn mindavehu_look(s: P, sl: usize, address: u32, d: P, dl: usize, f: P, fl: usize, a: P, al: usize, b: P, bl: usize, w: M, wl: usize) -> u32 {
    engines::maps::look(
        from_raw_parts(s, sl),
        address,
        from_raw_parts(d, dl),
        from_raw_parts(f, fl),
        from_raw_parts(a, al),
        from_raw_parts(b, bl),
        from_raw_parts_mut(w, wl),
    )
}

macro_rules! reports {
    ($($name:ident $function:ident;)*) => { $(
        #[no_mangle]
        unsafe extern "C" fn $name(s: P, sl: usize, d: P, dl: usize, f: P, fl: usize, a: P, al: usize, b: P, bl: usize, r: M, rl: usize) -> u32 {
            engines::maps::$function(
                from_raw_parts(s, sl),
                from_raw_parts(d, dl),
                from_raw_parts(f, fl),
                from_raw_parts(a, al),
                from_raw_parts(b, bl),
                from_raw_parts_mut(r, rl),
            )
        }
    )* };
}

reports! {
    mindavehu_manager_report manager_report;
    mindavehu_desk_report desk_report;
}

#[no_mangle]
unsafe extern "C" fn mindavehu_save(
    s: M, sl: usize, d: M, dl: usize, f: P, fl: usize, a: M, al: usize, b: P, bl: usize, r: M, rl: usize, w: M, wl: usize,
) -> u32 {
    engines::maps::save(
        from_raw_parts_mut(s, sl),
        from_raw_parts_mut(d, dl),
        from_raw_parts(f, fl),
        from_raw_parts_mut(a, al),
        from_raw_parts(b, bl),
        from_raw_parts_mut(r, rl),
        from_raw_parts_mut(w, wl),
    )
}

#[no_mangle]
unsafe extern "C" fn mindavehu_restore(s: M, sl: usize, r: M, rl: usize, a: M, al: usize, b: M, bl: usize, l: M, ll: usize) -> u32 {
    engines::maps::restore(
        from_raw_parts_mut(s, sl),
        from_raw_parts_mut(r, rl),
        from_raw_parts_mut(a, al),
        from_raw_parts_mut(b, bl),
        from_raw_parts(l, ll),
    )
}

#[no_mangle]
unsafe extern "C" fn mindavehu_scores(
    b: usize, p: usize, m: usize, d: usize, t: usize, l: P, ll: usize, disk: P, dl: usize, k: usize, c: M, cl: usize,
) -> u32 {
    engines::scores::scores([b, p, m, d, t], from_raw_parts(l, ll), from_raw_parts(disk, dl), k, from_raw_parts_mut(c, cl))
}
