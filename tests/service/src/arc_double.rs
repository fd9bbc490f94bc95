//! The engine of bench/engines for D-ARC boxes behind the service's C names.
use engines::arc;
use std::slice::{from_raw_parts, from_raw_parts_mut};

type P = *const u8;
type M = *mut u8;

#[no_mangle]
unsafe extern "C" fn mindavehu_arc_open(
    s: M, sl: usize, l: P, ll: usize, d: P, dl: usize, f: P, fl: usize, a: M, al: usize, b: M, bl: usize, i: M, il: usize,
) -> u32 {
    arc::open(
        from_raw_parts_mut(s, sl),
        from_raw_parts(l, ll),
        from_raw_parts(d, dl),
        from_raw_parts(f, fl),
        from_raw_parts_mut(a, al),
        from_raw_parts_mut(b, bl),
        from_raw_parts_mut(i, il),
    )
}

#[no_mangle]
unsafe extern "C" fn mindavehu_arc_read(
    s: M, sl: usize, address: u32, d: M, dl: usize, f: M, fl: usize, a: M, al: usize, b: M, bl: usize, i: M, il: usize, k: M, kl: usize, w: M, wl: usize,
) -> u32 {
    arc::read(
        from_raw_parts_mut(s, sl),
        address,
        from_raw_parts_mut(d, dl),
        from_raw_parts_mut(f, fl),
        from_raw_parts_mut(a, al),
        from_raw_parts_mut(b, bl),
        from_raw_parts_mut(i, il),
        from_raw_parts_mut(k, kl),
        from_raw_parts_mut(w, wl),
    )
}

#[no_mangle]
unsafe extern "C" fn mindavehu_arc_read_many(
    s: M, sl: usize, asked: *const u32, count: usize, d: M, dl: usize, f: M, fl: usize, a: M, al: usize, b: M, bl: usize, i: M, il: usize, k: M, kl: usize,
    w: M, wl: usize,
) -> u32 {
    arc::read_many(
        from_raw_parts_mut(s, sl),
        from_raw_parts(asked, count),
        from_raw_parts_mut(d, dl),
        from_raw_parts_mut(f, fl),
        from_raw_parts_mut(a, al),
        from_raw_parts_mut(b, bl),
        from_raw_parts_mut(i, il),
        from_raw_parts_mut(k, kl),
        from_raw_parts_mut(w, wl),
    )
}

macro_rules! writes {
    ($($name:ident $function:ident;)*) => { $(
        #[no_mangle]
        unsafe extern "C" fn $name(
            s: M, sl: usize, address: u32, seat: u16, d: M, dl: usize, f: M, fl: usize, a: M, al: usize, b: M, bl: usize, i: M, il: usize, k: P, kl: usize,
            w: M, wl: usize,
        ) -> u32 {
            arc::$function(
                from_raw_parts_mut(s, sl),
                address,
                seat,
                from_raw_parts_mut(d, dl),
                from_raw_parts_mut(f, fl),
                from_raw_parts_mut(a, al),
                from_raw_parts_mut(b, bl),
                from_raw_parts_mut(i, il),
                from_raw_parts(k, kl),
                from_raw_parts_mut(w, wl),
            )
        }
    )* };
}

writes! {
    mindavehu_arc_write_through write_through;
    mindavehu_arc_write_back write_back;
    mindavehu_arc_write_invalidate write_invalidate;
}

#[no_mangle]
unsafe extern "C" fn mindavehu_arc_flush(
    s: M, sl: usize, d: M, dl: usize, f: P, fl: usize, a: M, al: usize, b: P, bl: usize, i: P, il: usize, w: M, wl: usize,
) -> u32 {
    arc::flush(
        from_raw_parts_mut(s, sl),
        from_raw_parts_mut(d, dl),
        from_raw_parts(f, fl),
        from_raw_parts_mut(a, al),
        from_raw_parts(b, bl),
        from_raw_parts(i, il),
        from_raw_parts_mut(w, wl),
    )
}

#[no_mangle]
unsafe extern "C" fn mindavehu_arc_flush_some(
    s: M, sl: usize, most: usize, d: M, dl: usize, f: P, fl: usize, a: M, al: usize, b: P, bl: usize, i: P, il: usize, w: M, wl: usize,
) -> u32 {
    arc::flush_some(
        from_raw_parts_mut(s, sl),
        most,
        from_raw_parts_mut(d, dl),
        from_raw_parts(f, fl),
        from_raw_parts_mut(a, al),
        from_raw_parts(b, bl),
        from_raw_parts(i, il),
        from_raw_parts_mut(w, wl),
    )
}

#[no_mangle]
unsafe extern "C" fn mindavehu_arc_look(
    s: P, sl: usize, address: u32, d: P, dl: usize, f: P, fl: usize, a: P, al: usize, b: P, bl: usize, i: P, il: usize, w: M, wl: usize,
) -> u32 {
    arc::look(
        from_raw_parts(s, sl),
        address,
        from_raw_parts(d, dl),
        from_raw_parts(f, fl),
        from_raw_parts(a, al),
        from_raw_parts(b, bl),
        from_raw_parts(i, il),
        from_raw_parts_mut(w, wl),
    )
}

macro_rules! reports {
    ($($name:ident $function:ident;)*) => { $(
        #[no_mangle]
        unsafe extern "C" fn $name(
            s: P, sl: usize, d: P, dl: usize, f: P, fl: usize, a: P, al: usize, b: P, bl: usize, i: P, il: usize, r: M, rl: usize,
        ) -> u32 {
            arc::$function(
                from_raw_parts(s, sl),
                from_raw_parts(d, dl),
                from_raw_parts(f, fl),
                from_raw_parts(a, al),
                from_raw_parts(b, bl),
                from_raw_parts(i, il),
                from_raw_parts_mut(r, rl),
            )
        }
    )* };
}

reports! {
    mindavehu_arc_manager_report manager_report;
    mindavehu_arc_desk_report desk_report;
}
