//! The service's C functions for D-ARC boxes, on boxes in bytes.
use crate::calls::{Buffers, Lifted};
use model::arc::ArcLent;
use model::{Call, Folder, Lent, Report};

type P = *const u8;
type M = *mut u8;

// The letters: state, label, disk, flash, address table, block table, lists (i), the lent block or the folder's buffer (k), the answer (w), a report (r).
extern "C" {
    fn mindavehu_arc_open(s: M, sl: usize, l: P, ll: usize, d: P, dl: usize, f: P, fl: usize, a: M, al: usize, b: M, bl: usize, i: M, il: usize) -> u32;
    fn mindavehu_arc_read(
        s: M, sl: usize, address: u32, d: M, dl: usize, f: M, fl: usize, a: M, al: usize, b: M, bl: usize, i: M, il: usize, k: M, kl: usize, w: M, wl: usize,
    ) -> u32;
    fn mindavehu_arc_read_many(
        s: M, sl: usize, asked: *const u32, count: usize, d: M, dl: usize, f: M, fl: usize, a: M, al: usize, b: M, bl: usize, i: M, il: usize, k: M, kl: usize,
        w: M, wl: usize,
    ) -> u32;
    fn mindavehu_arc_write_through(
        s: M, sl: usize, address: u32, seat: u16, d: M, dl: usize, f: M, fl: usize, a: M, al: usize, b: M, bl: usize, i: M, il: usize, k: P, kl: usize, w: M,
        wl: usize,
    ) -> u32;
    fn mindavehu_arc_write_back(
        s: M, sl: usize, address: u32, seat: u16, d: M, dl: usize, f: M, fl: usize, a: M, al: usize, b: M, bl: usize, i: M, il: usize, k: P, kl: usize, w: M,
        wl: usize,
    ) -> u32;
    fn mindavehu_arc_write_invalidate(
        s: M, sl: usize, address: u32, seat: u16, d: M, dl: usize, f: M, fl: usize, a: M, al: usize, b: M, bl: usize, i: M, il: usize, k: P, kl: usize, w: M,
        wl: usize,
    ) -> u32;
    fn mindavehu_arc_flush(s: M, sl: usize, d: M, dl: usize, f: P, fl: usize, a: M, al: usize, b: P, bl: usize, i: P, il: usize, w: M, wl: usize) -> u32;
    fn mindavehu_arc_flush_some(
        s: M, sl: usize, most: usize, d: M, dl: usize, f: P, fl: usize, a: M, al: usize, b: P, bl: usize, i: P, il: usize, w: M, wl: usize,
    ) -> u32;
    fn mindavehu_arc_look(
        s: P, sl: usize, address: u32, d: P, dl: usize, f: P, fl: usize, a: P, al: usize, b: P, bl: usize, i: P, il: usize, w: M, wl: usize,
    ) -> u32;
    fn mindavehu_arc_manager_report(
        s: P, sl: usize, d: P, dl: usize, f: P, fl: usize, a: P, al: usize, b: P, bl: usize, i: P, il: usize, r: M, rl: usize,
    ) -> u32;
    fn mindavehu_arc_desk_report(s: P, sl: usize, d: P, dl: usize, f: P, fl: usize, a: P, al: usize, b: P, bl: usize, i: P, il: usize, r: M, rl: usize) -> u32;
}

/// State, disk, flash, address table, block table, lists, lent block, answer and the label that is lent to an opening.
fn buffers(lent: &mut ArcLent) -> Buffers<'_, 9> {
    let ArcLent { base: Lent { state, disk, flash, addresses, blocks, block, answer, label }, lists } = lent;
    [state, disk, flash, addresses, blocks, lists, block, answer, label]
}

fn on_slices(call: Call, address: u32, mut buffers: Buffers<9>) -> u32 {
    let [s, d, f, a, b, i, k, w, l] = buffers.each_mut().map(|bytes| bytes.as_mut_ptr());
    let [sl, dl, fl, al, bl, il, kl, wl, ll] = buffers.map(|bytes| bytes.len());
    // SAFETY: each pointer comes with the length of its own slice.
    unsafe {
        match call {
            Call::Open => mindavehu_arc_open(s, sl, l, ll, d, dl, f, fl, a, al, b, bl, i, il),
            Call::Read => mindavehu_arc_read(s, sl, address, d, dl, f, fl, a, al, b, bl, i, il, k, kl, w, wl),
            Call::Through(seat) => mindavehu_arc_write_through(s, sl, address, seat, d, dl, f, fl, a, al, b, bl, i, il, k, kl, w, wl),
            Call::Back(seat) => mindavehu_arc_write_back(s, sl, address, seat, d, dl, f, fl, a, al, b, bl, i, il, k, kl, w, wl),
            Call::Invalidate(seat) => mindavehu_arc_write_invalidate(s, sl, address, seat, d, dl, f, fl, a, al, b, bl, i, il, k, kl, w, wl),
            Call::Flush => mindavehu_arc_flush(s, sl, d, dl, f, fl, a, al, b, bl, i, il, w, wl),
            Call::FlushSome(most) => mindavehu_arc_flush_some(s, sl, most, d, dl, f, fl, a, al, b, bl, i, il, w, wl),
            Call::Look => mindavehu_arc_look(s, sl, address, d, dl, f, fl, a, al, b, bl, i, il, w, wl),
        }
    }
}

/// With the folder's buffer and answer in the places of the lent block and the answer.
fn many_on_slices(asked: &[u32], mut buffers: Buffers<8>) -> u32 {
    let [s, d, f, a, b, i, k, w] = buffers.each_mut().map(|bytes| bytes.as_mut_ptr());
    let [sl, dl, fl, al, bl, il, kl, wl] = buffers.map(|bytes| bytes.len());
    // SAFETY: each pointer comes with the length of its own slice.
    unsafe { mindavehu_arc_read_many(s, sl, asked.as_ptr(), asked.len(), d, dl, f, fl, a, al, b, bl, i, il, k, kl, w, wl) }
}

/// With the report in the place of the answer. Every buffer is given as one that may be written to, so that it can be looked at afterwards.
fn report_on_slices(report: Report, mut buffers: Buffers<7>) -> u32 {
    let [s, d, f, a, b, i, r] = buffers.each_mut().map(|bytes| bytes.as_mut_ptr());
    let [sl, dl, fl, al, bl, il, rl] = buffers.map(|bytes| bytes.len());
    // SAFETY: each pointer comes with the length of its own slice.
    unsafe {
        match report {
            Report::Manager => mindavehu_arc_manager_report(s, sl, d, dl, f, fl, a, al, b, bl, i, il, r, rl),
            Report::Desk => mindavehu_arc_desk_report(s, sl, d, dl, f, fl, a, al, b, bl, i, il, r, rl),
        }
    }
}

/// Calls the service on a D-ARC box. The address is not used by an opening and a flush.
pub fn call(call: Call, address: u32, lent: &mut ArcLent) -> u32 {
    on_slices(call, address, buffers(lent))
}

/// One call for a folder. The box's own block and answer, and the label of an opening, are not lent to it.
pub fn call_many(lent: &mut ArcLent, folder: &mut Folder) -> u32 {
    let ArcLent { base: Lent { state, disk, flash, addresses, blocks, .. }, lists } = lent;
    many_on_slices(&folder.asked, [state, disk, flash, addresses, blocks, lists, &mut folder.buffer, &mut folder.answer])
}

/// A report into these bytes.
pub fn call_report(report: Report, lent: &mut ArcLent, bytes: &mut [u8]) -> u32 {
    let ArcLent { base: Lent { state, disk, flash, addresses, blocks, .. }, lists } = lent;
    report_on_slices(report, [state, disk, flash, addresses, blocks, lists, bytes])
}

/// The same as `call` with every buffer lifted.
pub fn call_guarded(call: Call, address: u32, lent: &mut ArcLent, shift: usize) -> u32 {
    let mut lifted = Lifted::new(&buffers(lent), shift);
    let number = on_slices(call, address, lifted.slices());
    lifted.put_back(buffers(lent), &format!("{call:?}"));
    number
}

/// The same as `call_many` with every buffer lifted. The addresses stay at a multiple of four bytes, between others that the box has not.
pub fn call_many_guarded(lent: &mut ArcLent, folder: &mut Folder, shift: usize) -> u32 {
    let ArcLent { base: Lent { state, disk, flash, addresses, blocks, .. }, lists } = lent;
    let own: Buffers<8> = [state, disk, flash, addresses, blocks, lists, &mut folder.buffer, &mut folder.answer];
    let mut lifted = Lifted::new(&own, shift);
    let start = 1 + shift % 4;
    let wide = [&vec![u32::MAX; start][..], &folder.asked, &[u32::MAX; 4]].concat();
    let number = many_on_slices(&wide[start..start + folder.asked.len()], lifted.slices());
    lifted.put_back(own, "one call for a folder");
    number
}

/// The same as `call_report` with every buffer lifted.
pub fn call_report_guarded(report: Report, lent: &mut ArcLent, bytes: &mut [u8], shift: usize) -> u32 {
    let ArcLent { base: Lent { state, disk, flash, addresses, blocks, .. }, lists } = lent;
    let own: Buffers<7> = [state, disk, flash, addresses, blocks, lists, bytes];
    let mut lifted = Lifted::new(&own, shift);
    let number = report_on_slices(report, lifted.slices());
    lifted.put_back(own, &format!("the report {report:?}"));
    number
}
