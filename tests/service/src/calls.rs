//! The service's C functions, on boxes in bytes.
use model::exam::Question;
use model::{Call, Folder, Lent, Report};

type P = *const u8;
type M = *mut u8;

extern "C" {
    fn mindavehu_open(s: M, sl: usize, l: P, ll: usize, d: P, dl: usize, f: P, fl: usize, a: M, al: usize, b: M, bl: usize) -> u32;
    fn mindavehu_read(
        s: M, sl: usize, address: u32, d: M, dl: usize, f: M, fl: usize, a: M, al: usize, b: M, bl: usize, k: M, kl: usize, w: M, wl: usize,
    ) -> u32;
    fn mindavehu_read_many(
        s: M, sl: usize, asked: *const u32, count: usize, d: M, dl: usize, f: M, fl: usize, a: M, al: usize, b: M, bl: usize, k: M, kl: usize, w: M, wl: usize,
    ) -> u32;
    fn mindavehu_write_through(
        s: M, sl: usize, address: u32, seat: u16, d: M, dl: usize, f: M, fl: usize, a: M, al: usize, b: M, bl: usize, k: P, kl: usize, w: M, wl: usize,
    ) -> u32;
    fn mindavehu_write_back(
        s: M, sl: usize, address: u32, seat: u16, d: M, dl: usize, f: M, fl: usize, a: M, al: usize, b: M, bl: usize, k: P, kl: usize, w: M, wl: usize,
    ) -> u32;
    fn mindavehu_write_invalidate(
        s: M, sl: usize, address: u32, seat: u16, d: M, dl: usize, f: P, fl: usize, a: M, al: usize, b: M, bl: usize, k: P, kl: usize, w: M, wl: usize,
    ) -> u32;
    fn mindavehu_flush(s: M, sl: usize, d: M, dl: usize, f: P, fl: usize, a: M, al: usize, b: P, bl: usize, w: M, wl: usize) -> u32;
    fn mindavehu_flush_some(s: M, sl: usize, most: usize, d: M, dl: usize, f: P, fl: usize, a: M, al: usize, b: P, bl: usize, w: M, wl: usize) -> u32;
    fn mindavehu_look(s: P, sl: usize, address: u32, d: P, dl: usize, f: P, fl: usize, a: P, al: usize, b: P, bl: usize, w: M, wl: usize) -> u32;
    fn mindavehu_manager_report(s: P, sl: usize, d: P, dl: usize, f: P, fl: usize, a: P, al: usize, b: P, bl: usize, r: M, rl: usize) -> u32;
    fn mindavehu_desk_report(s: P, sl: usize, d: P, dl: usize, f: P, fl: usize, a: P, al: usize, b: P, bl: usize, r: M, rl: usize) -> u32;
    fn mindavehu_save(
        s: M, sl: usize, d: M, dl: usize, f: P, fl: usize, a: M, al: usize, b: P, bl: usize, r: M, rl: usize, w: M, wl: usize,
    ) -> u32;
    fn mindavehu_restore(s: M, sl: usize, r: M, rl: usize, a: M, al: usize, b: M, bl: usize, l: M, ll: usize) -> u32;
    fn mindavehu_scores(b: usize, p: usize, m: usize, d: usize, t: usize, l: P, ll: usize, disk: P, dl: usize, k: usize, c: M, cl: usize) -> u32;
}

/// The buffers of a call in their order: state, disk, flash, address table, block table, lent block, answer and, where a box has all of its own, the label
/// that is lent to an opening.
pub type Buffers<'a, const COUNT: usize> = [&'a mut [u8]; COUNT];

fn buffers(lent: &mut Lent) -> Buffers<'_, 8> {
    let Lent { state, disk, flash, addresses, blocks, block, answer, label } = lent;
    [state, disk, flash, addresses, blocks, block, answer, label]
}

pub fn on_slices(call: Call, address: u32, mut buffers: Buffers<8>) -> u32 {
    let [s, d, f, a, b, k, w, l] = buffers.each_mut().map(|bytes| bytes.as_mut_ptr());
    let [sl, dl, fl, al, bl, kl, wl, ll] = buffers.map(|bytes| bytes.len());
    // SAFETY: each pointer comes with the length of its own slice.
    unsafe {
        match call {
            Call::Open => mindavehu_open(s, sl, l, ll, d, dl, f, fl, a, al, b, bl),
            Call::Read => mindavehu_read(s, sl, address, d, dl, f, fl, a, al, b, bl, k, kl, w, wl),
            Call::Through(seat) => mindavehu_write_through(s, sl, address, seat, d, dl, f, fl, a, al, b, bl, k, kl, w, wl),
            Call::Back(seat) => mindavehu_write_back(s, sl, address, seat, d, dl, f, fl, a, al, b, bl, k, kl, w, wl),
            Call::Invalidate(seat) => mindavehu_write_invalidate(s, sl, address, seat, d, dl, f, fl, a, al, b, bl, k, kl, w, wl),
            Call::Flush => mindavehu_flush(s, sl, d, dl, f, fl, a, al, b, bl, w, wl),
            Call::FlushSome(most) => mindavehu_flush_some(s, sl, most, d, dl, f, fl, a, al, b, bl, w, wl),
            Call::Look => mindavehu_look(s, sl, address, d, dl, f, fl, a, al, b, bl, w, wl),
        }
    }
}

/// With the folder's buffer and answer in the places of the lent block and the answer.
fn many_on_slices(asked: &[u32], mut buffers: Buffers<7>) -> u32 {
    let [s, d, f, a, b, k, w] = buffers.each_mut().map(|bytes| bytes.as_mut_ptr());
    let [sl, dl, fl, al, bl, kl, wl] = buffers.map(|bytes| bytes.len());
    // SAFETY: each pointer comes with the length of its own slice.
    unsafe { mindavehu_read_many(s, sl, asked.as_ptr(), asked.len(), d, dl, f, fl, a, al, b, bl, k, kl, w, wl) }
}

/// With the report in the place of the answer. Every buffer is given as one that may be written to, so that it can be looked at afterwards.
fn report_on_slices(report: Report, mut buffers: Buffers<6>) -> u32 {
    let [s, d, f, a, b, r] = buffers.each_mut().map(|bytes| bytes.as_mut_ptr());
    let [sl, dl, fl, al, bl, rl] = buffers.map(|bytes| bytes.len());
    // SAFETY: each pointer comes with the length of its own slice.
    unsafe {
        match report {
            Report::Manager => mindavehu_manager_report(s, sl, d, dl, f, fl, a, al, b, bl, r, rl),
            Report::Desk => mindavehu_desk_report(s, sl, d, dl, f, fl, a, al, b, bl, r, rl),
        }
    }
}

/// With the area before the answer. Flash and block table are given as if they may be written to, as above.
pub fn save_on_slices(mut buffers: Buffers<7>) -> u32 {
    let [s, d, f, a, b, r, w] = buffers.each_mut().map(|bytes| bytes.as_mut_ptr());
    let [sl, dl, fl, al, bl, rl, wl] = buffers.map(|bytes| bytes.len());
    // SAFETY: each pointer comes with the length of its own slice.
    unsafe { mindavehu_save(s, sl, d, dl, f, fl, a, al, b, bl, r, rl, w, wl) }
}

/// State, area, address table, block table and lists.
pub fn restore_on_slices(mut buffers: Buffers<5>) -> u32 {
    let [s, r, a, b, l] = buffers.each_mut().map(|bytes| bytes.as_mut_ptr());
    let [sl, rl, al, bl, ll] = buffers.map(|bytes| bytes.len());
    // SAFETY: each pointer comes with the length of its own slice.
    unsafe { mindavehu_restore(s, sl, r, rl, a, al, b, bl, l, ll) }
}

/// Calls the service on a box. The address is not used by an opening and a flush.
pub fn call(call: Call, address: u32, lent: &mut Lent) -> u32 {
    on_slices(call, address, buffers(lent))
}

/// One call for a folder. The box's own block and answer, and the label of an opening, are not lent to it.
pub fn call_many(lent: &mut Lent, folder: &mut Folder) -> u32 {
    let Lent { state, disk, flash, addresses, blocks, .. } = lent;
    many_on_slices(&folder.asked, [state, disk, flash, addresses, blocks, &mut folder.buffer, &mut folder.answer])
}

/// A report into these bytes.
pub fn call_report(report: Report, lent: &mut Lent, bytes: &mut [u8]) -> u32 {
    let Lent { state, disk, flash, addresses, blocks, .. } = lent;
    report_on_slices(report, [state, disk, flash, addresses, blocks, bytes])
}

/// A save into this area.
pub fn call_save(lent: &mut Lent, area: &mut [u8]) -> u32 {
    let Lent { state, disk, flash, addresses, blocks, answer, .. } = lent;
    save_on_slices([state, disk, flash, addresses, blocks, area, answer])
}

/// A restore from this area into the state and the tables of a box, which lends nothing else.
pub fn call_restore(lent: &mut Lent, area: &mut [u8], lists: &mut [u8]) -> u32 {
    let Lent { state, addresses, blocks, .. } = lent;
    restore_on_slices([state, area, addresses, blocks, lists])
}

fn question_on_slices(q: &Question, label: &[u8], disk: &[u8], counts: &mut [u8]) -> u32 {
    let Question { b, p, m, d, t, k, .. } = *q;
    // SAFETY: each pointer comes with the length of its own slice.
    unsafe { mindavehu_scores(b, p, m, d, t, label.as_ptr(), label.len(), disk.as_ptr(), disk.len(), k, counts.as_mut_ptr(), counts.len()) }
}

/// The counts of an exam question.
pub fn call_question(q: &mut Question) -> u32 {
    let mut counts = std::mem::take(&mut q.counts);
    let number = question_on_slices(q, &q.label, &q.disk, &mut counts);
    q.counts = counts;
    number
}

const GUARD: usize = 32;

/// Buffers copied to places `shift` bytes (below 32) off, between bytes that must keep their values.
pub(crate) struct Lifted {
    wide: Vec<Vec<u8>>,
    inside: Vec<std::ops::Range<usize>>,
}

impl Lifted {
    pub(crate) fn new<const COUNT: usize>(buffers: &Buffers<COUNT>, shift: usize) -> Lifted {
        let mut lifted = Lifted { wide: Vec::new(), inside: Vec::new() };
        for (k, bytes) in buffers.iter().enumerate() {
            let start = GUARD + (shift + 3 * k) % GUARD;
            let mut wide = vec![0xA5; bytes.len() + 3 * GUARD];
            wide[start..start + bytes.len()].copy_from_slice(bytes);
            lifted.wide.push(wide);
            lifted.inside.push(start..start + bytes.len());
        }
        lifted
    }

    pub(crate) fn slices<const COUNT: usize>(&mut self) -> Buffers<'_, COUNT> {
        let mut slices = self.wide.iter_mut().zip(&self.inside).map(|(wide, inside)| &mut wide[inside.clone()]);
        std::array::from_fn(|_| slices.next().unwrap())
    }

    /// Copies the bytes back, and looks at those around them.
    pub(crate) fn put_back<const COUNT: usize>(self, buffers: Buffers<COUNT>, name: &str) {
        for (k, bytes) in buffers.into_iter().enumerate() {
            let (wide, inside) = (&self.wide[k], self.inside[k].clone());
            let outside = wide[..inside.start].iter().chain(&wide[inside.end..]);
            assert!(outside.into_iter().all(|byte| *byte == 0xA5), "{name} wrote outside buffer {k}");
            bytes.copy_from_slice(&wide[inside]);
        }
    }
}

/// The same as `call` with every buffer lifted.
pub fn call_guarded(call: Call, address: u32, lent: &mut Lent, shift: usize) -> u32 {
    let mut lifted = Lifted::new(&buffers(lent), shift);
    let number = on_slices(call, address, lifted.slices());
    lifted.put_back(buffers(lent), &format!("{call:?}"));
    number
}

/// The same as `call_many` with every buffer lifted. The addresses stay at a multiple of four bytes, between others that the box has not.
pub fn call_many_guarded(lent: &mut Lent, folder: &mut Folder, shift: usize) -> u32 {
    let Lent { state, disk, flash, addresses, blocks, .. } = lent;
    let own: Buffers<7> = [state, disk, flash, addresses, blocks, &mut folder.buffer, &mut folder.answer];
    let mut lifted = Lifted::new(&own, shift);
    let start = 1 + shift % 4;
    let wide = [&vec![u32::MAX; start][..], &folder.asked, &[u32::MAX; 4]].concat();
    let number = many_on_slices(&wide[start..start + folder.asked.len()], lifted.slices());
    lifted.put_back(own, "one call for a folder");
    number
}

/// The same as `call_report` with every buffer lifted.
pub fn call_report_guarded(report: Report, lent: &mut Lent, bytes: &mut [u8], shift: usize) -> u32 {
    let Lent { state, disk, flash, addresses, blocks, .. } = lent;
    let own: Buffers<6> = [state, disk, flash, addresses, blocks, bytes];
    let mut lifted = Lifted::new(&own, shift);
    let number = report_on_slices(report, lifted.slices());
    lifted.put_back(own, &format!("the report {report:?}"));
    number
}

/// The same as `call_save` with every buffer lifted.
pub fn call_save_guarded(lent: &mut Lent, area: &mut [u8], shift: usize) -> u32 {
    let Lent { state, disk, flash, addresses, blocks, answer, .. } = lent;
    let own: Buffers<7> = [state, disk, flash, addresses, blocks, area, answer];
    let mut lifted = Lifted::new(&own, shift);
    let number = save_on_slices(lifted.slices());
    lifted.put_back(own, "a save");
    number
}

/// The same as `call_restore` with every buffer lifted.
pub fn call_restore_guarded(lent: &mut Lent, area: &mut [u8], lists: &mut [u8], shift: usize) -> u32 {
    let Lent { state, addresses, blocks, .. } = lent;
    let own: Buffers<5> = [state, area, addresses, blocks, lists];
    let mut lifted = Lifted::new(&own, shift);
    let number = restore_on_slices(lifted.slices());
    lifted.put_back(own, "a restore");
    number
}

/// The same as `call_question` with every buffer lifted.
pub fn call_question_guarded(q: &mut Question, shift: usize) -> u32 {
    let given = q.clone();
    let own: Buffers<3> = [&mut q.label, &mut q.disk, &mut q.counts];
    let mut lifted = Lifted::new(&own, shift);
    let [label, disk, counts] = lifted.slices();
    let number = question_on_slices(&given, label, disk, counts);
    lifted.put_back(own, "an exam question");
    number
}
