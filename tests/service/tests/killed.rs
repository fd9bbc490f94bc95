//! A program that saves is killed at any time, or ends at the first store to a chosen write of a save. What it leaves in its file: an area from
//! which the saved box is restored, or which is refused with 15; and the disk is the plain disk's, if a byte of the image was written.
//! A killed program leaves every store made so far, so the header may be found half written, which no power cut leaves by document 02; all else must hold then.
use common::Random;
use model::image::{room, writes, HEADER, WRITE};
use model::machines::PlainDisk;
use model::{Call, Lent, ANSWER};
use service::areas::{cold, with_counters};
use service::boxes::pick;
use service::calls::call;
use service::compare::compare_restore;
use service::mapped::{length, map, parts, Parts, CALLING, OLD, SAVED, SAVING, SHAPE};
use service::progress::{count, seed, Progress};
use std::os::unix::process::ExitStatusExt;
use std::path::{Path, PathBuf};
use std::process::{Child, Command};
use std::sync::atomic::Ordering;
use std::time::{Duration, Instant};

const SEGMENTATION_FAULT: i32 = 11;

/// The program, which never outlives the test.
struct Running(Child);

impl Drop for Running {
    fn drop(&mut self) {
        let _ = self.0.kill();
        let _ = self.0.wait();
    }
}

fn saver(random: &mut Random, path: &Path) -> Command {
    let mut command = Command::new(env!("CARGO_BIN_EXE_saver"));
    command.arg(path).arg(random.number().to_string());
    command
}

/// Starts the program on a new file, and kills it some time after a save of it has begun. Gives the file's phase and its bytes.
fn killed(random: &mut Random, path: &Path) -> (u64, Vec<u8>) {
    std::fs::write(path, vec![0; length()]).unwrap();
    let (phase, _) = map(path);
    let mut running = Running(saver(random, path).spawn().unwrap());
    let begun = Instant::now();
    while phase.load(Ordering::SeqCst) != SAVING {
        let ended = running.0.try_wait().unwrap();
        assert!(ended.is_none() && begun.elapsed() < Duration::from_secs(30), "no save has begun: the program is {ended:?}");
        std::thread::yield_now();
    }
    // Mostly within the first save or the next ones, also later.
    let most = pick(random, &[100, 300, 6_000]);
    let wait = Duration::from_micros(random.below(most) as u64);
    let begun = Instant::now();
    while begun.elapsed() < wait {
        std::hint::spin_loop();
    }
    assert!(running.0.try_wait().unwrap().is_none(), "the program has ended by itself");
    drop(running);
    (phase.load(Ordering::SeqCst), std::fs::read(path).unwrap())
}

/// What kills have left.
#[derive(Default)]
struct Met {
    /// Killed between saves, before the first byte of an image, within a body, within a header, with a whole image.
    calling: usize,
    before: usize,
    within: usize,
    torn: usize,
    whole: usize,
    disks: usize,
}

fn all(bytes: &[u8], byte: u8) -> bool {
    bytes.iter().all(|other| *other == byte)
}

/// What the file holds, with the area where it is for this write. Gives how many writes of the body are new.
fn look_at(random: &mut Random, phase: u64, mut file: Vec<u8>, at: usize, met: &mut Met, context: &dyn Fn() -> String) -> usize {
    let Parts { area, disk, flash, plain, state, addresses, blocks } = parts(&mut file, at);
    let [disk, flash, state, addresses, blocks] = [disk, flash, state, addresses, blocks].map(|bytes| bytes.to_vec());
    let saved = Lent { state, disk, flash, addresses, blocks, block: vec![0; SHAPE.b], answer: vec![0; ANSWER], label: vec![0; 64] };
    let plain = PlainDisk::new(plain, SHAPE.b);
    // Of zeros and old bytes there is no image.
    let no_image = area[..HEADER].iter().all(|byte| [0, OLD].contains(byte));
    let mut warm = cold(random, &saved);
    let counters = warm.numbers().counters;
    if phase == CALLING {
        assert!(no_image, "the header between saves, {}", context());
        assert_eq!(compare_restore(&mut warm, area, &mut [], 1, context), 15, "{}", context());
        met.calling += 1;
        return 0;
    }
    let writes = writes(&saved);
    let (body, last) = (&writes[1..writes.len() - 1], writes[writes.len() - 1].1);
    let end = room(SHAPE.m, SHAPE.d);
    let parts: Vec<&[u8]> = area[HEADER..end].chunks(WRITE).collect();
    let new = parts.iter().zip(body).take_while(|(part, (_, bytes))| **part == bytes).count();
    assert!(all(&area[end..], OLD), "bytes behind the image, {}", context());
    let touched = !all(&area[HEADER..], OLD);
    if phase == SAVING {
        assert!(!touched || !area[..HEADER].contains(&OLD), "the header is not cleared before the body, {}", context());
        // Rising: new writes, at most one that is partly new, old ones.
        for (k, part) in parts.iter().enumerate().skip(new) {
            let partly = k == new && part.iter().zip(body[k].1).all(|(byte, new)| *byte == new || *byte == OLD);
            assert!(partly || all(part, OLD), "write {k} of a body whose first {new} writes are new, {}", context());
        }
    }
    if !no_image {
        assert_eq!(new, body.len(), "new writes under a header, phase {phase}, {}", context());
        assert!(area[..HEADER].iter().zip(last).all(|(byte, new)| *byte == 0 || *byte == new), "the header, {}", context());
    }
    if touched || phase == SAVED {
        assert!(plain.is(&saved.disk), "the disk, phase {phase}, {new} new writes, {}", context());
        met.disks += 1;
    }
    let whole = area[..HEADER] == last;
    let number = compare_restore(&mut warm, area, &mut [], 1, context);
    match (whole, no_image) {
        (true, _) => {
            assert_eq!(number, 0, "a whole image, {}", context());
            assert_eq!(warm.difference(&with_counters(&saved, counters)), None, "the restored box, {}", context());
            read_some(random, with_counters(&warm, [0; 4]), &plain, context);
            met.whole += 1;
        }
        (false, true) => {
            assert_eq!(number, 15, "no image, {}", context());
            if touched {
                let mut anew = saved.clone();
                assert_eq!(call(Call::Open, 0, &mut anew), 0);
                read_some(random, anew, &plain, context);
            }
            met.within += (touched && phase == SAVING) as usize;
            met.before += !(touched && phase == SAVING) as usize;
        }
        (false, false) => met.torn += 1,
    }
    new
}

/// Reads by the box are the plain disk's.
fn read_some(random: &mut Random, mut lent: Lent, plain: &PlainDisk, context: &dyn Fn() -> String) {
    for _ in 0..40 {
        let address = random.below(SHAPE.p) as u32;
        assert_eq!(call(Call::Read, address, &mut lent), 0, "{}", context());
        assert!(lent.block == plain.block(address), "address {address} after the restart, {}", context());
    }
}

fn place(name: &str) -> PathBuf {
    PathBuf::from(env!("CARGO_TARGET_TMPDIR")).join(format!("{name}-{}", std::process::id()))
}

/// Ended at the first store to a write or to what is behind it: the flush is done, the header is cleared, the writes before that one are new and no other is.
#[test]
fn a_program_that_ends_at_a_write() {
    let (seed, path) = (seed(922), place("ended"));
    let mut random = Random(seed);
    let last = room(SHAPE.m, SHAPE.d) / WRITE - 1;
    let chosen: Vec<usize> = [0, 1, 2, 3, last - 1, last].into_iter().chain((0..24).map(|_| random.below(last + 1))).collect();
    for at in &chosen {
        let context = || format!("write {at} of {last}, seed {seed}");
        std::fs::write(&path, vec![0; length()]).unwrap();
        let ended = saver(&mut random, &path).arg(at.to_string()).status().unwrap();
        assert_eq!(ended.signal(), Some(SEGMENTATION_FAULT), "{ended}, {}", context());
        let mut file = std::fs::read(&path).unwrap();
        let phase = u64::from_le_bytes(file[..8].try_into().unwrap());
        assert_eq!(phase, SAVING, "{}", context());
        let Parts { area, disk, plain, .. } = parts(&mut file, *at);
        assert!(disk == plain, "the flush is not done, {}", context());
        assert!(all(&area[..HEADER], if *at == 0 { OLD } else { 0 }), "the header, {}", context());
        assert!(all(&area[(at * WRITE).max(HEADER)..], OLD), "what is behind, {}", context());
        let new = look_at(&mut random, phase, file, *at, &mut Met::default(), &context);
        assert_eq!(new, at.saturating_sub(1), "new writes of the body, {}", context());
    }
    std::fs::remove_file(&path).unwrap();
    println!("{} saves that end at a write of their {}: all writes before it are new, none behind it (seed {seed})", chosen.len(), last + 2);
}

#[test]
fn a_program_that_saves() {
    let (seed, total) = (seed(921), count(150).max(100));
    let mut random = Random(seed);
    let mut met = Met::default();
    let mut progress = Progress::new("kills", total);
    let path = place("killed");
    for kill in 0..total {
        let (phase, file) = killed(&mut random, &path);
        look_at(&mut random, phase, file, 0, &mut met, &|| format!("kill {kill}, phase {phase}, seed {seed}"));
        progress.at(kill);
    }
    std::fs::remove_file(&path).unwrap();
    let Met { calling, before, within, torn, whole, disks } = met;
    println!(
        "{total} kills of a program that saves (seed {seed}, {:.1} s): {whole} leave the saved box, {within} a part of it that is refused with 15,",
        progress.seconds()
    );
    println!("  {torn} a part of a header, {before} nothing of an image, {calling} were between saves; {disks} disks are the plain disk's");
    assert_eq!(calling + before + within + torn + whole, total);
}
