//! Random D-ARC boxes in bytes: fresh ones, sound ones that no list of calls need reach, and each way of breaking one.
use crate::boxes::{self, bytes, pick, Contents, Damage, Shape, DAMAGES};
use common::Random;
use model::arc::{ArcLent, ArcNumbers, Lists, B2, B3, T1, T2, WORD};
use model::{read_tables, Call, Fingerprint, Lent, Numbers, MOST_D, MOST_M, REPORT_CHECKS};
use std::collections::HashSet;

#[derive(Clone, Copy, Debug)]
pub struct ArcShape {
    pub b: usize,
    pub p: usize,
    pub c: usize,
    pub x: usize,
}

impl ArcShape {
    /// Random numbers up to those of `most`, its block size kept.
    pub fn below(random: &mut Random, most: ArcShape) -> ArcShape {
        ArcShape { b: most.b, p: 1 + random.below(most.p), c: 1 + random.below(most.c), x: random.below(most.x + 1) }
    }

    pub fn m(&self) -> usize {
        2 * self.c + self.x
    }

    /// The numbers of its tables.
    pub fn tables(&self) -> Shape {
        Shape { b: self.b, p: self.p, m: self.m(), d: self.c }
    }
}

/// Numbers of a small box, with blocks of 64 bytes more often than not.
pub fn small(random: &mut Random) -> ArcShape {
    let b = pick(random, &[64, 64, 64, 64, 128, 256]);
    ArcShape::below(random, ArcShape { b, p: 12, c: 4, x: 3 })
}

/// A box of these tables and lists.
fn with_lists(mut base: Lent, numbers: ArcNumbers, lists: Vec<u8>) -> ArcLent {
    base.state = numbers.to_bytes();
    ArcLent { base, lists }
}

/// A box to be opened under any label, with any limit: disk blocks from the pool, any bytes in flash, tables and lists; any other numbers before it.
pub fn unopened(random: &mut Random, shape: ArcShape, contents: &Contents) -> ArcLent {
    let base = boxes::unopened(random, shape.tables(), contents);
    let mut numbers = ArcNumbers::of(base.numbers(), &Lists::default());
    (numbers.adaptive, numbers.sizes) = (random.number(), std::array::from_fn(|_| random.number()));
    with_lists(base, numbers, bytes(random, shape.m() * WORD))
}

/// A sound box, reachable or not: tables as those of `boxes::sound`, and any sound lists and p over them.
pub fn sound(random: &mut Random, shape: ArcShape) -> ArcLent {
    sound_at(random, shape, None)
}

/// The same. With a place, most of its fingerprints differ in that byte alone.
pub fn sound_at(random: &mut Random, shape: ArcShape, place: Option<usize>) -> ArcLent {
    let base = boxes::sound_at(random, shape.tables(), place);
    let (rows, blocks) = read_tables(&base);
    let cached: HashSet<Fingerprint> = blocks.iter().filter(|row| row.used == 1).map(|row| row.fingerprint).collect();
    let held: Vec<(u32, bool)> = rows[..base.numbers().n as usize].iter().map(|row| (row.address, cached.contains(&row.fingerprint))).collect();
    let lists = Lists::any(&held, shape.c, shape.x, |end| random.below(end));
    let numbers = ArcNumbers::of(base.numbers(), &lists);
    with_lists(base, numbers, lists.to_bytes(shape.m()))
}

/// The ways of breaking a call's input: those of a D-LRU box, but for m and d, and those of C, X and the lists.
#[derive(Clone, Copy, Debug, PartialEq, Eq)]
pub enum ArcDamage {
    Base(Damage),
    C,
    X,
    ListsLength,
    /// Sizes whose sum is right in numbers of 32 or 64 bits alone.
    SizesTooLarge,
    NotNamed,
    NamedTwice,
    NamesUnheld,
    /// T1, T2 and B3 hold more than C + X; B1 and B2 more than C.
    TopsTooMany,
    GhostsTooMany,
    AfterLists,
    AdaptiveTooLarge,
    /// An address of T1 or T2 is without its block.
    TopUncached,
}

/// With the number of each, in the order of the checks. Several are applied from the last to the first.
pub fn damages() -> Vec<(ArcDamage, u32)> {
    let lists = [
        ArcDamage::SizesTooLarge,
        ArcDamage::AdaptiveTooLarge,
        ArcDamage::AfterLists,
        ArcDamage::TopsTooMany,
        ArcDamage::GhostsTooMany,
        ArcDamage::NamesUnheld,
        ArcDamage::NamedTwice,
        ArcDamage::NotNamed,
    ];
    let mut all = Vec::new();
    for (kind, number) in DAMAGES.into_iter().filter(|(kind, _)| ![Damage::M, Damage::D].contains(kind)) {
        all.push((ArcDamage::Base(kind), if number == 1 { 11 } else { number }));
        match kind {
            Damage::P => all.extend([(ArcDamage::C, 11), (ArcDamage::X, 11)]),
            Damage::LabelLength => all.push((ArcDamage::ListsLength, 2)),
            Damage::SeatBehind => all.extend(lists.map(|kind| (kind, 6))),
            Damage::DirtyUncached => all.push((ArcDamage::TopUncached, 8)),
            _ => {}
        }
    }
    all
}

/// The number that a call must give on a sound box with these damages, 0 where it does not ask for any of them.
pub fn number_of(call: Call, given: &[ArcDamage]) -> u32 {
    first_number(call.checks(), given, |damage| match damage {
        Damage::BlockLength => call.takes_block(),
        Damage::LabelLength => call == Call::Open,
        Damage::Address => call.takes_address(),
        _ => true,
    })
}

/// The same of a report, which has no block, no label and no address.
pub fn number_of_report(given: &[ArcDamage]) -> u32 {
    first_number(&REPORT_CHECKS, given, |damage| ![Damage::BlockLength, Damage::LabelLength, Damage::Address].contains(&damage))
}

/// The first of these checks, with 11 in place of 1, that one of the damages fails, of those that are asked for.
fn first_number(checks: &[u32], given: &[ArcDamage], asked: impl Fn(Damage) -> bool) -> u32 {
    let applies = |kind: &ArcDamage| given.contains(kind) && if let ArcDamage::Base(damage) = kind { asked(*damage) } else { true };
    let numbers: Vec<u32> = damages().into_iter().filter(|(kind, _)| applies(kind)).map(|(_, number)| number).collect();
    checks.iter().map(|number| if *number == 1 { 11 } else { *number }).find(|number| numbers.contains(number)).unwrap_or(0)
}

/// Changes a box by a function for D-LRU boxes of the same tables.
fn on_tables<T>(lent: &mut ArcLent, change: impl FnOnce(&mut Lent) -> T) -> T {
    let before = lent.numbers();
    let ArcNumbers { b, p, c, n, counters, label, t, .. } = before;
    lent.base.state = Numbers { b, p, m: before.m() as u64, d: c, n, counters, label, t }.to_bytes();
    let result = change(&mut lent.base);
    let Numbers { b, p, n, counters, label, t, .. } = lent.base.numbers();
    lent.base.state = ArcNumbers { b, p, n, counters, label, t, ..before }.to_bytes();
    result
}

fn set(lent: &mut ArcLent, change: impl FnOnce(&mut ArcNumbers)) {
    let mut numbers = lent.numbers();
    change(&mut numbers);
    lent.base.state = numbers.to_bytes();
}

/// Makes the buffers of a broken C or X as long as the numbers ask, where that is not much memory.
fn fit(random: &mut Random, lent: &mut ArcLent) {
    let numbers = lent.numbers();
    if random.below(2) == 0 || numbers.m() > 3_000 {
        return;
    }
    let [b, c, m] = [numbers.b as usize, numbers.c as usize, numbers.m() as usize];
    lent.base.flash.resize(c * b, 0);
    lent.base.addresses.resize(m * model::ROW, 0);
    lent.base.blocks.resize(c * model::ROW, 0);
    lent.lists.resize(m * WORD, 0);
}

fn damage_numbers(random: &mut Random, lent: &mut ArcLent, kind: ArcDamage) {
    let ArcNumbers { c, x, sizes, .. } = lent.numbers();
    let few = random.below(3) as u64;
    match kind {
        ArcDamage::C => {
            let most = MOST_D as u64;
            let other = pick(random, &[0, most + 1, most + 1 + few, 512, 1 << 32, (1 << 32) + c, (1 << 63) + c, u64::MAX]);
            set(lent, |numbers| numbers.c = other);
        }
        ArcDamage::X => {
            let most = MOST_M as u64 - 2 * c;
            // The last is one for which 2 × C + X is a good number in 64 bits.
            let wraps = u64::MAX - random.below(2 * c as usize) as u64;
            let other = pick(random, &[most + 1, most + 1 + few, 1_025, (1 << 32) + x, 1 << 63, wraps, wraps]);
            set(lent, |numbers| numbers.x = other);
        }
        ArcDamage::AdaptiveTooLarge => {
            let other = pick(random, &[c + 1, c + 1, c + 1 + few, 1 << 32, (1 << 32) + few, 1 << 63, u64::MAX]);
            set(lent, |numbers| numbers.adaptive = other);
        }
        _ => {
            let (one, two) = (random.below(5), random.below(4));
            let mut other = sizes;
            match random.below(3) {
                0 => other[one] = other[one].wrapping_add(1 << 32),
                1 => {
                    other[one] = other[one].wrapping_add(1 << 63);
                    other[(one + 1 + two) % 5] = other[(one + 1 + two) % 5].wrapping_add(1 << 63);
                }
                _ => {
                    let more = 1 + random.below(5) as u64;
                    other[one] = other[one].wrapping_sub(sizes[one] + more);
                    other[(one + 1 + two) % 5] += sizes[one] + more;
                }
            }
            set(lent, |numbers| numbers.sizes = other);
        }
    }
}

/// All addresses that the lists name, and their sizes.
fn named(lent: &ArcLent) -> (Vec<u32>, [u64; 5]) {
    let sizes = lent.numbers().sizes;
    (lent.words()[..sizes.iter().sum::<u64>() as usize].to_vec(), sizes)
}

fn set_names(lent: &mut ArcLent, names: &[u32]) {
    let length = lent.lists.len();
    lent.lists = names.iter().flat_map(|name| name.to_le_bytes()).collect();
    lent.lists.resize(length, 0);
}

/// Sizes of lists that hold so many addresses in B1 and B2, and so many in the others.
fn split(random: &mut Random, tops: usize, ghosts: usize) -> [u64; 5] {
    let (t1, b1) = (random.below(tops + 1), random.below(ghosts + 1));
    let t2 = random.below(tops - t1 + 1);
    [t1, t2, b1, ghosts - b1, tops - t1 - t2].map(|size| size as u64)
}

/// Takes an address out of a list that has any.
fn unname(random: &mut Random, names: &mut Vec<u32>, sizes: &mut [u64; 5]) {
    let list = pick(random, &(0..5).filter(|list| sizes[*list] > 0).collect::<Vec<_>>());
    let start = sizes[..list].iter().sum::<u64>() as usize;
    names.remove(start + random.below(sizes[list] as usize));
    sizes[list] -= 1;
}

/// Names an address a second time, in place of another one or behind them all.
fn name_twice(random: &mut Random, names: &mut Vec<u32>, sizes: &mut [u64; 5]) {
    let (one, count) = (random.below(names.len()), names.len());
    if count > 1 && random.below(2) == 0 {
        names[(one + 1 + random.below(count - 1)) % count] = names[one];
    } else {
        names.push(names[one]);
        sizes[if sizes[B3] == 0 { B2 } else { B3 }] += 1;
    }
}

fn damage_names(random: &mut Random, lent: &mut ArcLent, kind: ArcDamage) -> bool {
    let (mut names, mut sizes) = named(lent);
    let (count, words) = (names.len(), lent.words().len());
    let ArcNumbers { p, c, x, n, .. } = lent.numbers();
    let [c, x] = [c, x].map(|number| number as usize);
    match kind {
        ArcDamage::NotNamed if count > 0 => unname(random, &mut names, &mut sizes),
        ArcDamage::NamedTwice if count > 0 && count < words => name_twice(random, &mut names, &mut sizes),
        ArcDamage::NamesUnheld if count > 0 => {
            let held: Vec<u32> = read_tables(&lent.base).0[..n as usize].iter().map(|row| row.address).collect();
            let outside = pick(random, &[p as u32, u32::MAX, 1 << 31, p as u32 + 256]);
            let inside: Vec<u32> = (0..p as u32).filter(|address| !held.contains(address)).collect();
            let other = if inside.is_empty() || random.below(2) == 0 { outside } else { pick(random, &inside) };
            names[random.below(count)] = other;
        }
        ArcDamage::TopsTooMany if count > c + x => {
            let ghosts = random.below(count - c - x);
            sizes = split(random, count - ghosts, ghosts);
        }
        ArcDamage::GhostsTooMany if count > c => {
            let ghosts = c + 1 + random.below(count - c);
            sizes = split(random, count - ghosts, ghosts);
        }
        _ => return false,
    }
    set_names(lent, &names);
    set(lent, |numbers| numbers.sizes = sizes);
    true
}

/// An address of T1 or T2 gets the place of one without its block, or its row another fingerprint.
fn uncover(random: &mut Random, lent: &mut ArcLent) -> bool {
    let (mut names, sizes) = named(lent);
    let tops = (sizes[T1] + sizes[T2]) as usize;
    if tops == 0 {
        return false;
    }
    let place = random.below(tops);
    let (rows, blocks) = read_tables(&lent.base);
    let cached: HashSet<Fingerprint> = blocks.iter().filter(|row| row.used == 1).map(|row| row.fingerprint).collect();
    let row = |name: u32| rows.iter().position(|row| row.address == name).unwrap();
    let without: Vec<usize> = (0..names.len()).filter(|k| !cached.contains(&rows[row(names[*k])].fingerprint)).collect();
    if !without.is_empty() && random.below(2) == 0 {
        names.swap(place, pick(random, &without));
        set_names(lent, &names);
        return true;
    }
    let at = row(names[place]);
    let mut other = rows[at].fingerprint;
    other[pick(random, &[0, 8, 31])] ^= 1 << random.below(8);
    lent.base.addresses[at * model::ROW + 4..at * model::ROW + 36].copy_from_slice(&other);
    !cached.contains(&other)
}

/// Breaks a sound box in one way, or its address. Answers false where the box cannot be broken so.
pub fn damage(random: &mut Random, lent: &mut ArcLent, address: &mut u32, kind: ArcDamage) -> bool {
    match kind {
        ArcDamage::Base(kind) => on_tables(lent, |base| boxes::damage(random, base, address, kind)),
        ArcDamage::C | ArcDamage::X => {
            damage_numbers(random, lent, kind);
            fit(random, lent);
            true
        }
        ArcDamage::SizesTooLarge | ArcDamage::AdaptiveTooLarge => {
            damage_numbers(random, lent, kind);
            true
        }
        ArcDamage::ListsLength => {
            let length = lent.lists.len();
            lent.lists.resize(pick(random, &[0, length - 1, length - WORD, length + 1, length + WORD, 2 * length]), 0);
            true
        }
        ArcDamage::AfterLists => {
            let used = named(lent).0.len() * WORD;
            let free = lent.lists.len() - used;
            if free > 0 {
                lent.lists[used + random.below(free)] = 1 + random.below(255) as u8;
            }
            free > 0
        }
        ArcDamage::TopUncached => uncover(random, lent),
        _ => damage_names(random, lent, kind),
    }
}

/// A sound box with these damages, made of as many boxes as it takes; the address is of the box unless the damage is there.
pub fn damaged(random: &mut Random, given: &[ArcDamage], shape: fn(&mut Random) -> ArcShape) -> (ArcLent, u32) {
    let mut in_order: Vec<ArcDamage> = damages().into_iter().map(|(kind, _)| kind).filter(|kind| given.contains(kind)).collect();
    // From the last check to the first.
    in_order.reverse();
    for _ in 0..2_000 {
        let shape = shape(random);
        let mut lent = sound(random, shape);
        let mut address = random.below(shape.p) as u32;
        if in_order.iter().all(|kind| damage(random, &mut lent, &mut address, *kind)) {
            return (lent, address);
        }
    }
    panic!("no box can be broken by {given:?}");
}
