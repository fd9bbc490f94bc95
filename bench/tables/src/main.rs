//! Times the proved tables beside straightforward C by two compilers in one run, interleaved: the best of each as ratios, how the time grows
//! when the tables double, and the stack that the checks need.
use std::ffi::c_void;
use std::time::Instant;

type P = *const u8;
type M = *mut u8;

/// Declares a function of the proved library and its two C peers.
macro_rules! peers {
    ($(($proved:ident, $clang:ident, $gcc:ident) $arguments:tt $(-> $result:ty)?;)*) => {
        extern "C" { $(
            fn $proved $arguments $(-> $result)?;
            fn $clang $arguments $(-> $result)?;
            fn $gcc $arguments $(-> $result)?;
        )* }
    };
}

peers! {
    (tables_probe_addresses_unsound, c_six_clang, c_six_gcc)(t: P, length: usize, m: usize, n: usize, p: usize) -> bool;
    (tables_probe_blocks_unsound, c_seven_clang, c_seven_gcc)(t: P, length: usize, d: usize) -> bool;
    (tables_probe_refused, c_refused_clang, c_refused_gcc)(a: P, alength: usize, m: usize, n: usize, p: usize, b: P, blength: usize, d: usize) -> u32;
    (tables_probe_some_uncached, c_some_uncached_clang, c_some_uncached_gcc)
        (a: P, alength: usize, m: usize, n: usize, p: usize, b: P, blength: usize, d: usize) -> usize;
    (tables_probe_oldest_unknown, c_oldest_unknown_clang, c_oldest_unknown_gcc)
        (a: P, alength: usize, m: usize, n: usize, p: usize, b: P, blength: usize, d: usize) -> usize;
    (tables_probe_find_address, c_find_address_clang, c_find_address_gcc)(t: P, length: usize, n: usize, a: u32) -> usize;
    (tables_probe_find_fingerprint, c_find_fingerprint_clang, c_find_fingerprint_gcc)(t: P, length: usize, n: usize, g: P, glength: usize) -> usize;
    (tables_probe_find_cached, c_find_cached_clang, c_find_cached_gcc)(t: P, length: usize, d: usize, g: P, glength: usize) -> usize;
    (tables_probe_remove_row, c_remove_row_clang, c_remove_row_gcc)(t: M, length: usize, n: usize, i: usize);
    (tables_probe_push_address, c_push_address_clang, c_push_address_gcc)
        (t: M, length: usize, n: usize, a: u32, g: P, glength: usize, dirty: u8, seat: u16);
    (tables_probe_set_clean, c_set_clean_clang, c_set_clean_gcc)(t: M, length: usize, n: usize, i: usize);
    (tables_probe_to_newest, c_to_newest_clang, c_to_newest_gcc)(t: M, length: usize, d: usize, i: usize);
    (tables_probe_to_front, c_to_front_clang, c_to_front_gcc)(t: M, length: usize, d: usize, i: usize);
    (tables_probe_put_block, c_put_block_clang, c_put_block_gcc)(t: M, length: usize, d: usize, i: usize, g: P, glength: usize);
}

extern "C" {
    fn stack_touched(call: extern "C" fn(*mut c_void) -> *mut c_void, argument: *mut c_void) -> usize;
}

/// Two tables, and a fingerprint that no row has.
#[derive(Clone, PartialEq)]
struct State {
    m: usize,
    d: usize,
    a: Vec<u8>,
    b: Vec<u8>,
    g: [u8; 32],
}

/// Full tables: m rows held, each with the fingerprint of a block row, and d rows used. One in eight is dirty, the last among them. With
/// `one_bucket` all fingerprints share their first two bytes.
fn tables(m: usize, d: usize, one_bucket: bool) -> State {
    let mut seed = 7u64;
    let mut byte = || {
        seed = seed.wrapping_mul(6364136223846793005).wrapping_add(1442695040888963407);
        (seed >> 33) as u8
    };
    let mut print = || -> [u8; 32] {
        let mut g: [u8; 32] = std::array::from_fn(|_| byte());
        if one_bucket {
            g[0] = 1;
            g[1] = 2;
        }
        g
    };
    let prints: Vec<[u8; 32]> = (0..d).map(|_| print()).collect();
    let g = print();
    let mut a = Vec::new();
    for i in 0..m {
        a.extend_from_slice(&((i * 37 % 65_536) as u32).to_le_bytes());
        a.extend_from_slice(&prints[i * 5 % d]);
        a.extend_from_slice(&[(i % 8 == 7) as u8, i as u8, (i >> 8) as u8, 0]);
    }
    let mut b = Vec::new();
    for (i, print) in prints.iter().enumerate() {
        b.extend_from_slice(print);
        b.extend_from_slice(&((i * 7 % d) as u32).to_le_bytes());
        b.extend_from_slice(&[1, 0, 0, 0]);
    }
    State { m, d, a, b, g }
}

type Operation = fn(&mut State) -> u64;

/// An operation by the proved code and by both C codes.
macro_rules! operation {
    ($name:expr, [$($code:ident),*], |$s:ident, $f:ident| $body:expr) => {
        ($name, [$({
            fn run($s: &mut State) -> u64 {
                let $f = $code;
                unsafe { $body as u64 }
            }
            run as Operation
        }),*])
    };
}

/// The body of an operation that has no result.
macro_rules! no_result {
    ($call:expr) => {{
        $call;
        0
    }};
}

const PEERS: usize = 3;

const OPERATIONS: [(&str, [Operation; PEERS]); 14] = [
    operation!("check for 6", [tables_probe_addresses_unsound, c_six_clang, c_six_gcc], |s, f| f(s.a.as_ptr(), s.a.len(), s.m, s.m, 65_536)),
    operation!("check for 7", [tables_probe_blocks_unsound, c_seven_clang, c_seven_gcc], |s, f| f(s.b.as_ptr(), s.b.len(), s.d)),
    operation!("checks for 6, 7 and 8", [tables_probe_refused, c_refused_clang, c_refused_gcc],
        |s, f| f(s.a.as_ptr(), s.a.len(), s.m, s.m, 65_536, s.b.as_ptr(), s.b.len(), s.d)),
    operation!("the checks, then: a row without its block", [tables_probe_some_uncached, c_some_uncached_clang, c_some_uncached_gcc],
        |s, f| f(s.a.as_ptr(), s.a.len(), s.m, s.m, 65_536, s.b.as_ptr(), s.b.len(), s.d)),
    operation!("the checks, then: a block without an address", [tables_probe_oldest_unknown, c_oldest_unknown_clang, c_oldest_unknown_gcc],
        |s, f| f(s.a.as_ptr(), s.a.len(), s.m, s.m, 65_536, s.b.as_ptr(), s.b.len(), s.d)),
    operation!("find an address, the last", [tables_probe_find_address, c_find_address_clang, c_find_address_gcc],
        |s, f| f(s.a.as_ptr(), s.a.len(), s.m, ((s.m - 1) * 37 % 65_536) as u32)),
    operation!("find a fingerprint, none", [tables_probe_find_fingerprint, c_find_fingerprint_clang, c_find_fingerprint_gcc],
        |s, f| f(s.a.as_ptr(), s.a.len(), s.m, s.g.as_ptr(), 32)),
    operation!("find a cached fingerprint, none", [tables_probe_find_cached, c_find_cached_clang, c_find_cached_gcc],
        |s, f| f(s.b.as_ptr(), s.b.len(), s.d, s.g.as_ptr(), 32)),
    operation!("take out the oldest row", [tables_probe_remove_row, c_remove_row_clang, c_remove_row_gcc],
        |s, f| no_result!(f(s.a.as_mut_ptr(), s.a.len(), s.m, 0))),
    operation!("add a newest row", [tables_probe_push_address, c_push_address_clang, c_push_address_gcc],
        |s, f| no_result!(f(s.a.as_mut_ptr(), s.a.len(), s.m - 1, 77, s.g.as_ptr(), 32, 1, 0x0102))),
    operation!("make a row clean", [tables_probe_set_clean, c_set_clean_clang, c_set_clean_gcc],
        |s, f| no_result!(f(s.a.as_mut_ptr(), s.a.len(), s.m, s.m / 2))),
    operation!("oldest block row to newest", [tables_probe_to_newest, c_to_newest_clang, c_to_newest_gcc],
        |s, f| no_result!(f(s.b.as_mut_ptr(), s.b.len(), s.d, 0))),
    operation!("newest block row freed, to the front", [tables_probe_to_front, c_to_front_clang, c_to_front_gcc],
        |s, f| no_result!(f(s.b.as_mut_ptr(), s.b.len(), s.d, s.d - 1))),
    operation!("oldest block row filled as newest", [tables_probe_put_block, c_put_block_clang, c_put_block_gcc],
        |s, f| no_result!(f(s.b.as_mut_ptr(), s.b.len(), s.d, 0, s.g.as_ptr(), 32))),
];

/// The operations that go into README's table: those that C does in the same way.
const SEARCHES: [&str; 3] = ["find an address, the last", LINEAR, "find a cached fingerprint, none"];
const LINEAR: &str = "find a fingerprint, none";
const ONE_BUCKET: &str = "checks for 6, 7 and 8, all in one bucket";
const SIZES: [(usize, usize); 2] = [(1_024, 256), (512, 128)];
const RUNS: usize = 101;
/// The most that the proved code's time may grow with the tables, over the growth of C's: the larger of both compilers'.
const MOST_OF_GROWTH: f64 = 1.2;

/// The value, through memory that the compiler may not look through.
fn hidden<T: Copy>(value: T) -> T {
    // SAFETY: the reference is to a live value that can be copied.
    unsafe { std::ptr::read_volatile(&value) }
}

/// Nanoseconds of one call, over `turns` calls.
fn time(operation: Operation, state: &mut State, turns: usize) -> f64 {
    let start = Instant::now();
    for _ in 0..turns {
        hidden(hidden(operation)(state));
    }
    start.elapsed().as_nanos() as f64 / turns as f64
}

/// The best time of each code at an operation, for each size on tables of its own; codes and sizes take turns, so that a change of the
/// machine's speed meets all of them.
fn best(codes: &[Operation; PEERS], sizes: &[State; 2]) -> [[f64; PEERS]; 2] {
    let mut states: Vec<[State; PEERS]> = sizes.iter().map(|tables| codes.map(|_| tables.clone())).collect();
    let mut turns = [[1; PEERS]; 2];
    let mut best = [[f64::INFINITY; PEERS]; 2];
    for run in 0..=RUNS {
        for size in 0..2 {
            for code in 0..PEERS {
                let state = &mut states[size][code];
                if run == 0 {
                    turns[size][code] = (50_000.0 / time(codes[code], state, 3)).max(1.0) as usize;
                } else {
                    best[size][code] = best[size][code].min(time(codes[code], state, turns[size][code]));
                }
            }
        }
    }
    best
}

/// An operation and its best times: at full size and at half, by each code.
struct Measured {
    name: &'static str,
    times: [[f64; PEERS]; 2],
}

impl Measured {
    fn growth(&self, code: usize) -> f64 {
        self.times[0][code] / self.times[1][code]
    }
}

fn named<'a>(rows: &'a [Measured], name: &str) -> &'a Measured {
    rows.iter().find(|row| row.name == name).unwrap_or_else(|| panic!("no operation is named {name}"))
}

/// The growth of C's time at an operation, by the compiler whose code grows more.
fn growth_of_c(rows: &[Measured], name: &str) -> f64 {
    let row = named(rows, name);
    row.growth(1).max(row.growth(2))
}

/// All codes answer the same and leave the same bytes.
fn agree(tables: &State) {
    for (name, codes) in OPERATIONS {
        let mut first = tables.clone();
        let answer = codes[0](&mut first);
        for code in &codes[1..] {
            let mut state = tables.clone();
            assert_eq!(code(&mut state), answer, "{name}");
            assert!(state == first, "{name}: other bytes");
        }
    }
}

extern "C" fn nothing(_: *mut c_void) -> *mut c_void {
    std::ptr::null_mut()
}

/// The deepest calls of the crate: the three checks, and after them the block rows that no held row has.
extern "C" fn deepest(state: *mut c_void) -> *mut c_void {
    // SAFETY: `stack` gives a State that lives until the thread has ended.
    let state = unsafe { &mut *(state as *mut State) };
    OPERATIONS[2].1[0](state);
    OPERATIONS[4].1[0](state);
    std::ptr::null_mut()
}

fn stack() {
    let mut state = tables(1_024, 256, false);
    // SAFETY: both functions take any pointer, and the state outlives the thread.
    let (empty, full) = unsafe { (stack_touched(nothing, std::ptr::null_mut()), stack_touched(deepest, &mut state as *mut State as *mut c_void)) };
    assert!(0 < empty && empty < full, "no thread could be painted: {empty}, {full}");
    println!("\nStack of the deepest call (the checks, then the oldest block without an address, with the probe's own array of 2,048 bytes): \
             {} bytes.", full - empty);
}

fn main() {
    let sizes = SIZES.map(|(m, d)| tables(m, d, false));
    let one_bucket = SIZES.map(|(m, d)| tables(m, d, true));
    sizes.iter().chain(&one_bucket).for_each(agree);
    println!("Best of {RUNS} interleaved runs. Tables full: m = 1,024 and d = 256, and half of each.\n");
    println!("{:46}{:>18}{:>18}{:>18}{:>36}", "", "proved, ns", "C clang / proved", "C gcc / proved", "growth");
    println!("{:46}{:>9}{:>9}{:>9}{:>9}{:>9}{:>9}{:>9}{:>9}{:>9}{:>9}", "", "full", "half", "full", "half", "full", "half", "proved", "clang",
             "gcc", "at most");
    let lines = OPERATIONS.iter().map(|(name, codes)| (*name, codes, &sizes)).chain([(ONE_BUCKET, &OPERATIONS[2].1, &one_bucket)]);
    let rows: Vec<Measured> = lines.map(|(name, codes, tables)| Measured { name, times: best(codes, tables) }).collect();
    let linear = growth_of_c(&rows, LINEAR);
    let mut kept = true;
    for row in &rows {
        let [full, half] = row.times;
        // C compares pairs of rows in the checks, which grows with the square of the rows: a search through all rows is their measure.
        let allowed = MOST_OF_GROWTH * if row.name.contains("check") { linear } else { growth_of_c(&rows, row.name) };
        let bound = match row.growth(0) <= allowed {
            _ if row.name == ONE_BUCKET => "",
            true => "met",
            false => "MISSED",
        };
        kept &= bound != "MISSED";
        let [clang, gcc] = [1, 2].map(|peer| [full[peer] / full[0], half[peer] / half[0]]);
        print!("{:46}{:>9.0}{:>9.0}{:>9.2}{:>9.2}{:>9.2}{:>9.2}", row.name, full[0], half[0], clang[0], clang[1], gcc[0], gcc[1]);
        println!("{:>9.2}{:>9.2}{:>9.2}{allowed:>9.2} {bound}", row.growth(0), row.growth(1), row.growth(2));
    }
    println!("\nGrowth is the time at full size over that at half. At most: {MOST_OF_GROWTH} times that of C, by the compiler whose code grows more; \
             for the checks, where C");
    println!("compares pairs of rows, that of C's search through all rows. All in one bucket is without a bound here: \
             bench/service bounds a call's time then.");
    println!("Above 1 in the columns of C / proved: the proved code is faster. The probe's own tests of its arguments are in its time.");
    stack();
    println!("\nNanoseconds of a search, m = 1,024 and d = 256, and how many times as fast the proved code is:\n");
    println!("| a search, nanoseconds | proved | C, clang -O3 | C, gcc -O3 |\n|---|---:|---:|---:|");
    for row in SEARCHES.map(|name| named(&rows, name)) {
        let [proved, clang, gcc] = row.times[0];
        println!("| {} | {proved:.0} | {clang:.0} ({:.2}) | {gcc:.0} ({:.2}) |", row.name, clang / proved, gcc / proved);
    }
    if !kept {
        std::process::exit(1);
    }
}
