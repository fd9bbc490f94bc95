//! Times the proved service beside unproved Rust engines in one run, interleaved, on copies of the same boxes: the best of each call, as ratios to the
//! peer `maps`; whether the bounds are kept; and the rows of README's table, in Markdown.
#[cfg(feature = "double")]
mod arc;
mod boxes;
mod many;
mod measure;
mod scores;
// With `double` nothing calls it, so that nothing of it is linked.
#[cfg_attr(feature = "double", allow(dead_code))]
mod service;

use boxes::{at_limit, crafted, empty, full, half_full, one_bucket, Held, Shape, Start, LARGE};
use measure::{best, speed, Row, Times, BACK, ENGINES, FLUSH, HIT, LOOK, MISS, MIXED, SCENARIOS};

/// The scenarios that are columns of the table.
const COLUMNS: usize = 5;

/// What was measured on some boxes that took turns.
struct Group {
    boxes: Vec<Start>,
    rows: Vec<Row>,
}

impl Group {
    /// Measures the columns on all boxes and the other scenarios on the first `detailed`, and prints a table for each box.
    fn measured(boxes: Vec<Start>, detailed: usize) -> Group {
        let all: Vec<&Start> = boxes.iter().collect();
        let rows: Vec<Row> = (0..SCENARIOS.len()).map(|scenario| best(scenario, if scenario < COLUMNS { &all } else { &all[..detailed] })).collect();
        let group = Group { boxes, rows };
        (0..group.boxes.len()).for_each(|place| group.print(place));
        group
    }

    fn times(&self, scenario: usize, place: usize) -> Option<Times> {
        *self.rows[scenario].times.get(place)?
    }

    fn at(&self, scenario: usize, place: usize) -> Times {
        self.times(scenario, place).unwrap_or_else(|| panic!("{}: {} was not measured", self.boxes[place].name, SCENARIOS[scenario]))
    }

    fn print(&self, place: usize) {
        let start = &self.boxes[place];
        println!("\n{}. P = {}; {} held addresses have their block, {} have not.", start.name, start.shape.p, start.with_block.len(),
                 start.without_block.len());
        println!("{:20}{:>48}   {:>36}", "", "nanoseconds of one call", "speed of the service over that of");
        println!("{:20}{:>12}{:>12}{:>12}{:>12}   {:>12}{:>12}{:>12}{:>8}", "", ENGINES[0], ENGINES[1], ENGINES[2], ENGINES[3], ENGINES[1],
                 ENGINES[2], ENGINES[3], "runs");
        for (scenario, row) in self.rows.iter().enumerate() {
            let Some(times) = self.times(scenario, place) else { continue };
            let [service, maps, array, persistent] = times;
            let ratios = times.map(|time| time / service);
            print!("{:20}{service:>12.0}{maps:>12.0}{array:>12.0}{persistent:>12.0}", SCENARIOS[scenario]);
            println!("   {:>12.2}{:>12.2}{:>12.2}{:>8}", ratios[1], ratios[2], ratios[3], row.runs);
        }
    }

    /// The times of a box as a row of the table.
    fn markdown(&self, place: usize) -> String {
        markdown(&self.boxes[place].name, |scenario| self.times(scenario, place))
    }

    /// Of some boxes the times of that one where the service takes longest.
    fn slowest(&self, scenario: usize, places: std::ops::Range<usize>) -> Option<Times> {
        places.filter_map(|place| self.times(scenario, place)).max_by(|one, two| one[0].total_cmp(&two[0]))
    }
}

/// Microseconds, to about three digits.
pub fn micro(nanoseconds: f64) -> String {
    let digits = [999.5, 9_995.0, 99_950.0].iter().filter(|end| nanoseconds < **end).count();
    format!("{:.digits$}", nanoseconds / 1000.0)
}

fn markdown(name: &str, times: impl Fn(usize) -> Option<Times>) -> String {
    let cell = |scenario| times(scenario).map_or("–".to_string(), |times| format!("{} / {} ({:.2})", micro(times[0]), micro(times[1]), speed(&times)));
    format!("| {name} | {} |", (0..COLUMNS).map(cell).collect::<Vec<_>>().join(" | "))
}

/// How the time of a call grows with m at the most blocks and with d at the most addresses: mixed calls and hits. `bench/plot` makes a picture of
/// these lines. One shape is measured after the other: the copies for all of them would take more than a gigabyte.
fn growth() {
    let shapes = (4..=10).map(|k| (1 << k, 256)).chain((2..=7).map(|k| (1024, 1 << k)));
    println!("\nNanoseconds of one call against m and d, B = 4096, P = 4096, full tables:");
    println!("        {:>6}{:>6}  {:12}{:>12}{:>12}{:>12}{:>12}", "m", "d", "", ENGINES[0], ENGINES[1], ENGINES[2], ENGINES[3]);
    for (m, d) in shapes {
        let start = full(Shape { m, d, ..LARGE });
        for scenario in [MIXED, HIT] {
            let times = best(scenario, &[&start]).times[0].unwrap();
            println!("growth  {m:>6}{d:>6}  {:12}{:>12.0}{:>12.0}{:>12.0}{:>12.0}", SCENARIOS[scenario], times[0], times[1], times[2], times[3]);
        }
    }
}

/// The bounds, and whether all that were looked at are kept.
struct Bounds {
    kept: bool,
}

impl Bounds {
    fn line(&mut self, what: &str, value: String, good: bool) {
        println!("{what:92}{value:>6} {}", if good { "met" } else { "MISSED" });
        self.kept &= good;
    }

    /// The service is at least this many times as fast as the peer.
    fn speed(&mut self, group: &Group, place: usize, scenario: usize, least: f64) {
        let speed = speed(&group.at(scenario, place));
        let what = format!("{}: {}, times as fast as {}, at least {least:.1}:", group.boxes[place].name, SCENARIOS[scenario], ENGINES[1]);
        self.line(&what, format!("{speed:.2}"), speed >= least);
    }
}

/// The most that the service's time may grow with the tables, over the growth of the peer's time.
const MOST_OF_GROWTH: f64 = 1.1;
const MOST_AT_WORST: f64 = 140_000.0;
/// How many times as fast as 64 single calls one call for 64 hits is to be, and one with misses: not slower, but for what two runs differ by.
const LEAST_OF_HITS: f64 = 5.0;
const LEAST_OF_MISSES: f64 = 0.97;
/// The most milliseconds of an exam question.
const MOST_OF_QUESTION: f64 = 5.0;

fn print_what_is_measured() {
    let sha = if cfg!(feature = "soft") { "portable code (`force-soft`)" } else { "the processor's SHA instructions where it has them" };
    println!("SHA-256 of the Rust engines: RustCrypto's, {sha}. The service has its own, portable. All hash the label of 64 bytes before each block.");
    if cfg!(feature = "double") {
        println!("The engine with maps stands for the service.");
    }
    println!("maps: the same refusals over the same bytes; in each call a bit for each address and a std hash map of the fingerprints by their first \
             eight bytes.");
    println!("array: the same with an index in an array on the stack in place of the hash map. persistent: no refusals, maps kept from call to call, \
             tables not written.");
    #[cfg(feature = "double")]
    println!("D-ARC boxes: the peer is an engine of the same kind, with the same refusals and such a map; the addresses that fill a box have as many \
             contents as there are slots.");
    println!("The engines take turns, and so do the boxes of a group; the time of each call is its best of all runs.");
    println!("mixed: 40% reads, 20% each kind of write; half of the addresses held at first, half any; contents from 1.5 for each slot. read, miss: \
             addresses not held.");
    println!("A list has 64 calls or 65 (fewer where a kind empties the tables) and begins with the same tables; the first flush of a list finds \
             dirty rows, the others none.");
    println!("The limit of a box is m, but that of the full tables at the limit is the number of their dirty rows: there most writes back copy a block more.");
    println!("On tables made by hand (bytes the same) a list is one call, on the newest held address; B is 64 there, so that the time is that of the \
             tables and not of the blocks.");
}

// The places of the boxes in their groups.
const FULL: usize = 0;
const HALF_OF_THE_ROWS: usize = 1;
const AT_LIMIT: usize = 2;
const HALF_FULL: usize = 3;
const EMPTY: usize = 4;
const ONE_BUCKET: usize = 5;
const SMALL: usize = 0;
const SINGLE: usize = 1;

/// How many of their first bytes the fingerprints of tables made by hand share, and the held rows of these tables.
const SAME: [usize; 3] = [2, 4, 8];
const HELD: [Held; 3] = [Held::Newest, Held::Oldest, Held::Missing];

fn main() {
    print_what_is_measured();
    let half = Shape { m: LARGE.m / 2, d: LARGE.d / 2, ..LARGE };
    let large = Group::measured(vec![full(LARGE), full(half), at_limit(LARGE), half_full(LARGE), empty(LARGE), one_bucket(LARGE)], 3);
    let small = Group::measured(vec![full(Shape { b: 64, p: 4096, m: 16, d: 8 }), full(Shape { b: 64, p: 4096, m: 1, d: 1 })], 1);
    let by_hand = SAME.iter().flat_map(|same| HELD.map(|held| crafted(Shape { b: 64, ..LARGE }, *same, held))).collect();
    let by_hand = Group::measured(by_hand, 0);
    let folders = many::all(&large.boxes[FULL]);
    let questions = scores::all();
    #[cfg(feature = "double")]
    let arcs = arc::all();
    growth();

    println!("\nBounds:");
    let mut bounds = Bounds { kept: true };
    for (scenario, least) in [(LOOK, 1.2), (HIT, 1.2), (FLUSH, 1.0), (MIXED, 1.1)] {
        bounds.speed(&large, FULL, scenario, least);
    }
    for (scenario, least) in [(LOOK, 1.0), (HIT, 0.9), (FLUSH, 1.0), (MIXED, 1.0)] {
        bounds.speed(&small, SMALL, scenario, least);
    }
    let [none, all] = [EMPTY, FULL].map(|place| large.at(LOOK, place)[0]);
    bounds.line("look at an empty box, over that at a full one, below 1:", format!("{:.2}", none / all), none < all);
    for scenario in [MIXED, HIT] {
        let [full, half] = [FULL, HALF_OF_THE_ROWS].map(|place| large.at(scenario, place));
        let [service, peer] = [full[0] / half[0], full[1] / half[1]];
        let what = format!("{}, growth with twice the rows, at most {MOST_OF_GROWTH} times the peer's {peer:.2}:", SCENARIOS[scenario]);
        bounds.line(&what, format!("{service:.2}"), service <= MOST_OF_GROWTH * peer);
    }
    for scenario in [HIT, MISS, LOOK, FLUSH] {
        let slowest = by_hand.slowest(scenario, 0..by_hand.boxes.len()).into_iter().chain(large.times(scenario, ONE_BUCKET)).map(|times| times[0])
            .fold(0.0, f64::max);
        let what = format!("worst case: {}, at most {} µs:", SCENARIOS[scenario], micro(MOST_AT_WORST));
        bounds.line(&what, micro(slowest), 0.0 < slowest && slowest <= MOST_AT_WORST);
    }
    for (k, folder) in folders.iter().enumerate() {
        let least = if k == 0 { LEAST_OF_HITS } else { LEAST_OF_MISSES };
        let what = format!("a folder of {}: one call, times as fast as 64 calls, at least {least}:", folder.name);
        bounds.line(&what, format!("{:.2}", folder.speed()), folder.speed() >= least);
    }

    for one in &questions {
        let what = format!("an exam question of 65,536 lists, m {}, d {}: milliseconds, at most {MOST_OF_QUESTION}:", one.m, one.d);
        bounds.line(&what, format!("{:.2}", one.service / 1e6), one.service <= MOST_OF_QUESTION * 1e6);
    }

    println!("\nMicroseconds of a call by the service / by {}, and how many times as fast the service is:\n", ENGINES[1]);
    println!("| a call, microseconds: service / peer (speed over the peer's) | {} |\n|---|{}", SCENARIOS[..COLUMNS].join(" | "), "---:|".repeat(COLUMNS));
    let rows = [(&large, FULL), (&large, AT_LIMIT), (&large, HALF_FULL), (&large, EMPTY), (&small, SMALL), (&small, SINGLE), (&large, ONE_BUCKET)];
    rows.iter().for_each(|(group, place)| println!("{}", group.markdown(*place)));
    for (k, same) in SAME.iter().enumerate() {
        let places = k * HELD.len()..(k + 1) * HELD.len();
        println!("{}", markdown(&format!("B 64, m 1,024, d 256, {same} bytes the same"), |scenario| by_hand.slowest(scenario, places.clone())));
    }
    println!("\nMicroseconds of a write back, without a limit and at the limit:\n");
    println!("| a write back, microseconds | service | {} | speed over that of {} |\n|---|---:|---:|---:|", ENGINES[1], ENGINES[1]);
    for place in [FULL, AT_LIMIT] {
        let times = large.at(BACK, place);
        println!("| {} | {} | {} | {:.2} |", large.boxes[place].name, micro(times[0]), micro(times[1]), speed(&times));
    }
    println!("\nMicroseconds of 64 reads by the service:\n");
    println!("| {}: 64 reads, microseconds | one call | 64 calls | speed over that of 64 calls |\n|---|---:|---:|---:|", large.boxes[FULL].name);
    folders.iter().for_each(|folder| println!("| {} | {} | {} | {:.2} |", folder.name, micro(folder.many), micro(folder.single), folder.speed()));
    println!("\nMilliseconds of an exam question, over all lists of eight reads of four addresses:\n");
    println!("| an exam question, P 4, k 8: 65,536 lists, milliseconds | service | plain Rust | speed over that of plain Rust |\n|---|---:|---:|---:|");
    for one in &questions {
        println!("| m {}, d {} | {:.2} | {:.2} | {:.2} |", one.m, one.d, one.service / 1e6, one.plain / 1e6, one.speed());
    }
    #[cfg(feature = "double")]
    arc::print(&arcs);
    if !bounds.kept {
        std::process::exit(1);
    }
}
