//! Times lists of calls by each engine in turns.
use crate::boxes::{number, Kind, Lent, Random, Shape, Start, Step};
#[cfg(not(feature = "double"))]
use crate::service;
use engines::persistent::Persistent;
use engines::{array, maps};
use std::time::{Duration, Instant};

#[cfg(feature = "double")]
use engines::maps as service;
#[cfg(feature = "double")]
use engines::{arc, arc as arc_service};

/// The engines in the order of the tables. The first is the service, the second its peer: ratios and bounds are to that one.
pub const ENGINES: [&str; 4] = ["service", "maps", "array", "persistent"];

/// Each engine's nanoseconds of one call.
pub type Times = [f64; ENGINES.len()];

/// How many times as fast as the peer the service is.
pub fn speed(times: &Times) -> f64 {
    times[1] / times[0]
}

/// Calls, in parts that are timed by themselves, and the contents that writes are lent.
pub struct List<'a> {
    pub steps: Vec<Step>,
    pub part: usize,
    pub contents: &'a [Vec<u8>],
}

/// A list of calls in parts, by the functions of a module. Each part's time goes into `best` where it is the best yet. Gives what was answered,
/// in one number. The calls on a D-ARC box have its lists after the block table.
macro_rules! run_list {
    ($engine:ident, $lent:ident, $list:ident, $best:ident $(, $lists:ident)?) => {{
        let Lent { state, disk, flash, addresses, blocks, block, answer, $($lists,)? .. } = $lent;
        let mut sum = 0u64;
        for (steps, best) in $list.steps.chunks($list.part).zip($best) {
            let start = Instant::now();
            for (kind, a, content) in steps {
                let (content, seat) = written($list, *content);
                let refused = match kind {
                    Kind::Read => $engine::read(state, *a, disk, flash, addresses, blocks, $($lists,)? block, answer),
                    Kind::Through => $engine::write_through(state, *a, seat, disk, flash, addresses, blocks, $($lists,)? content, answer),
                    Kind::Back => $engine::write_back(state, *a, seat, disk, flash, addresses, blocks, $($lists,)? content, answer),
                    Kind::Invalidate => $engine::write_invalidate(state, *a, seat, disk, flash, addresses, blocks, $($lists,)? content, answer),
                    Kind::Flush => $engine::flush(state, disk, flash, addresses, blocks, $($lists,)? answer),
                    Kind::Look => $engine::look(state, *a, disk, flash, addresses, blocks, $($lists,)? answer),
                };
                assert_eq!(refused, 0);
                sum = add(sum, answer, block);
            }
            *best = start.elapsed().min(*best);
        }
        sum
    }};
}

/// The content of a write, and its seat: each content is written by a seat of its own, so that the seats left in the tables are compared too.
fn written<'a>(list: &List<'a>, content: usize) -> (&'a [u8], u16) {
    (&list.contents[content], content as u16)
}

fn add(sum: u64, answer: &[u8], block: &[u8]) -> u64 {
    (0..3).fold(sum, |sum, k| sum.wrapping_mul(31).wrapping_add(number(answer, k))).wrapping_add(block[block.len() - 1] as u64)
}

/// The engine with its own maps; the tables are not given to its calls.
struct Kept(Persistent);

/// Runs a list on a box by an engine, notes the best times and gives the answers in one number.
pub type Run = fn(&mut Lent, &List, &mut [Duration]) -> u64;

/// In the order of `ENGINES`.
pub const RUNS: [Run; ENGINES.len()] = [run_service, run_maps, run_array, run_persistent];
/// Those on D-ARC boxes: the service and its peer.
#[cfg(feature = "double")]
pub const ARC_RUNS: [Run; 2] = [run_arc_service, run_arc_peer];

fn run_service(lent: &mut Lent, list: &List, best: &mut [Duration]) -> u64 {
    run_list!(service, lent, list, best)
}

pub fn run_maps(lent: &mut Lent, list: &List, best: &mut [Duration]) -> u64 {
    run_list!(maps, lent, list, best)
}

fn run_array(lent: &mut Lent, list: &List, best: &mut [Duration]) -> u64 {
    run_list!(array, lent, list, best)
}

fn run_persistent(lent: &mut Lent, list: &List, best: &mut [Duration]) -> u64 {
    let mut kept = Kept(Persistent::load(&lent.state, &lent.addresses, &lent.blocks));
    let sum = kept.run(lent, list, best);
    kept.0.store(&mut lent.state, &mut lent.addresses, &mut lent.blocks);
    sum
}

#[cfg(feature = "double")]
fn run_arc_service(lent: &mut Lent, list: &List, best: &mut [Duration]) -> u64 {
    run_list!(arc_service, lent, list, best, lists)
}

#[cfg(feature = "double")]
pub fn run_arc_peer(lent: &mut Lent, list: &List, best: &mut [Duration]) -> u64 {
    run_list!(arc, lent, list, best, lists)
}

impl Kept {
    fn run(&mut self, lent: &mut Lent, list: &List, best: &mut [Duration]) -> u64 {
        let Lent { disk, flash, block, answer, .. } = lent;
        let mut sum = 0;
        for (steps, best) in list.steps.chunks(list.part).zip(best) {
            let start = Instant::now();
            for (kind, a, content) in steps {
                let (content, seat) = written(list, *content);
                let refused = match kind {
                    Kind::Read => self.0.read(*a, disk, flash, block, answer),
                    Kind::Through => self.0.write_through(*a, seat, disk, flash, content, answer),
                    Kind::Back => self.0.write_back(*a, seat, disk, flash, content, answer),
                    Kind::Invalidate => self.0.write_invalidate(*a, disk, content, answer),
                    Kind::Flush => self.0.flush(disk, flash, answer),
                    Kind::Look => self.0.look(*a, answer),
                };
                assert_eq!(refused, 0);
                sum = add(sum, answer, block);
            }
            *best = start.elapsed().min(*best);
        }
        sum
    }
}

/// The kinds of lists. The first five are the columns of the table.
pub const SCENARIOS: [&str; 9] = ["mixed", "read, hit", "read, miss", "look", "flush", "read, miss, held", "write through", "write back", "write invalidate"];
pub const MIXED: usize = 0;
pub const HIT: usize = 1;
pub const MISS: usize = 2;
pub const LOOK: usize = 3;
pub const FLUSH: usize = 4;
pub const BACK: usize = 7;

/// The calls of a scenario. `None` where the box has no address for it, or its tables were made by hand and there is no one call for it.
fn steps(scenario: usize, start: &Start) -> Option<Vec<Step>> {
    if start.one_call {
        return Some(vec![match scenario {
            HIT => (Kind::Read, *start.with_block.last()?, 0),
            MISS => (Kind::Read, *start.others.last()?, 0),
            LOOK => (Kind::Look, *start.with_block.last()?, 0),
            FLUSH => (Kind::Flush, 0, 0),
            _ => return None,
        }]);
    }
    let mut random = Random(2);
    let all: Vec<u32> = (0..start.shape.p as u32).collect();
    let held = [&start.with_block[..], &start.without_block].concat();
    let count = start.contents.len();
    // Half of the addresses are held at first, half are any of the disk.
    let any = |random: &mut Random| if !held.is_empty() && random.below(2) == 0 { random.pick(&held) } else { random.pick(&all) };
    let length = 64;
    let few = length.min(start.shape.m / 2);
    let steps: Vec<Step> = match scenario {
        MIXED => {
            (0..65).map(|k| ([Kind::Read, Kind::Through, Kind::Back, Kind::Invalidate, Kind::Read][k % 5], any(&mut random), random.below(count))).collect()
        }
        HIT if start.with_block.is_empty() => return None,
        HIT => (0..length).map(|_| (Kind::Read, random.pick(&start.with_block), 0)).collect(),
        MISS => (0..length).map(|k| (Kind::Read, start.others[(k * 37) % start.others.len()], 0)).collect(),
        LOOK => (0..length).map(|_| (Kind::Look, any(&mut random), 0)).collect(),
        FLUSH => (0..length).map(|_| (Kind::Flush, 0, 0)).collect(),
        5 => start.without_block.iter().take(few).map(|a| (Kind::Read, *a, 0)).collect(),
        6 => (0..length).map(|_| (Kind::Through, any(&mut random), random.below(count))).collect(),
        BACK => (0..length).map(|_| (Kind::Back, any(&mut random), random.below(count))).collect(),
        _ => held.iter().step_by(2).take(few).map(|a| (Kind::Invalidate, *a, random.below(count))).collect(),
    };
    (!steps.is_empty()).then_some(steps)
}

/// A list of calls on a box: each engine's copy of the box, put back after each run, and what the runs gave.
pub struct Measured<'a> {
    start: &'a Start,
    list: List<'a>,
    runs: &'static [Run],
    copies: Vec<Lent>,
    /// The addresses whose blocks on the disk the calls change.
    touched: Vec<u32>,
    /// What was answered, in one number.
    sum: u64,
    /// The best time of each part by each engine.
    best: Vec<Vec<Duration>>,
}

impl<'a> Measured<'a> {
    /// The calls of a scenario after their first run. `None` where the box has no address for it.
    pub fn new(scenario: usize, start: &'a Start, runs: &'static [Run]) -> Option<Self> {
        let steps = steps(scenario, start)?;
        // A call on large tables is long enough to be timed alone; on small ones sixteen are timed together.
        let part = if start.shape.m > 100 { 1 } else { 16 };
        let best = vec![vec![Duration::MAX; steps.len().div_ceil(part)]; runs.len()];
        let list = List { steps, part, contents: &start.contents };
        let mut measured = Measured { start, list, runs, copies: vec![start.lent.clone(); runs.len()], touched: Vec::new(), sum: 0, best };
        measured.first_turn();
        Some(measured)
    }

    /// A run by each engine: all answer the same and leave the same bytes.
    fn first_turn(&mut self) {
        let sums: Vec<u64> = (0..self.runs.len()).map(|engine| self.run(engine)).collect();
        for (engine, sum) in sums.iter().enumerate() {
            assert!(self.copies[engine] == self.copies[0] && *sum == sums[0], "engine {engine} differs from the service");
        }
        let Shape { b, p, .. } = self.start.shape;
        let changed = |a: &usize| self.copies[0].disk[a * b..(a + 1) * b] != self.start.lent.disk[a * b..(a + 1) * b];
        self.touched = (0..p).filter(changed).map(|a| a as u32).collect();
        self.sum = sums[0];
        (0..self.runs.len()).for_each(|engine| self.put_back(engine));
    }

    /// Another run by each engine.
    pub fn turn(&mut self) {
        for engine in 0..self.runs.len() {
            assert_eq!(self.run(engine), self.sum);
            self.put_back(engine);
        }
    }

    fn run(&mut self, engine: usize) -> u64 {
        self.runs[engine](&mut self.copies[engine], &self.list, &mut self.best[engine])
    }

    fn put_back(&mut self, engine: usize) {
        let (copy, first) = (&mut self.copies[engine], &self.start.lent);
        copy.state.copy_from_slice(&first.state);
        copy.addresses.copy_from_slice(&first.addresses);
        copy.blocks.copy_from_slice(&first.blocks);
        copy.lists.copy_from_slice(&first.lists);
        copy.flash.copy_from_slice(&first.flash);
        copy.block.copy_from_slice(&first.block);
        copy.answer.copy_from_slice(&first.answer);
        let b = self.start.shape.b;
        for a in &self.touched {
            let place = *a as usize * b;
            copy.disk[place..place + b].copy_from_slice(&first.disk[place..place + b]);
        }
    }

    /// Every part is the best of all runs.
    pub fn times(&self) -> Vec<f64> {
        let calls = self.list.steps.len() as f64;
        self.best.iter().map(|best| best.iter().sum::<Duration>().as_nanos() as f64 / calls).collect()
    }
}

/// What a scenario took on each of some boxes, `None` where a box has no calls for it; and the number of runs.
pub struct Row {
    pub times: Vec<Option<Times>>,
    pub runs: usize,
}

/// The best times of a scenario. Engines and boxes take turns, so that a change of the machine's speed meets all of them.
pub fn best(scenario: usize, boxes: &[&Start]) -> Row {
    let mut lists: Vec<Option<Measured>> = boxes.iter().map(|start| Measured::new(scenario, start, &RUNS)).collect();
    let most = Duration::from_secs(3) * lists.iter().flatten().count() as u32;
    let start = Instant::now();
    let mut runs = 1;
    while runs < 15 || runs < 400 && start.elapsed() < most {
        lists.iter_mut().flatten().for_each(Measured::turn);
        runs += 1;
    }
    let times = |list: &Measured| list.times().try_into().expect("a time of each engine");
    Row { times: lists.iter().map(|list| list.as_ref().map(times)).collect(), runs }
}
