//! Calls on D-ARC boxes by the service beside the peer, and beside the service's calls on D-LRU boxes of the same m and d.
use crate::boxes::{full, full_arc, Shape, LARGE};
use crate::measure::{Measured, ARC_RUNS, RUNS, SCENARIOS};
use crate::{micro, COLUMNS};
use std::time::{Duration, Instant};

/// Nanoseconds of one call.
struct Times {
    service: f64,
    peer: f64,
    /// By the service on the D-LRU box.
    lru: f64,
    runs: usize,
}

/// A D-ARC box, the D-LRU box beside it, and the columns of the table.
pub struct Row {
    name: String,
    lru: String,
    times: Vec<Times>,
}

/// The best times of a scenario. The engines and both boxes take turns.
fn best(mut arc: Measured, mut lru: Measured) -> Times {
    let start = Instant::now();
    let mut runs = 1;
    while runs < 15 || runs < 400 && start.elapsed() < Duration::from_secs(6) {
        arc.turn();
        lru.turn();
        runs += 1;
    }
    let [service, peer] = arc.times().try_into().expect("the service and its peer");
    Times { service, peer, lru: lru.times()[0], runs }
}

fn measured(shape: Shape) -> Row {
    let (arc, lru) = (full_arc(shape), full(shape));
    let of = |scenario: usize| {
        let all = "each scenario has calls on full tables";
        best(Measured::new(scenario, &arc, &ARC_RUNS).expect(all), Measured::new(scenario, &lru, &RUNS[..1]).expect(all))
    };
    Row { times: (0..COLUMNS).map(of).collect(), name: arc.name.clone(), lru: lru.name.clone() }
}

/// Measures each D-ARC box and prints the times.
pub fn all() -> Vec<Row> {
    let rows = [LARGE, Shape { b: 64, p: 4096, m: 16, d: 4 }].map(measured);
    for row in &rows {
        println!("\n{}, beside D-LRU, {}. Nanoseconds of one call:", row.name, row.lru);
        println!("{:20}{:>12}{:>12}{:>12}{:>24}{:>8}", "", "service", "peer", "D-LRU", "speed over the peer's", "runs");
        for (scenario, Times { service, peer, lru, runs }) in row.times.iter().enumerate() {
            println!("{:20}{service:>12.0}{peer:>12.0}{lru:>12.0}{:>24.2}{runs:>8}", SCENARIOS[scenario], peer / service);
        }
    }
    rows.into()
}

/// The rows in Markdown: those of a D-ARC box, then of the D-LRU box, with how many times as long the D-ARC call takes.
pub fn print(rows: &[Row]) {
    println!("\nMicroseconds of a call on a D-ARC box, and of the service's on a D-LRU box of the same m and d:\n");
    let first = "a D-ARC call, microseconds: service / peer (speed over the peer's); below it D-LRU's by the service (time of D-ARC's over it)";
    println!("| {first} | {} |\n|---|{}", SCENARIOS[..COLUMNS].join(" | "), "---:|".repeat(COLUMNS));
    for row in rows {
        let arc = row.times.iter().map(|times| format!("{} / {} ({:.2})", micro(times.service), micro(times.peer), times.peer / times.service));
        let lru = row.times.iter().map(|times| format!("{} ({:.2})", micro(times.lru), times.service / times.lru));
        println!("| {} | {} |", row.name, arc.collect::<Vec<_>>().join(" | "));
        println!("| D-LRU, {} | {} |", row.lru, lru.collect::<Vec<_>>().join(" | "));
    }
}
