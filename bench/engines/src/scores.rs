//! The counts of an exam question by a search in plain Rust: D-LRU's two lists of numbers are copied for each call of itself.
use crate::layout::{fingerprint, set_number, sizes, Fingerprint, Label, LABEL, LIMIT, STATE};

const COUNTS: usize = 72;

/// The box: the most addresses and blocks, and each address's content, by the first address that has it.
struct Question {
    m: usize,
    d: usize,
    contents: Vec<usize>,
}

/// The addresses held and the contents cached, oldest first.
#[derive(Clone, Default)]
struct State {
    held: Vec<usize>,
    cached: Vec<usize>,
}

/// Puts one as newest into a list of at most so many. Whether it was there.
fn put(list: &mut Vec<usize>, most: usize, one: usize) -> bool {
    let place = list.iter().position(|other| *other == one);
    if let Some(place) = place {
        list.remove(place);
    } else if list.len() == most {
        list.remove(0);
    }
    list.push(one);
    place.is_some()
}

fn search(q: &Question, state: &State, k: usize) -> [u64; 9] {
    let mut counts = [0; 9];
    if k == 0 {
        counts[0] = 1;
        return counts;
    }
    for (a, content) in q.contents.iter().enumerate() {
        let mut next = state.clone();
        let held = put(&mut next.held, q.m, a);
        let cached = put(&mut next.cached, q.d, *content);
        let hit = (held && cached) as usize;
        let more = search(q, &next, k - 1);
        (0..9 - hit).for_each(|h| counts[h + hit] += more[h]);
    }
    counts
}

fn counted(numbers: [usize; 5], label: &[u8], disk: &[u8], k: usize, room: usize) -> Result<[u64; 9], u32> {
    let mut state = [0; STATE];
    [0, 1, 2, 3, LIMIT].iter().zip(numbers).for_each(|(place, number)| set_number(&mut state, *place, number as u64));
    let s = sizes(&state)?;
    if disk.len() != s.p * s.b || label.len() != LABEL || room != COUNTS {
        return Err(2);
    }
    if s.p > 4 || s.b != 64 || k > 8 {
        return Err(17);
    }
    let label: &Label = label.try_into().unwrap();
    let prints: Vec<Fingerprint> = disk.chunks_exact(s.b).map(|block| fingerprint(label, block)).collect();
    let contents = prints.iter().map(|print| prints.iter().position(|other| other == print).unwrap()).collect();
    Ok(search(&Question { m: s.m, d: s.d, contents }, &State::default(), k))
}

/// The service's call: the numbers are B, P, m, d and the limit.
pub fn scores(numbers: [usize; 5], label: &[u8], disk: &[u8], k: usize, counts: &mut [u8]) -> u32 {
    let found = counted(numbers, label, disk, k, counts.len());
    if counts.len() == COUNTS {
        found.unwrap_or([0; 9]).iter().enumerate().for_each(|(place, count)| set_number(counts, place, *count));
    }
    found.err().unwrap_or(0)
}
