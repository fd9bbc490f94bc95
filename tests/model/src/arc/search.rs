//! Every state that lists of calls reach in a small D-ARC box, by a search through all of them.
use super::worked::{B, OFFICE};
use super::{carry_out, ArcLent, ArcNumbers, WORD};
use crate::*;
use std::collections::HashSet;

/// A call with its address and the byte that fills its block.
pub type Step = (Call, u32, u8);

/// A fresh box whose disk has a block of each of these bytes.
pub fn fresh(c: usize, x: usize, t: usize, disk: &[u8]) -> ArcLent {
    let m = 2 * c + x;
    let [b, p, n, sizes] = [B, disk.len(), 0, 0].map(|number| number as u64);
    let numbers = ArcNumbers { b, p, c: c as u64, x: x as u64, n, counters: [0; 4], label: ZEROS, t: t as u64, adaptive: 0, sizes: [sizes; 5] };
    let base = Lent {
        state: numbers.to_bytes(),
        disk: disk.iter().flat_map(|content| [*content; B]).collect(),
        flash: vec![0xAA; c * B],
        addresses: vec![0; m * ROW],
        blocks: vec![0; c * ROW],
        block: vec![0; B],
        answer: vec![0; ANSWER],
        label: OFFICE.to_vec(),
    };
    let mut lent = ArcLent { base, lists: vec![0; m * WORD] };
    assert_eq!(carry_out(Call::Open, 0, &mut lent), 0);
    lent
}

/// Each read, each write of each of these contents, a flush and a flush of one row, on addresses below `p`.
pub fn steps(p: u32, contents: &[u8]) -> Vec<Step> {
    let reads = (0..p).map(|a| (Call::Read, a, 0));
    let kinds = [Call::Through(0), Call::Back(0), Call::Invalidate(0)];
    let writes = kinds.into_iter().flat_map(|call| (0..p).flat_map(move |a| contents.iter().map(move |content| (call, a, *content))));
    reads.chain(writes).chain([(Call::Flush, 0, 0), (Call::FlushSome(1), 0, 0)]).collect()
}

/// What two states differ by, all blocks being of one byte: everything but the counters, the lent block and the answer.
fn key(lent: &ArcLent) -> Vec<u8> {
    let firsts = |bytes: &[u8]| bytes.chunks_exact(B).map(|block| block[0]).collect::<Vec<u8>>();
    let Lent { state, disk, flash, addresses, blocks, .. } = &lent.base;
    [&state[32..40], &state[STATE_LIMIT.start..], &firsts(disk), &firsts(flash), addresses, blocks, &lent.lists].concat()
}

/// Goes through every state that lists of these steps reach from a box, `most` of them at most. `see` is shown each state with each step on it, and what the
/// step leaves. Gives the number of states, and whether these are all.
pub fn reached(start: ArcLent, steps: &[Step], most: usize, mut see: impl FnMut(&ArcLent, Step, &ArcLent)) -> (usize, bool) {
    let mut seen = HashSet::from([key(&start)]);
    let mut next = vec![start];
    let mut done = 0;
    while let Some(lent) = next.pop() {
        if done == most {
            return (done, false);
        }
        done += 1;
        for step in steps {
            let mut after = lent.clone();
            after.base.block.fill(step.2);
            assert_eq!(carry_out(step.0, step.1, &mut after), 0, "{step:?}");
            see(&lent, *step, &after);
            // Otherwise a counter would be full some time.
            after.base.state[40..72].fill(0);
            if seen.insert(key(&after)) {
                next.push(after);
            }
        }
    }
    (done, true)
}
