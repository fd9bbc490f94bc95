//! Worked states of D-ARC: a box, calls with their answers, and what they leave. Those in `worked.txt` are the tables of crates/arc/specs/ArcWorked.antt.
//!
//! The content k is a block of bytes k. A row is `address:content`, with `*` where it is dirty and `/seat` where the seat is not 0; a used block row is
//! `content@slot`. A folder's answer is hits, flash writes, primary writes and fetches.
use super::{ArcLent, ArcNumbers, WORD};
use crate::*;

pub const B: usize = 64;
pub const OFFICE: Label = [0x4F; LABEL];

/// A call with its answer: word, flash writes and primary writes (0 for a look), and the content that a read or a look returned.
pub struct Said {
    pub call: Call,
    pub address: u32,
    pub content: u8,
    pub word: String,
    pub flash: u64,
    pub primary: u64,
    pub returned: Option<u8>,
}

/// What is asked of a box, with the answer.
pub enum Asked {
    One(Said),
    Folder { asked: Vec<u32>, answer: ManyAnswer, blocks: Vec<u8> },
}

pub struct Example {
    pub name: &'static str,
    pub from: ArcLent,
    pub asked: Vec<Asked>,
    /// The text of the state after the last call.
    pub to: &'static str,
}

fn numbers<T: std::str::FromStr>(text: &str) -> Vec<T> {
    text.split_whitespace().map(|word| word.parse().ok().unwrap_or_else(|| panic!("no number: {word}"))).collect()
}

fn print_of(content: u8) -> Fingerprint {
    fingerprint(&OFFICE, &[content; B])
}

fn blocks_of(contents: &str) -> Vec<u8> {
    numbers::<u8>(contents).iter().flat_map(|content| [*content; B]).collect()
}

fn address_row(text: &str) -> Vec<u8> {
    let (text, seat) = text.split_once('/').unwrap_or((text, "0"));
    let (address, content) = text.trim_end_matches('*').split_once(':').expect("address:content");
    let fingerprint = print_of(content.parse().unwrap());
    AddressRow { address: address.parse().unwrap(), fingerprint, dirty: text.ends_with('*') as u8, seat: seat.parse().unwrap(), padding: 0 }.to_bytes()
}

fn block_rows(free: &str, used: &str) -> Vec<u8> {
    let free = numbers(free).into_iter().map(|slot| BlockRow { fingerprint: [0; 32], slot, used: 0, padding: [0; 3] });
    let used = used.split_whitespace().map(|text| {
        let (content, slot) = text.split_once('@').expect("content@slot");
        BlockRow { fingerprint: print_of(content.parse().unwrap()), slot: slot.parse().unwrap(), used: 1, padding: [0; 3] }
    });
    free.chain(used).flat_map(|row| row.to_bytes()).collect()
}

/// The parts of a state, and the text behind the name of each.
fn part<'a>(state: &'a str, name: &str) -> &'a str {
    state.split("; ").find_map(|part| part.strip_prefix(name)).unwrap_or_else(|| panic!("no {name} in {state}"))
}

/// The lists of a state one behind the other, their sizes, and p.
fn lists_of(state: &str) -> (Vec<u32>, [u64; 5], u64) {
    let (mut named, mut sizes, mut words) = (Vec::new(), Vec::new(), state.split("; ").next().unwrap().split(' '));
    for word in words.by_ref().take_while(|word| *word != "p") {
        match word.parse() {
            Ok(address) => {
                named.push(address);
                *sizes.last_mut().unwrap() += 1;
            }
            Err(_) => sizes.push(0),
        }
    }
    (named, sizes.try_into().expect("five lists"), words.next().unwrap().parse().unwrap())
}

/// The box of a state, `C 1 X 0 t 2` being its numbers.
fn lent(line: &str, state: &str) -> ArcLent {
    let [c, x, t] = ["C ", "X ", "t "].map(|name| line.split(name).nth(1).unwrap().split(' ').next().unwrap().parse::<usize>().unwrap());
    let m = 2 * c + x;
    let (named, sizes, adaptive) = lists_of(state);
    let (disk, flash) = (blocks_of(part(state, "disk")), blocks_of(part(state, "flash")));
    let mut addresses: Vec<u8> = part(state, "rows").split_whitespace().flat_map(address_row).collect();
    let n = addresses.len() / ROW;
    addresses.resize(m * ROW, 0);
    let mut lists: Vec<u8> = named.iter().flat_map(|address| address.to_le_bytes()).collect();
    lists.resize(m * WORD, 0);
    let [b, p, c, x, n, t] = [B, disk.len() / B, c, x, n, t].map(|number| number as u64);
    let state_bytes = ArcNumbers { b, p, c, x, n, counters: [0; 4], label: OFFICE, t, adaptive, sizes }.to_bytes();
    let blocks = block_rows(part(state, "free"), part(state, "used"));
    let base = Lent { state: state_bytes, disk, flash, addresses, blocks, block: vec![0xDD; B], answer: vec![0xEE; ANSWER], label: OFFICE.to_vec() };
    ArcLent { base, lists }
}

fn asked(line: &str) -> Asked {
    let (call, answer) = line.split_once(": ").expect("a call and its answer");
    let (answer, returned) = answer.split_once(", block").unwrap_or((answer, ""));
    let (letter, rest) = call.split_once(' ').unwrap();
    if letter == "O" {
        let [hits, flash, primary, fetches] = numbers(answer).try_into().unwrap();
        return Asked::Folder { asked: numbers(rest), answer: ManyAnswer { hits, flash, primary, fetches }, blocks: numbers(returned.trim_start_matches('s')) };
    }
    let (rest, seat) = rest.split_once(" seat ").unwrap_or((rest, "0"));
    let (given, seat): (Vec<usize>, u16) = (numbers(rest), seat.parse().unwrap());
    let call = match letter {
        "R" => Call::Read,
        "L" => Call::Look,
        "F" => Call::FlushSome(given[0]),
        "T" => Call::Through(seat),
        "B" => Call::Back(seat),
        "I" => Call::Invalidate(seat),
        other => panic!("no call {other}"),
    };
    let (word, writes) = answer.split_once(' ').unwrap();
    let writes = numbers(writes);
    let (content, returned) = (given.get(1).map_or(0, |content| *content as u8), numbers(returned).first().copied());
    Asked::One(Said { call, address: given[0] as u32, content, word: word.to_string(), flash: writes[0], primary: writes[1], returned })
}

pub fn examples() -> Vec<Example> {
    let example = |text: &'static str| {
        let lines: Vec<&str> = text.trim().lines().collect();
        let [name, numbers, from, calls @ .., to] = &lines[..] else { panic!("no example: {text}") };
        Example {
            name: name.strip_prefix("# ").expect("a name"),
            from: lent(numbers, from.strip_prefix("from ").expect("a state")),
            asked: calls.iter().map(|line| asked(line)).collect(),
            to: to.strip_prefix("to ").expect("a state"),
        }
    };
    include_str!("worked.txt").split("\n\n").map(example).collect()
}

/// The text of a sound box of the label and the block size here.
pub fn shown(lent: &ArcLent) -> String {
    let numbers = lent.numbers();
    let (rows, blocks) = read_tables(&lent.base);
    let content = |g: Fingerprint| (0..=255u8).find(|k| print_of(*k) == g).expect("the fingerprint of a content");
    let mut words = lent.words().into_iter();
    let mut lists = String::new();
    for (name, size) in ["T1", "T2", "B1", "B2", "B3"].iter().zip(numbers.sizes) {
        lists.push_str(name);
        words.by_ref().take(size as usize).for_each(|address| lists.push_str(&format!(" {address}")));
        lists.push(' ');
    }
    let row = |row: &AddressRow| {
        let (dirty, seat) = (if row.dirty == 1 { "*" } else { "" }, if row.seat == 0 { String::new() } else { format!("/{}", row.seat) });
        format!(" {}:{}{dirty}{seat}", row.address, content(row.fingerprint))
    };
    let rows: String = rows[..numbers.n as usize].iter().map(row).collect();
    let free: String = blocks.iter().filter(|row| row.used == 0).map(|row| format!(" {}", row.slot)).collect();
    let used: String = blocks.iter().filter(|row| row.used == 1).map(|row| format!(" {}@{}", content(row.fingerprint), row.slot)).collect();
    let filled = |bytes: &[u8]| -> String {
        let one = |block: &[u8]| {
            assert!(block.iter().all(|byte| *byte == block[0]), "a block of one byte");
            format!(" {}", block[0])
        };
        bytes.chunks_exact(B).map(one).collect()
    };
    format!("{lists}p {}; rows{rows}; free{free}; used{used}; flash{}; disk{}", numbers.adaptive, filled(&lent.base.flash), filled(&lent.base.disk))
}

/// Asks one call of a box and compares its answer, and the block that a read or a look returned.
fn ask_one(lent: &mut ArcLent, said: &Said, name: &str, one: &mut impl FnMut(Call, u32, &mut ArcLent) -> u32) {
    let Said { call, address, content, .. } = *said;
    lent.base.block = vec![content; B];
    assert_eq!(one(call, address, lent), 0, "{name}: {call:?} {address}");
    let answer = Answer::from_bytes(&lent.base.answer);
    let writes = if call == Call::Look { (0, 0) } else { (answer.first, answer.second) };
    assert_eq!((word(answer.word), writes), (said.word.as_str(), (said.flash, said.primary)), "{name}: {call:?} {address}");
    let returned = match call {
        Call::Look if answer.word == CACHE => &lent.base.flash[answer.first as usize..][..answer.second as usize],
        Call::Look => &lent.base.disk[answer.first as usize..][..answer.second as usize],
        _ => &lent.base.block,
    };
    // A write keeps its block.
    assert_eq!(returned, [said.returned.unwrap_or(content); B], "{name}: {call:?} {address}");
}

fn ask_many(lent: &mut ArcLent, asked: &[u32], answer: ManyAnswer, blocks: &[u8], many: &mut impl FnMut(&mut ArcLent, &mut Folder) -> u32) {
    let mut folder = Folder { asked: asked.to_vec(), buffer: vec![0xEE; asked.len() * B], answer: vec![0; MANY_ANSWER] };
    assert_eq!(many(lent, &mut folder), 0, "{asked:?}");
    assert_eq!(ManyAnswer::from_bytes(&folder.answer), answer, "{asked:?}");
    assert!(folder.buffer.chunks_exact(B).zip(blocks).all(|(block, content)| block == [*content; B]), "{asked:?}");
}

/// Plays every example by an engine's calls, and compares its answers and the state that it leaves. Gives how many states and calls there were.
pub fn play(mut one: impl FnMut(Call, u32, &mut ArcLent) -> u32, mut many: impl FnMut(&mut ArcLent, &mut Folder) -> u32) -> (usize, usize) {
    let (mut states, mut calls) = (0, 0);
    for example in examples() {
        let mut lent = example.from.clone();
        for asked in &example.asked {
            match asked {
                Asked::One(said) => ask_one(&mut lent, said, example.name, &mut one),
                Asked::Folder { asked, answer, blocks } => ask_many(&mut lent, asked, *answer, blocks, &mut many),
            }
            calls += 1;
        }
        assert_eq!(shown(&lent), example.to, "{}", example.name);
        states += 1;
    }
    assert!(states >= 59 && calls > states, "{states} worked states");
    (states, calls)
}
