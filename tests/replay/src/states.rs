//! What the program of the states must print, from the model's box. A held row's content is found by its fingerprint, not by where its block is.
use crate::{follow, lines, More};
use model::{fingerprint, read_tables, Cache, Fingerprint, Lent, ZEROS};
use std::collections::HashMap;

/// Which byte fills the block with a fingerprint, for one block size; a replay's label is zeros.
struct Contents(HashMap<Fingerprint, u8>);

impl Contents {
    fn of(b: usize) -> Contents {
        Contents((0..=255).map(|byte| (fingerprint(&ZEROS, &vec![byte; b]), byte)).collect())
    }
}

fn lent(cache: &Cache) -> Lent {
    let mut lent = Lent { state: vec![], disk: vec![], flash: vec![], addresses: vec![], blocks: vec![], block: vec![], answer: vec![], label: vec![] };
    cache.clone().store(&mut lent);
    lent
}

fn joined<T: ToString>(parts: impl Iterator<Item = T>) -> String {
    parts.map(|part| part.to_string()).collect::<Vec<_>>().join(" ")
}

/// The state in the notation of E1 to E8, with `*` for a dirty row and `none` for no held row.
fn state(cache: &Cache, contents: &Contents) -> String {
    let (_, rows) = read_tables(&lent(cache));
    let held = joined(cache.rows().iter().map(|(a, row)| format!("{a}:{}{}", contents.0[&row.fingerprint], if row.dirty { "*" } else { "" })));
    let blocks = joined(rows.iter().map(|row| if row.used == 1 { contents.0[&row.fingerprint].to_string() } else { "-".into() }));
    format!("    {}; blocks {blocks}\n", if held.is_empty() { "none" } else { &held })
}

fn picture(cache: &Cache) -> String {
    let lent = lent(cache);
    let first_bytes = |bytes: &[u8]| joined(bytes.chunks_exact(cache.b).map(|block| block[0]));
    let slots = joined(read_tables(&lent).1.iter().map(|row| row.slot));
    format!("    slots {slots}\n    flash {}\n    disk {}\n", first_bytes(&lent.flash), first_bytes(&lent.disk))
}

/// A line of the list as `--full` shows it.
fn shown(line: &[u8]) -> String {
    let text: String = line.iter().take(32).map(|byte| if (b' '..=b'~').contains(byte) { *byte as char } else { '?' }).collect();
    format!("    asked {text}{}\n", if line.len() > 32 { "..." } else { "" })
}

/// The whole output of the program of the states, with `--full` or without.
pub fn states(input: &[u8], full: bool) -> String {
    written(input, full, More::Nothing)
}

/// The same with `--parts`.
pub fn in_parts(input: &[u8]) -> String {
    written(input, false, More::Parts)
}

/// The same with `--seats`: both reports in place of the state.
pub fn with_seats(input: &[u8]) -> String {
    written(input, false, More::Seats)
}

/// The same with `--limit`.
pub fn limited(input: &[u8], t: u32) -> String {
    written(input, false, More::Limit(t))
}

/// The same with `--warm`: a clean shutdown after this request is to all else what a flush in its place is, but that it has no number.
pub fn warm(input: &[u8], request: usize) -> String {
    let mut list = lines(input);
    let Some((m, d)) = opened(input).filter(|_| request < list.len()) else { return states(input, false) };
    list.insert(request + 1, b"F");
    let flushed = states(&[&list.join(&b'\n')[..], b"\n"].concat(), false);
    let mut output = String::new();
    for (k, line) in flushed.lines().enumerate() {
        output += &match k / 2 {
            call if call == request && k % 2 == 0 => saved(line, model::image::room(m, d)),
            call if call == request => format!("{}\n", line.trim_start()),
            call if call > request && k % 2 == 0 => format!("{}\n", one_less(line)),
            _ => format!("{line}\n"),
        };
    }
    output
}

/// The m and d of the box, where it is opened.
fn opened(input: &[u8]) -> Option<(usize, usize)> {
    let mut numbers = None;
    follow(input, More::Nothing, |_, _, cache| numbers = cache.map(|cache| (cache.m, cache.d)));
    numbers
}

/// The line of a warm start up to its state, from the answer of the flush in its place.
fn saved(flushed: &str, bytes: usize) -> String {
    let copied = flushed.rsplit_once(' ').unwrap().1;
    format!("    saved: {copied} {} dirty, {bytes} bytes; restored: ", if copied == "1" { "address was" } else { "addresses were" })
}

/// An answer with the number before its own; the sums have none.
fn one_less(answer: &str) -> String {
    let (number, rest) = answer.split_once(' ').unwrap();
    number.parse::<u64>().map_or(answer.to_string(), |number| format!("{} {rest}", number - 1))
}

fn reports(cache: &Cache) -> String {
    let mark = |dirty: bool| if dirty { "*" } else { "" };
    let listed = |part: &dyn Fn(&u32, &model::Held) -> String| match &cache.rows()[..] {
        [] => "none".to_string(),
        rows => rows.iter().map(|(a, row)| part(a, row)).collect::<Vec<_>>().join(", "),
    };
    let manager = listed(&|a, row| format!("{a}{} seat {}", mark(row.dirty), row.seat));
    let desk = listed(&|a, row| format!("{a}{}", mark(row.dirty)));
    format!("    manager: {manager}\n    desk: {desk}\n")
}

fn written(input: &[u8], full: bool, more: More) -> String {
    let mut output = String::new();
    let mut contents = None;
    follow(input, more, |answer, asked, cache| {
        let Some(cache) = cache else { return output += &format!("{}\n", answer.unwrap()) };
        let contents = contents.get_or_insert_with(|| Contents::of(cache.b));
        match (answer, asked) {
            (None, _) if full => output += &format!("    box {} {} {} {}\n", cache.b, cache.p, cache.m, cache.d),
            (None, _) => return,
            (Some(_), Some(line)) if full => output += &shown(line),
            _ => {}
        }
        if let Some(answer) = answer {
            output += &format!("{answer}\n");
        }
        output += &if more == More::Seats { reports(cache) } else { state(cache, contents) };
        if full {
            output += &picture(cache);
        }
    });
    output
}

/// The lines of the replay in an output of the states.
pub fn without_states(output: &str) -> String {
    output.split_inclusive('\n').filter(|line| !line.starts_with(' ')).collect()
}

/// Addresses as the option of the states' program takes them.
pub fn option(asked: &[u32]) -> String {
    asked.iter().map(|a| a.to_string()).collect::<Vec<_>>().join(",")
}

/// The whole output of the program of the states with `--folder`: the list, then the folder by one call and read by read.
pub fn folder(input: &[u8], asked: &[u32]) -> String {
    let mut output = states(input, false);
    let (mut last, mut calls) = (None, 0);
    follow(input, More::Nothing, |_, line, cache| {
        last = cache.cloned();
        calls += line.is_some() as usize;
    });
    // A refused box line ends all.
    let Some(mut cache) = last else { return output };
    let name = if asked.is_empty() { "none".to_string() } else { joined(asked.iter()) };
    let mut buffer = vec![0; asked.len() * cache.b];
    output += &format!("folder {name}, one call\n");
    let contents = Contents::of(cache.b);
    let answer = match cache.read_many(asked, &mut buffer) {
        Err(number) => return output + &format!("{} refused {number}\n{}", calls + 1, state(&cache, &contents)),
        Ok(answer) => answer,
    };
    let model::ManyAnswer { hits, flash, primary, fetches } = answer;
    let read = format!("    contents {}\n", joined(buffer.chunks_exact(cache.b).map(|block| block[0])));
    let sums = format!("{}\n", crate::counters(&cache));
    output += &format!("{} folder hits {hits} flash {flash} primary {primary} fetches {fetches}\n{read}{}{sums}", calls + 1, state(&cache, &contents));
    // Read by read: what the list prints when it has the reads as its last lines, without what it prints for the others.
    let reads: Vec<u8> = asked.iter().flat_map(|a| format!("R {a}\n").into_bytes()).collect();
    let longer = states(&[&lines(input).join(&b'\n')[..], b"\n", &reads].concat(), false);
    let (before, all) = (states(input, false).lines().count() - 2, longer.lines().count() - 2);
    let each: String = longer.split_inclusive('\n').take(all).skip(before).collect();
    let sums = longer.lines().nth(all).unwrap();
    let misses = asked.len() as u64 - hits;
    output += &format!("folder {name}, read by read\n{each}{read}{sums}\n");
    output + &format!("the same contents, tables, flash, disk and counters\nblocks fetched from disk: {fetches} by one call, {misses} read by read\n")
}
