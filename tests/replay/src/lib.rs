//! Document 01's replay, written from the document alone, to compare the proved program with; lists to give to both; and the programs.
pub mod cases;
pub mod lists;
pub mod malformed;
pub mod programs;
pub mod states;

use model::{word, Cache, Call, BLOCK_SIZES, MOST_D, MOST_M, MOST_P, ZEROS};

/// A line of the list that isn't of the form, and a box that is more than a replay takes.
const NOT_THE_FORM: u32 = 4;
const TOO_LARGE: u32 = 5;
const MOST_LINE: usize = 32;
const MOST_REPLAY_P: u32 = 256;
const MOST_BYTES: u32 = 16_384;

/// What is asked in a later line: the call, its words as they are printed, and the byte that fills a written block.
struct Asked<'a> {
    call: Call,
    letter: &'a str,
    address: Option<&'a str>,
    content: u8,
}

/// The lines of an input. A newline ends a line, and a last line without one counts. Empty input is one empty line.
pub fn lines(input: &[u8]) -> Vec<&[u8]> {
    input.strip_suffix(b"\n").unwrap_or(input).split(|byte| *byte == b'\n').collect()
}

/// The words of a line that is short enough and is text, cut at each single space.
fn words(line: &[u8]) -> Option<Vec<&str>> {
    let text = std::str::from_utf8(line).ok().filter(|text| text.len() <= MOST_LINE)?;
    Some(text.split(' ').collect())
}

/// 1 to 5 digits, no leading zero but 0 itself.
fn decimal(word: &str) -> Option<u32> {
    let digits = word.chars().all(|letter| letter.is_ascii_digit());
    let leading = word.len() > 1 && word.starts_with('0');
    (digits && !leading && (1..=5).contains(&word.len())).then(|| word.parse().unwrap())
}

/// Two upper-case hexadecimal digits.
fn hexadecimal(word: &str) -> Option<u8> {
    let digit = |letter: char| letter.is_ascii_digit() || ('A'..='F').contains(&letter);
    (word.len() == 2 && word.chars().all(digit)).then(|| u8::from_str_radix(word, 16).unwrap())
}

/// What a list may have beside what a replay has: lines, or a limit.
#[derive(Clone, Copy, PartialEq)]
pub enum More {
    Nothing,
    /// A flush may have the most rows that it cleans, where the other calls have an address.
    Parts,
    /// A write may have its seat as its last word.
    Seats,
    /// The box has this limit.
    Limit(u32),
}

fn asked(line: &[u8], more: More) -> Option<Asked<'_>> {
    let mut words = words(line)?;
    // "writes carry it (0 in replay)" (document 02, U7)
    let mut seat = 0;
    if more == More::Seats && words.len() == 4 {
        seat = decimal(words.pop()?)?.try_into().ok()?;
        Some(()).filter(|_| ["T", "B", "I"].contains(&words[0]))?;
    }
    let (call, content) = match words[..] {
        ["F"] => (Call::Flush, 0),
        ["F", most] if more == More::Parts => (Call::FlushSome(decimal(most)? as usize), 0),
        ["R", _] => (Call::Read, 0),
        ["L", _] => (Call::Look, 0),
        ["T", _, hh] => (Call::Through(seat), hexadecimal(hh)?),
        ["B", _, hh] => (Call::Back(seat), hexadecimal(hh)?),
        ["I", _, hh] => (Call::Invalidate(seat), hexadecimal(hh)?),
        _ => return None,
    };
    let address = words.get(1).copied();
    address.map_or(Some(0), decimal)?;
    Some(Asked { call, letter: words[0], address, content })
}

/// A fresh box by line 1, or the number with which the line is refused: 4 before 1, 1 before 5, 5 before 12.
fn open(line: &[u8], more: More) -> Result<Cache, u32> {
    let words = words(line).filter(|words| words.len() == 5 && words[0] == "box").ok_or(NOT_THE_FORM)?;
    let numbers: Option<Vec<u32>> = words[1..].iter().map(|word| decimal(word)).collect();
    let [b, p, m, d] = numbers.ok_or(NOT_THE_FORM)?[..] else { unreachable!("four words") };
    let inside = |number: u32, most: usize| 1 <= number && number as usize <= most;
    if !(BLOCK_SIZES.contains(&(b as usize)) && inside(p, MOST_P) && inside(m, MOST_M) && inside(d, MOST_D)) {
        return Err(1);
    }
    if p > MOST_REPLAY_P || p * b > MOST_BYTES || d * b > MOST_BYTES {
        return Err(TOO_LARGE);
    }
    // "a limit t from 1 to m (m in replay)" (document 02, U8)
    let t = if let More::Limit(t) = more { t } else { m };
    if !(1..=m).contains(&t) {
        return Err(12);
    }
    let [b, p, m, d, t] = [b, p, m, d, t].map(|number| number as usize);
    let disk = (0..p).flat_map(|k| vec![k as u8; b]).collect();
    Ok(Cache::fresh(b, p, m, d, t, ZEROS, disk, vec![0; d * b]))
}

/// The output's line for a later line of the list: its fields after the call number.
fn answered(cache: &mut Cache, line: &[u8], more: More) -> Result<String, u32> {
    let Asked { call, letter, address, content } = asked(line, more).ok_or(NOT_THE_FORM)?;
    let a = address.map_or(0, |address| decimal(address).unwrap());
    let mut block = vec![content; cache.b];
    let answer = cache.call(call, a, &mut block)?;
    let (flash, primary) = if call == Call::Look { (0, 0) } else { (answer.first, answer.second) };
    Ok(format!("{letter} {} {} {flash} {primary}", address.unwrap_or("-"), word(answer.word)))
}

fn counters(cache: &Cache) -> String {
    let model::Counters { reads, hits, flash, primary } = cache.counters;
    format!("reads {reads} hits {hits} flash {flash} primary {primary}")
}

/// Replays an input. `seen` is told each line of the output, after which line of the list it comes, and the box as it is then; before the first
/// call it is told the box alone.
pub fn follow(input: &[u8], more: More, mut seen: impl FnMut(Option<&str>, Option<&[u8]>, Option<&Cache>)) {
    let list = lines(input);
    let mut cache = match open(list[0], more) {
        Ok(cache) => cache,
        Err(number) => return seen(Some(&format!("0 refused {number}")), None, None),
    };
    seen(None, None, Some(&cache));
    for (k, line) in list.iter().enumerate().skip(1) {
        let text = answered(&mut cache, line, more).unwrap_or_else(|number| format!("refused {number}"));
        seen(Some(&format!("{k} {text}")), Some(line), Some(&cache));
    }
    seen(Some(&counters(&cache)), None, Some(&cache));
}

/// The whole output for a whole input.
pub fn replay(input: &[u8]) -> Vec<u8> {
    let mut output = String::new();
    follow(input, More::Nothing, |line, _, _| {
        if let Some(line) = line {
            output += line;
            output.push('\n');
        }
    });
    output.into_bytes()
}

/// A text as a list gives it: one line for each.
pub fn list(lines: &[&str]) -> Vec<u8> {
    lines.iter().flat_map(|line| [line.as_bytes(), b"\n"].concat()).collect()
}

/// The document's own run.
pub const DOCUMENT_LIST: [&str; 9] = ["box 64 8 3 2", "R 1", "R 2", "B 3 01", "R 3", "R 4", "R 2", "F", "L 3"];
pub const DOCUMENT_OUTPUT: &str = "\
1 R 1 miss 1 0
2 R 2 miss 1 0
3 B 3 same 0 0
4 R 3 hit 0 0
5 R 4 miss 1 0
6 R 2 miss 1 1
7 F - done 0 0
8 L 3 disk 0 0
reads 5 hits 1 flash 4 primary 1
";
