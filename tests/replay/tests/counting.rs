//! Hits told from a list of reads alone: what `--counts` prints, held to the rule as document 02 says it and to the engine, and the lesson, held to the
//! program.
use common::{Progress, Random};
use replay::lists::Shape;
use replay::programs::{fences, root, Program, Writing, PLAIN};
use replay::{replay, states};
use std::collections::HashSet;

const LISTS: usize = 10_000;

/// The distinct others since the last one that is `key`.
fn since(past: &[u32], key: u32) -> Option<usize> {
    let last = past.iter().rposition(|other| *other == key)?;
    Some(past[last + 1..].iter().collect::<HashSet<_>>().len())
}

/// The two counts of each read, as they are printed, and whether they tell a hit.
fn told(shape: &Shape, reads: &[u32], content: impl Fn(u32) -> u32) -> Vec<(String, bool)> {
    let contents: Vec<u32> = reads.iter().map(|a| content(*a)).collect();
    let shown = |count: Option<usize>| count.map_or("-".to_string(), |count| count.to_string());
    (0..reads.len())
        .map(|k| {
            let (addresses, others) = (since(&reads[..k], reads[k]), since(&contents[..k], contents[k]));
            let hit = addresses.is_some_and(|count| count < shape.m) && others.is_some_and(|count| count < shape.d);
            let word = if hit { "hit" } else { "miss" };
            (format!("    other addresses {}, other contents {}: {word}", shown(addresses), shown(others)), hit)
        })
        .collect()
}

fn option(contents: &[u32]) -> String {
    contents.iter().map(|content| content.to_string()).collect::<Vec<_>>().join(",")
}

/// Half of the lists are read from a disk on which addresses share contents.
#[test]
fn random_lists_of_reads() {
    let mut random = Random(69);
    let mut progress = Progress::new("counts, random lists of reads", LISTS);
    let (mut reads_done, mut hits) = (0, 0);
    for k in 0..LISTS {
        let shape = Shape::random(&mut random);
        let few = 1 + random.below(shape.p.min(shape.m + 4));
        let reads: Vec<u32> = (0..random.below(40)).map(|_| random.below(few) as u32).collect();
        let kinds = 1 + random.below(shape.d + 3).min(255);
        let contents: Vec<u32> = if k % 2 == 0 { vec![] } else { (0..shape.p).map(|_| random.below(kinds) as u32).collect() };
        let input: String = std::iter::once(shape.line()).chain(reads.iter().map(|a| format!("R {a}"))).map(|line| line + "\n").collect();
        let word = option(&contents);
        let words: &[&str] = if contents.is_empty() { &["--counts"] } else { &["--counts", &word] };
        let written = String::from_utf8(Program::states(&PLAIN, words).run(input.as_bytes(), Writing::Whole)).unwrap();
        let lines: Vec<&str> = written.lines().collect();
        let told = told(&shape, &reads, |a| contents.get(a as usize).copied().unwrap_or(a));
        assert_eq!(lines.len(), 2 * reads.len() + 1, "{input}{written}");
        for (read, (counts, hit)) in told.iter().enumerate() {
            let answer = format!("{} R {} {} ", read + 1, reads[read], if *hit { "hit" } else { "miss" });
            assert!(lines[2 * read].starts_with(&answer) && lines[2 * read + 1] == counts, "contents {word}, {input}{written}");
            hits += *hit as usize;
        }
        if contents.is_empty() {
            assert_eq!(states::without_states(&written).into_bytes(), replay(input.as_bytes()), "{input}");
        }
        reads_done += reads.len();
        progress.at(k);
    }
    assert!(hits > reads_done / 10 && hits < reads_done * 9 / 10, "{hits} hits in {reads_done} reads");
    println!("{LISTS} random lists from the seed 69 with {reads_done} reads, {hits} of them hits, in {:.0} s", progress.seconds());
}

/// A list with another line than a read that is served ends with a message that names the line.
#[test]
fn other_lines() {
    let cases = [
        ("box 64 8 3 2\nR 1\nB 2 09\n", "line 3 of the list is no read"),
        ("box 64 8 3 2\nF\n", "line 2 of the list is no read"),
        ("box 64 8 3 2\nL 1\n", "line 2 of the list is no read"),
        ("box 64 8 3 2\nR 1\nR  1\n", "line 3 of the list is no read"),
        ("box 64 8 3 2\nR 8\n", "line 2 of the list is a read of an address that the disk has not"),
    ];
    for (input, message) in cases {
        let (status, _, said) = Program::states(&PLAIN, &["--counts"]).ended(input.as_bytes());
        assert!(status == Some(1) && said.contains(message), "{input}: {status:?} {said}");
    }
    for word in ["256", "1,", ",1", "1,,2", "01", "x", "-1"] {
        let (status, written, said) = Program::states(&PLAIN, &["--counts", word]).ended(b"box 64 8 3 2\n");
        assert!(status == Some(2) && written.is_empty() && said.contains("contents from 0 to 255"), "{word}: {status:?} {said}");
    }
    println!("{} lists that are not counted", cases.len());
}

/// Each command of lessons/counting.md with what the page shows after it.
#[test]
fn the_lesson() {
    let page = std::fs::read_to_string(root().join("lessons/counting.md")).unwrap();
    let mut shown = 0;
    for pair in fences(&page).windows(2) {
        let Some(words) = pair[0].strip_prefix("./replay --").map(str::trim_end) else { continue };
        let words: Vec<&str> = words.split(' ').collect();
        let (options, file): (Vec<&str>, &str) = match words[..] {
            ["counts", file] => (vec!["--counts"], file),
            ["disk", contents, file] => (vec!["--counts", contents], file),
            ["states", file] => (vec![], file),
            _ => panic!("another command: {}", pair[0]),
        };
        let input = std::fs::read(root().join(file)).unwrap();
        let written = String::from_utf8(Program::states(&PLAIN, &options).run(&input, Writing::Whole)).unwrap();
        assert_eq!(pair[1], written, "lessons/counting.md shows another output after {}", pair[0]);
        shown += 1;
    }
    assert_eq!(shown, 3, "commands that are shown with their output");
    println!("{shown} commands of lessons/counting.md");
}
