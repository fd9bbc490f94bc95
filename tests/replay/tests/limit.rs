//! The states that the trainer's program prints for a box with a limit: against the model, beside those without a limit, and the lesson of the limit.
use common::{Progress, Random};
use replay::lists::random_list;
use replay::programs::{fences, root, Build, Program, Writing, PLAIN, SANITIZED};
use replay::states::{limited, states, without_states};
use replay::{list, replay};

const LISTS: usize = 250;

fn run(build: &'static Build, limit: u32, input: &[u8]) -> String {
    String::from_utf8(Program::states(build, &["--limit", &limit.to_string()]).run(input, Writing::Whole)).unwrap()
}

/// The m of a list's line 1, where it has one that a replay takes.
fn most_held(input: &[u8]) -> Option<u32> {
    if replay(input).starts_with(b"0 refused") {
        return None;
    }
    std::str::from_utf8(input).unwrap().lines().next()?.split(' ').nth(3)?.parse().ok()
}

/// What a limit leaves alone: an output without the marks, the primary writes and the sum of these.
fn in_common(output: &str) -> Vec<String> {
    let without = |line: &str| line.rsplit_once(' ').map_or(String::new(), |(before, _)| before.to_string());
    output.lines().map(|line| if line.starts_with(' ') || line.contains(" refused ") { line.replace('*', "") } else { without(line) }).collect()
}

/// The most marks in a state.
fn most_dirty(output: &str) -> usize {
    output.lines().filter(|line| line.starts_with(' ')).map(|line| line.matches('*').count()).max().unwrap_or(0)
}

/// Random lists with any limit: the output is the model's, no state has more marks than the limit, and all but marks and primary writes is as without a limit.
/// With the limit m it is that of the states. Under the sanitizers where they link.
#[test]
fn random_lists() {
    let (build, how) = if SANITIZED.links() { (&SANITIZED, "under the sanitizers") } else { (&PLAIN, "no sanitizers on this machine") };
    let mut random = Random(81);
    let mut progress = Progress::new("limits, random lists", LISTS);
    let (mut differ, mut reached) = (0, 0);
    for k in 0..LISTS {
        let input = random_list(&mut random);
        let m = most_held(&input).unwrap_or_else(|| panic!("a random list is refused: {:?}", String::from_utf8_lossy(&input)));
        let t = 1 + random.below((m as usize).min([2, 1024][k % 2])) as u32;
        let written = run(build, t, &input);
        assert!(written == limited(&input, t), "limit {t}, input {:?}:\n{written}", String::from_utf8_lossy(&input));
        let without = states(&input, false);
        assert_eq!(in_common(&written), in_common(&without), "limit {t}, input {:?}", String::from_utf8_lossy(&input));
        assert!(most_dirty(&written) <= t as usize, "limit {t}:\n{written}");
        assert_eq!(run(build, m, &input), without, "the limit m, {m}");
        differ += (written != without) as usize;
        reached += (most_dirty(&written) == t as usize) as usize;
        progress.at(k);
    }
    assert!(differ > LISTS / 10 && reached > LISTS / 10, "{differ} lists differ, {reached} reach their limit");
    println!("{LISTS} random lists from the seed 81 with a limit, {how}: {reached} reach it, {differ} differ from those without");
}

/// A limit outside 1 to m is a refused line 1, as 4, 1 and 5 are, which come before it.
#[test]
fn refused_limits() {
    let opened = list(&["box 64 8 3 2", "B 1 09", "R 1"]);
    for t in [0, 4, 5, 1_024, 1_025, 65_536, 65_537, 99_999] {
        assert_eq!((run(&PLAIN, t, &opened), limited(&opened, t)), ("0 refused 12\n".into(), "0 refused 12\n".into()), "limit {t}");
    }
    for t in [1, 2, 3] {
        assert!(run(&PLAIN, t, &opened).starts_with("1 B 1 new 1 0\n"), "limit {t}");
    }
    let boxes = [("box 64 8 0 2", 1), ("box 64 8 1025 2", 1), ("box 65 8 3 2", 1), ("box 64 257 3 2", 5), ("box 4096 5 3 2", 5), ("box 64 8 3", 4), ("", 4)];
    for (line, number) in boxes {
        for t in [0, 1, 4, 1_025] {
            let (input, expected) = (list(&[line, "R 1"]), format!("0 refused {number}\n"));
            assert_eq!((run(&PLAIN, t, &input), limited(&input, t)), (expected.clone(), expected), "{line:?}, limit {t}");
        }
    }
    println!("eight limits outside 1 to m, and {} boxes that are refused with any limit", boxes.len());
}

/// Words that are no limit: status 2, nothing on standard output, and what is wanted on standard error.
#[test]
fn not_of_the_form() {
    let input = list(&["box 64 8 3 2", "B 1 09"]);
    let no_limits = ["", "x", "01", "00", "-1", "+1", " 1", "1 ", "1,2", "1,", ",1", "0x1", "100000", "1.0", "--states"];
    for word in no_limits {
        let (status, written, said) = Program::states(&PLAIN, &["--limit", word]).ended(&input);
        assert!(status == Some(2) && written.is_empty() && said.contains("--limit takes one number"), "{word:?}: {status:?} {said}");
    }
    let others: [&[&str]; 4] = [&["--limit"], &["--limit", "1", "2"], &["--states", "--limit", "1"], &["--limit=1"]];
    for words in others {
        let (status, written, said) = Program::states(&PLAIN, words).ended(&input);
        assert!(status == Some(2) && written.is_empty() && said.contains("unknown option"), "{words:?}: {status:?} {said}");
    }
    println!("{} words that are no limit, and {} other ways of asking", no_limits.len(), others.len());
}

/// The list of lessons/limit.md, its states without a limit and with a limit of 2, and its refusal are what the program prints.
#[test]
fn the_lesson() {
    let read = |name: &str| std::fs::read_to_string(root().join("lessons").join(name)).unwrap();
    let page = read("limit.md");
    let [input, without, with, refused] = fences(&page)[..] else { panic!("the page has a list, two outputs and a refusal") };
    assert_eq!(input, read("limit.txt"));
    assert_eq!(without, states(input.as_bytes(), false));
    assert_eq!(run(&PLAIN, 2, input.as_bytes()), limited(input.as_bytes(), 2));
    assert_eq!(with, limited(input.as_bytes(), 2), "lessons/limit.md does not tell its list as it is");
    assert!(most_dirty(without) == 4 && most_dirty(with) == 2 && in_common(without) == in_common(with));
    for t in [0, 5] {
        assert_eq!(refused, run(&PLAIN, t, input.as_bytes()), "limit {t}");
    }
    // What the page says of limits of 3 and of 1.
    let three = without_states(&run(&PLAIN, 3, input.as_bytes()));
    let copied = |line: &&str| line.contains(" B ") && !line.ends_with(" 0");
    assert_eq!(three.lines().filter(copied).collect::<Vec<_>>(), ["7 B 4 new 1 1"]);
    assert!(run(&PLAIN, 1, input.as_bytes()).contains("11 F - done 0 1\n"));
    println!("the lesson of the limit, {} lines twice", with.lines().count());
}
