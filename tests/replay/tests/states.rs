//! The trainer's program of the states on the proved engine: the document's worked states, and every line of it against the model.
use common::{Progress, Random};
use replay::programs::{root, Build, Program, Writing, PLAIN, SANITIZED};
use replay::{cases::cases, list, lists::random_list, malformed::KINDS, replay, states, DOCUMENT_LIST};

const LISTS: usize = 600;
const EACH_KIND: usize = 5;

fn run(build: &'static Build, words: &[&'static str], input: &[u8]) -> String {
    String::from_utf8(Program::states(build, words).run(input, Writing::Whole)).unwrap()
}

/// A worked state of document 01: the box, the calls and what the document says of the state and of the last answers.
struct Worked {
    name: &'static str,
    /// None: the document's run.
    box_line: Option<&'static str>,
    calls: &'static [&'static str],
    state: &'static str,
    answers: &'static [&'static str],
    disk: Option<&'static str>,
}

/// In the document's words; where it gives only the blocks (E3), the state here is the end of the line.
const WORKED: [Worked; 8] = [
    Worked { name: "E1", box_line: None, calls: &[], state: "3:1 4:4 2:2; blocks 4 2", answers: &[], disk: None },
    Worked { name: "E2", box_line: None, calls: &["T 4 02"], state: "3:1 2:2 4:2; blocks - 2", answers: &[], disk: None },
    Worked { name: "E3", box_line: None, calls: &["T 4 05"], state: "; blocks 2 5", answers: &["9 T 4 new 1 1"], disk: None },
    Worked { name: "E4", box_line: None, calls: &["I 2 07"], state: "3:1 4:4; blocks - 4", answers: &[], disk: None },
    Worked { name: "E5", box_line: None, calls: &["R 3"], state: "4:4 2:2 3:1; blocks 2 1", answers: &["9 R 3 miss 1 0"], disk: None },
    Worked { name: "E6", box_line: Some("box 64 8 1 2"), calls: &["R 1", "R 2", "R 3"], state: "3:3; blocks 2 3", answers: &[], disk: None },
    Worked { name: "E7", box_line: Some("box 64 8 1 1"), calls: &["B 0 09", "R 1"], state: "1:1; blocks 1", answers: &[], disk: Some("disk 9 1 2 3 4 5 6 7") },
    Worked {
        name: "E8",
        box_line: Some("box 64 8 2 2"),
        calls: &["T 0 05", "T 1 05"],
        state: "0:5 1:5; blocks - 5",
        answers: &["1 T 0 new 1 1", "2 T 1 same 0 1"],
        disk: None,
    },
];

#[test]
fn e1_to_e8() {
    for Worked { name, box_line, calls, state, answers, disk } in WORKED {
        let before: Vec<&str> = box_line.map_or(DOCUMENT_LIST.to_vec(), |line| vec![line]);
        let input = list(&[&before, calls].concat());
        let output = run(&PLAIN, &[], &input);
        let lines: Vec<&str> = output.lines().collect();
        let last = lines[lines.len() - 1].trim_start();
        assert!(last == state || state.starts_with(';') && last.ends_with(state), "{name}: the state is {last}");
        for answer in answers {
            assert!(lines.contains(answer), "{name}: no line is {answer}:\n{output}");
        }
        if let Some(disk) = disk {
            let full = run(&PLAIN, &["--full"], &input);
            assert_eq!(full.lines().last().map(str::trim_start), Some(disk), "{name}");
        }
        println!("{name}: {last}");
    }
}

/// All of the output, and what is left of it without the states.
fn compare(build: &'static Build, full: bool, input: &[u8]) {
    let written = run(build, if full { &["--full"] } else { &[] }, input);
    assert!(written == states::states(input, full), "full {full}, input {:?}:\n{written}", String::from_utf8_lossy(input));
    assert!(states::without_states(&written).into_bytes() == replay(input), "without the states, full {full}, input {:?}", String::from_utf8_lossy(input));
}

#[test]
fn random_lists() {
    let mut random = Random(64);
    let mut progress = Progress::new("states, random lists", LISTS);
    let mut marks = 0;
    for k in 0..LISTS {
        let input = random_list(&mut random);
        compare(&PLAIN, false, &input);
        compare(&PLAIN, true, &input);
        marks += states::states(&input, false).matches('*').count();
        progress.at(k);
    }
    assert!(marks > 1_000, "only {marks} dirty rows");
    println!("{LISTS} random lists from the seed 64, with {marks} marks of dirty rows, in {:.0} s", progress.seconds());
}

/// Random lists in which some lines are flushes in parts, with `--parts`.
#[test]
fn flushes_in_parts() {
    let mut random = Random(67);
    let mut flushes = 0;
    for _ in 0..LISTS / 4 {
        let text = String::from_utf8(random_list(&mut random)).unwrap();
        let mut input = String::new();
        for (k, line) in text.lines().enumerate() {
            input += &format!("{line}\n");
            if k > 0 && random.below(3) == 0 {
                input += &format!("F {}\n", [0, 1, 2, random.below(6), 1_024, 99_999][random.below(6)]);
                flushes += 1;
            }
        }
        assert_eq!(run(&PLAIN, &["--parts"], input.as_bytes()), states::in_parts(input.as_bytes()), "{input}");
        compare(&PLAIN, false, input.as_bytes());
    }
    println!("{} random lists from the seed 67 with {flushes} flushes in parts", LISTS / 4);
}

/// Under the address and undefined-behaviour sanitizers where they link.
#[test]
fn malformed_inputs() {
    let (build, how) = if SANITIZED.links() { (&SANITIZED, "under the sanitizers") } else { (&PLAIN, "no sanitizers on this machine") };
    let mut random = Random(65);
    let cases = cases();
    let mut progress = Progress::new("states, malformed inputs", cases.len() + EACH_KIND * KINDS.len());
    for (k, (input, _)) in cases.iter().enumerate() {
        compare(build, true, input);
        progress.at(k);
    }
    for k in 0..EACH_KIND * KINDS.len() {
        compare(build, true, &KINDS[k % KINDS.len()].1(&mut random));
        progress.at(cases.len() + k);
    }
    println!("{} inputs by hand and {} of {} kinds from the seed 65, {how}, in {:.0} s", cases.len(), EACH_KIND * KINDS.len(), KINDS.len(), progress.seconds());
}

/// The page that docs/ keeps is the one that is made of the lesson now.
#[test]
fn the_page_of_the_week() {
    let read = |name: &str| std::fs::read(root().join(name)).unwrap();
    let full = Program::states(&PLAIN, &["--full", "--explain"]).run(&read("lessons/week.txt"), Writing::Whole);
    let page = Program::page("The sealed page through the week").run(&full, Writing::Whole);
    assert!(page == read("docs/week.html"), "docs/week.html is another page: `./replay --page lessons/week.txt > docs/week.html` makes it");
    println!("docs/week.html: {} bytes", page.len());
}

/// Every list gives a page with one picture for each line, whatever its bytes are; no byte of the list becomes markup.
#[test]
fn pages() {
    let mut random = Random(66);
    let mut pictures = 0;
    for k in 0..2 * KINDS.len() {
        let input = if k % 2 == 0 { KINDS[k / 2].1(&mut random) } else { [&b"box 64 8 3 2\nR 1\n<script>\n&amp;\n"[..], &random_list(&mut random)].concat() };
        let full = Program::states(&PLAIN, &["--full", "--explain"]).run(&input, Writing::Whole);
        let page = String::from_utf8(Program::page("<title> & \"title\"").run(&full, Writing::Whole)).unwrap();
        let lines = states::without_states(std::str::from_utf8(&full).unwrap()).lines().count();
        let first = full.starts_with(b"    box") as usize;
        assert_eq!(page.matches("<section>").count(), lines + first, "input {:?}", String::from_utf8_lossy(&input));
        assert!(!page.contains("<script") && page.starts_with("<!DOCTYPE html>") && page.ends_with("</html>\n"));
        pictures += lines;
    }
    println!("{} pages with {pictures} lines", 2 * KINDS.len());
}
