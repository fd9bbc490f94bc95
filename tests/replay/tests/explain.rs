//! `--explain`: the rule that each refused line breaks, and what the cache did in each other line and why.
use common::Random;
use replay::programs::{root, Build, Program, Writing, PLAIN, SANITIZED};
use replay::{cases::cases, list, lists::random_list, malformed::KINDS, states};

const LISTS: usize = 300;

fn explained(build: &'static Build, input: &[u8]) -> String {
    String::from_utf8(Program::states(build, &["--explain"]).run(input, Writing::Whole)).unwrap()
}

/// The lines below each answer but the state, without their spaces; a refused box line has no state.
fn reasons(output: &str) -> Vec<(String, Vec<String>)> {
    let mut all: Vec<(String, Vec<String>)> = vec![];
    for line in output.lines() {
        match line.strip_prefix("    ") {
            Some(reason) => all.last_mut().unwrap().1.push(reason.to_string()),
            None => all.push((line.to_string(), vec![])),
        }
    }
    for (answer, reasons) in &mut all {
        if !answer.starts_with("0 ") {
            reasons.pop();
        }
    }
    all
}

/// Lines that are not of the form, after `box 64 8 3 2`, with the rule that is told.
const LATER: [(&str, &str); 34] = [
    ("", "an empty line is no request"),
    ("R 1 and a tail that is far too long", "R 1 and a tail that is far too l...: 32 bytes at most"),
    ("R 1                             ", "R 1                             : no space before the first word, and none after the last"),
    ("R 1\r", "R 1?: a carriage return: save the file with line ends of one byte"),
    ("\u{feff}R 1", "???R 1: a byte order mark: save the file without one"),
    ("R\t1", "R?1: a tab: words have single spaces between them"),
    ("R é", "R ??: a byte that is no letter, digit or space"),
    ("R \0", "R ?: a byte that is no letter, digit or space"),
    (" R 1", " R 1: no space before the first word, and none after the last"),
    ("R 1 ", "R 1 : no space before the first word, and none after the last"),
    ("R  1", "R  1: single spaces between words"),
    ("r 1", "r 1: the letter of a request is in upper case"),
    ("f", "f: the letter of a request is in upper case"),
    ("X 1", "X 1: a request begins with one of the letters R, L, F, T, B and I, and a space behind it where more follows"),
    ("R1", "R1: a request begins with one of the letters R, L, F, T, B and I, and a space behind it where more follows"),
    ("box 64 8 3 2", "box 64 8 3 2: a box line is line 1 only"),
    ("R", "R: R and L have one address behind them, and nothing more"),
    ("L 1 07", "L 1 07: R and L have one address behind them, and nothing more"),
    ("F 1", "F 1: F stands alone"),
    ("T 1", "T 1: T, B and I have an address and a content behind them, and nothing more"),
    ("I 1 07 08", "I 1 07 08: T, B and I have an address and a content behind them, and nothing more"),
    ("R -1", "R -1: a number has decimal digits only"),
    ("L A", "L A: a number has decimal digits only"),
    ("R 01", "R 01: a number has no zero before its first digit"),
    ("R 100000", "R 100000: a number has five digits at most"),
    ("B 01 07", "B 01 07: a number has no zero before its first digit"),
    ("T 1 7", "T 1 7: a content is two upper-case hexadecimal digits"),
    ("T 1 0a", "T 1 0a: a content is two upper-case hexadecimal digits"),
    ("B 1 0G", "B 1 0G: a content is two upper-case hexadecimal digits"),
    ("I 1 123", "I 1 123: a content is two upper-case hexadecimal digits"),
    // 4 comes before 3.
    ("I 8 0g", "I 8 0g: a content is two upper-case hexadecimal digits"),
    ("R 8", "R 8: address 8: the disk has 8 blocks, 0 to 7"),
    ("B 99999 07", "B 99999 07: address 99999: the disk has 8 blocks, 0 to 7"),
    ("L 9", "L 9: address 9: the disk has 8 blocks, 0 to 7"),
];

/// Line 1, with what is told.
const FIRST: [(&str, &str); 17] = [
    ("", "line 1 is box B P m d, and this one is empty"),
    ("\u{feff}box 64 8 3 2", "???box 64 8 3 2: a byte order mark: save the file without one"),
    ("box 64 8 3 2\r", "box 64 8 3 2?: a carriage return: save the file with line ends of one byte"),
    ("R 1", "R 1: line 1 begins with the word box, in lower case"),
    ("Box 64 8 3 2", "Box 64 8 3 2: line 1 begins with the word box, in lower case"),
    ("box 64 8 3", "box 64 8 3: line 1 has four numbers after the word box: B, P, m and d"),
    ("box 64 8 3 2 1", "box 64 8 3 2 1: line 1 has four numbers after the word box: B, P, m and d"),
    ("box 64 08 3 2", "box 64 08 3 2: a number has no zero before its first digit"),
    ("box 64 8 3 100000", "box 64 8 3 100000: a number has five digits at most"),
    ("box 64 8 x 2", "box 64 8 x 2: a number has decimal digits only"),
    ("box 96 257 3 2", "box 96 257 3 2: B is 96: it is 64, 128, 256, 512, 1024, 2048 or 4096"),
    ("box 64 0 3 2", "box 64 0 3 2: P is 0: it is 1 to 65536"),
    ("box 64 8 1025 2", "box 64 8 1025 2: m is 1025: it is 1 to 1024"),
    ("box 64 8 3 257", "box 64 8 3 257: d is 257: it is 1 to 256"),
    ("box 64 257 3 2", "box 64 257 3 2: P is 257: a replay takes 256 at most"),
    ("box 4096 5 3 2", "box 4096 5 3 2: P x B is 20480: a replay takes 16384 at most"),
    ("box 4096 4 3 5", "box 4096 4 3 5: d x B is 20480: a replay takes 16384 at most"),
];

#[test]
fn refused_lines() {
    for (line, rule) in LATER {
        let output = explained(&PLAIN, &list(&["box 64 8 3 2", line]));
        assert_eq!(reasons(&output)[0].1, [rule], "{line:?}: {output}");
        assert!(output.contains(if rule.contains("the disk has") { "1 refused 3\n" } else { "1 refused 4\n" }), "{line:?}");
    }
    for (line, rule) in FIRST {
        let output = explained(&PLAIN, format!("{line}\n").as_bytes());
        assert_eq!(output.split_once('\n').unwrap().1, format!("    {rule}\n"), "{line:?}");
    }
    println!("{} refused lines and {} box lines with their rule", LATER.len(), FIRST.len());
}

/// A list, its line that is looked at, and all that is said of that line.
type Case = (&'static [&'static str], &'static str, &'static [&'static str]);

const SERVED: [Case; 24] = [
    (&["box 64 8 3 2"], "R 1", &["R 1: address 1 is not held: its block, content 1, comes from the disk", "content 1 is stored in flash"]),
    (&["box 64 8 3 2", "R 1"], "R 1", &["R 1: address 1 is held and its block, content 1, is in flash"]),
    (&["box 64 8 3 2", "I 7 03", "R 3"], "R 7", &[
        "R 7: address 7 is not held: its block, content 3, comes from the disk; it is in flash already and is not stored again",
    ]),
    (&["box 64 8 3 1", "R 1", "R 2"], "R 1", &[
        "R 1: address 1 is held, but its block, content 1, is not in flash: it comes from the disk",
        "flash is full and each of its blocks has an address: content 2, the oldest, leaves",
        "content 1 is stored in flash",
    ]),
    (&["box 64 8 3 2", "R 1"], "L 1", &["L 1: address 1 is held and its block, content 1, is in flash"]),
    (&["box 64 8 3 2", "R 1"], "L 2", &["L 2: address 2 is not held: its block is on the disk"]),
    (&["box 64 8 3 1", "R 1", "R 2"], "L 1", &["L 1: address 1 is held, but its block is not in flash: it is on the disk"]),
    (&["box 64 8 3 2"], "T 1 09", &["T 1 09: content 9 is not in flash yet; it goes to the disk at once", "content 9 is stored in flash"]),
    (&["box 64 8 3 2", "T 1 09"], "T 2 09", &["T 2 09: content 9 is in flash already; it goes to the disk at once"]),
    (&["box 64 8 3 2"], "B 1 09", &["B 1 09: content 9 is not in flash yet; address 1 becomes dirty", "content 9 is stored in flash"]),
    (&["box 64 8 3 2", "B 1 09"], "B 1 09", &["B 1 09: content 9 is in flash already; address 1 stays dirty"]),
    (&["box 64 8 3 2", "R 1"], "B 1 01", &["B 1 01: content 1 is in flash already; address 1 was held, clean, with the same content: it stays clean"]),
    (&["box 64 8 3 2"], "I 1 09", &["I 1 09: content 9 is not in flash yet; it goes to the disk only, and address 1 is not held"]),
    (&["box 64 8 3 2", "R 1"], "I 1 01", &[
        "I 1 01: content 1 is in flash already; it goes to the disk only, and address 1 leaves the cache",
        "no address has content 1 now: its row becomes free",
    ]),
    (&["box 64 8 3 2", "T 1 09", "T 2 09"], "I 1 05", &["I 1 05: content 5 is not in flash yet; it goes to the disk only, and address 1 leaves the cache"]),
    (&["box 64 8 1 2", "R 1"], "R 2", &[
        "R 2: address 2 is not held: its block, content 2, comes from the disk",
        "the address table is full: address 1, the oldest, leaves",
        "content 2 is stored in flash",
    ]),
    (&["box 64 8 1 2", "B 1 09"], "R 2", &[
        "R 2: address 2 is not held: its block, content 2, comes from the disk",
        "the address table is full: address 1, the oldest, leaves; it is dirty, so content 9 is copied to the disk",
        "content 2 is stored in flash",
    ]),
    (&["box 64 8 1 2", "R 1", "R 2"], "R 3", &[
        "R 3: address 3 is not held: its block, content 3, comes from the disk",
        "the address table is full: address 2, the oldest, leaves",
        "flash is full: content 1, the oldest that no address has, leaves",
        "content 3 is stored in flash",
    ]),
    (&["box 64 8 3 1", "B 1 09", "B 2 09"], "R 3", &[
        "R 3: address 3 is not held: its block, content 3, comes from the disk",
        "flash is full and each of its blocks has an address: content 9, the oldest, leaves; address 1 is dirty, so content 9 is copied to the disk first; \
         address 2 is dirty, so content 9 is copied to the disk first",
        "content 3 is stored in flash",
    ]),
    // The address that is written again has its old content copied nowhere.
    (&["box 64 8 3 1", "B 1 09"], "B 1 0A", &[
        "B 1 0A: content 10 is not in flash yet; address 1 stays dirty",
        "flash is full: content 9, the oldest that no address has, leaves",
        "content 10 is stored in flash",
    ]),
    (&["box 64 8 3 2", "R 1", "R 2", "R 3"], "T 3 02", &[
        "T 3 02: content 2 is in flash already; it goes to the disk at once",
        "no address has content 3 now, and address 1 is without its block: the row of content 3 becomes free",
    ]),
    (&["box 64 8 3 2", "R 1", "R 2", "R 3"], "T 3 04", &[
        "T 3 04: content 4 is not in flash yet; it goes to the disk at once",
        "no address has content 3 now, and address 1 is without its block: the row of content 3 becomes free",
        "content 4 is stored in flash",
    ]),
    (&["box 64 8 3 2", "B 1 09", "R 2"], "F", &["F: address 1 is dirty, so content 9 is copied to the disk"]),
    (&["box 64 8 3 2", "R 2"], "F", &["F: no address is dirty: nothing is copied"]),
];

#[test]
fn served_lines() {
    for (before, line, said) in SERVED {
        let output = explained(&PLAIN, &list(&[before, &[line]].concat()));
        let all = reasons(&output);
        assert_eq!(all[all.len() - 2].1, said, "{before:?} {line}: {output}");
    }
    println!("{} served lines with what is said of them", SERVED.len());
}

/// Random lists, inputs by hand, and one of each malformed kind.
fn inputs(random: &mut Random, lists: usize) -> Vec<Vec<u8>> {
    let mut inputs: Vec<Vec<u8>> = (0..lists).map(|_| random_list(random)).collect();
    inputs.extend(cases().into_iter().map(|(input, _)| input));
    inputs.extend(KINDS.iter().map(|(_, make)| make(random)));
    inputs
}

/// Of any list: the answers and states are those without the option, each line has its reason, and what is said to be stored and copied is what the
/// answer counts.
#[test]
fn random_lists() {
    let (build, how) = if SANITIZED.links() { (&SANITIZED, "under the sanitizers") } else { (&PLAIN, "no sanitizers on this machine") };
    let mut random = Random(68);
    let inputs = inputs(&mut random, LISTS);
    let (mut stored, mut copied, mut freed) = (0, 0, 0);
    for input in &inputs {
        let output = explained(build, input);
        assert_eq!(states::without_states(&output).into_bytes(), replay::replay(input));
        let mut places = output.lines().peekable();
        let kept: String = std::iter::from_fn(|| places.next().map(|line| (line, places.peek().is_none_or(|next| !next.starts_with(' ')))))
            .filter(|(line, last)| !line.starts_with(' ') || *last)
            .map(|(line, _)| format!("{line}\n"))
            .collect();
        let shown = |line: &str| String::from_utf8_lossy(input).into_owned() + line;
        for (answer, reasons) in reasons(&output) {
            let words: Vec<&str> = answer.split(' ').collect();
            let text = reasons.join("\n");
            if answer.starts_with("reads ") {
                assert!(reasons.is_empty());
                continue;
            }
            assert!(!text.is_empty() && !text.contains("(null)"), "{}", shown(&answer));
            if words[1] == "refused" {
                assert_eq!(reasons.len(), 1, "{}", shown(&answer));
                continue;
            }
            let count = |part: &str| text.matches(part).count().to_string();
            assert_eq!(count("is stored in flash"), words[4], "{}\n{text}", shown(&answer));
            let to_disk = text.matches("is copied to the disk").count() + text.matches("it goes to the disk").count();
            assert_eq!(to_disk.to_string(), words[5], "{}\n{text}", shown(&answer));
            stored += (words[4] == "1") as usize;
            copied += text.matches("is copied to the disk").count();
            freed += text.matches("becomes free").count();
        }
        if !output.starts_with("0 refused") {
            assert_eq!(kept, states::states(input, false), "the states");
        }
    }
    assert!(stored > 1_000 && copied > 500 && freed > 100, "{stored} stored, {copied} copied, {freed} freed");
    println!("{} lists, {how}: {stored} blocks said to be stored, {copied} copied, {freed} rows freed", inputs.len());
}

/// A page has the reasons of every line, in their order, and no byte of the list becomes markup; the line's text, which is its heading, is not told again.
#[test]
fn on_the_page() {
    let escaped = |text: &str| text.replace('&', "&amp;").replace('<', "&lt;").replace('>', "&gt;").replace('"', "&quot;").replace('\'', "&#x27;");
    let (mut count, mut pages) = (0, 0);
    for input in inputs(&mut Random(70), 40).into_iter().step_by(4) {
        let both = Program::states(&PLAIN, &["--full", "--explain"]).run(&input, Writing::Whole);
        let page = String::from_utf8(Program::page("reasons").run(&both, Writing::Whole)).unwrap();
        let mut shown = page.split("<li>").skip(1).map(|rest| rest.split("</li>").next().unwrap());
        for (answer, reasons) in reasons(&explained(&PLAIN, &input)) {
            for (k, reason) in reasons.iter().enumerate() {
                let item = shown.next().unwrap();
                let (whole, tail) = (escaped(reason), format!(": {item}"));
                let first = k == 0 && !answer.starts_with("0 ");
                assert!(
                    whole == item && (!first || answer.contains("refused")) || first && whole.ends_with(&tail),
                    "{answer}: {reason}, and on the page {item}"
                );
                count += 1;
            }
        }
        assert_eq!(shown.next(), None);
        pages += 1;
    }
    assert!(pages > 40 && count > 500, "{pages} pages with {count} reasons");
    println!("{pages} pages with {count} reasons");
}

/// The example of lessons/README.md.
#[test]
fn as_the_page_tells_it() {
    let read = |name: &str| std::fs::read_to_string(root().join("lessons").join(name)).unwrap();
    let page = read("README.md");
    let section = page.split("## How to see why\n").nth(1).unwrap();
    let shown = section.split("```\n").nth(1).unwrap();
    let output = explained(&PLAIN, read("week.txt").as_bytes());
    assert!(shown.lines().count() == 5 && output.contains(&format!("\n{shown}")), "{output}");
    let refused = section.split('`').find(|piece| piece.starts_with("R 01: ")).unwrap();
    assert!(explained(&PLAIN, read("refused-4.txt").as_bytes()).contains(&format!("    {refused}\n")), "{refused}");
    println!("the example of lessons/README.md");
}
