//! `./replay --mark`: a candidate's answers beside the key.
use replay::programs::{folder, root};
use std::process::Command;

/// Runs ./replay --mark with these answers to a lesson. Gives the status and the output; nothing is said on standard error.
fn marked(name: &str, answers: &[u8], lesson: &str) -> (Option<i32>, String) {
    let place = folder(name);
    std::fs::write(place.join("answers.txt"), answers).unwrap();
    let list = root().join("lessons").join(lesson);
    let done = Command::new(root().join("replay")).args(["--mark", "answers.txt"]).arg(list).current_dir(&place).output().unwrap();
    assert!(done.stderr.is_empty(), "{}", String::from_utf8_lossy(&done.stderr));
    (done.status.code(), String::from_utf8(done.stdout).unwrap())
}

fn key(name: &str) -> String {
    std::fs::read_to_string(root().join("lessons").join(name)).unwrap()
}

/// The answer key itself, of every lesson; and with what a candidate's editor may leave at the ends.
#[test]
fn right_answers() {
    let mut count = 0;
    for entry in std::fs::read_dir(root().join("lessons")).unwrap() {
        let name = entry.unwrap().file_name().into_string().unwrap();
        let Some(lesson) = name.strip_suffix(".expected") else { continue };
        let key = key(&name);
        let lines = key.lines().count();
        let right = (Some(0), format!("{lines} of {lines} lines are right\n"));
        for answers in [key.clone(), key.replace('\n', "\r\n"), key.replace('\n', "  \n"), key.trim_end().to_string(), key.replace('\n', "\n \n\r\n")] {
            assert_eq!(marked("mark-right", answers.as_bytes(), &format!("{lesson}.txt")), right, "{lesson}");
        }
        count += 1;
    }
    assert!(count >= 17, "{count} lessons");
    println!("the keys of {count} lessons, each in five forms");
}

/// Answers to the week: what is done to the key, and what is printed.
#[test]
fn wrong_answers() {
    let week = key("week.expected");
    let lines: Vec<&str> = week.lines().collect();
    let join = |lines: &[&str]| lines.iter().map(|line| format!("{line}\n")).collect::<String>();
    let without = |k: usize| join(&[&lines[..k], &lines[k + 1..]].concat());
    let with = |k: usize, line: &str| join(&[&lines[..k], &[line][..], &lines[k..]].concat());
    let third = "    the key       3 B 2 same 0 0\n    why           B 2 09: content 9 is in flash already; address 2 becomes dirty\n    \
                 state before  1:9*; blocks - 9\n    state after   1:9* 2:9*; blocks - 9\n";
    let first = |answer: &str| format!("The first difference is at line 4 of the list\n    the answer    {answer}\n{third}");
    let sums =
        "    the key       reads 3 hits 1 flash 4 primary 4\n    why           each call's numbers add up to these; refused calls and looks count nothing\n";
    let cases = [
        (week.replace("3 B 2 same 0 0", "3 B 2 new 1 0"), first("3 B 2 new 1 0") + "12 of 13 lines are right\n"),
        (week.replace("3 B 2 same 0 0", "3 B 2 same 0"), first("3 B 2 same 0") + "12 of 13 lines are right\n"),
        (week.replace("3 B 2 same 0 0", "3  B 2 same 0 0"), first("3  B 2 same 0 0") + "12 of 13 lines are right\n"),
        (week.replace("3 B 2 same 0 0", "same"), first("same") + "12 of 13 lines are right\n"),
        (week.replace("3 B 2 same 0 0", "3 B 2 s\u{e4}me 0 0"), first("3 B 2 s??me 0 0") + "12 of 13 lines are right\n"),
        // A line left out, one twice, one put in: the lines behind it stay right.
        (without(2), first("(none)") + "12 of 13 lines are right\n"),
        (with(2, lines[1]), first(lines[1]) + "13 of 13 lines are right, and 1 line is too many\n"),
        (
            with(13, "14 R 1 hit 0 0"),
            "The first difference is after the key's end\n    the answer    14 R 1 hit 0 0\n13 of 13 lines are right, and 1 line is too many\n".into(),
        ),
        (
            format!("{week}\n14 R 1 hit 0 0\n\nmore\n"),
            "The first difference is after the key's end\n    the answer    14 R 1 hit 0 0\n13 of 13 lines are right, and 2 lines are too many\n".into(),
        ),
        (
            week.replace("hits 1", "hits 2"),
            format!("The first difference is in the sums\n    the answer    reads 3 hits 2 flash 4 primary 4\n{sums}12 of 13 lines are right\n"),
        ),
        (without(12), format!("The first difference is in the sums\n    the answer    (none)\n{sums}12 of 13 lines are right\n")),
        // Only the first difference is told; all are counted.
        (
            week.replace("3 B 2 same", "3 B 2 new").replace("9 R 2 miss", "9 R 2 hit").replace("12 F", "12 L"),
            first("3 B 2 new 0 0") + "10 of 13 lines are right\n",
        ),
    ];
    for (answers, expected) in &cases {
        assert_eq!(marked("mark-wrong", answers.as_bytes(), "week.txt"), (Some(1), expected.clone()), "{answers}");
    }
    let (status, written) = marked("mark-wrong", b"", "week.txt");
    assert!(
        status == Some(1) && written.starts_with("The first difference is at line 2 of the list\n    the answer    (none)\n    the key       1 B 1 new 1 0\n"),
        "{written}"
    );
    assert!(written.contains("    state before  the box is fresh\n") && written.ends_with("\n0 of 13 lines are right\n"), "{written}");
    println!("{} wrong sheets of answers, and an empty one", cases.len());
}

/// The reasons of refusals, of line 1 too, and of more than one reason.
#[test]
fn reasons() {
    let told = |lesson: &str, old: &str, new: &str| {
        marked("mark-reasons", key(&format!("{lesson}.expected")).replace(old, new).as_bytes(), &format!("{lesson}.txt")).1
    };
    let refused = told("refused-4", "10 refused 4", "10 T 1 new 1 1");
    assert!(refused.contains("    why           T 1 0a: a content is two upper-case hexadecimal digits\n    state before  1:1; blocks - 1\n"), "{refused}");
    let first = told("refused-box-5", "refused 5", "refused 1");
    assert_eq!(
        first,
        "The first difference is at line 1 of the list\n    the answer    0 refused 1\n    the key       0 refused 5\n    \
         why           box 64 257 3 2: P is 257: a replay takes 256 at most\n0 of 1 lines are right\n"
    );
    let several = told("week", "7 B 5 new 1 1", "7 B 5 new 1 0");
    let why = "    why           B 5 0A: content 10 is not in flash yet; address 5 becomes dirty\n                  \
               flash is full and each of its blocks has an address: content 9, the oldest, leaves; address 2 is dirty, so content 9 is \
               copied to the disk first\n\
               \x20                 content 10 is stored in flash\n    state before  ";
    assert!(several.contains(why), "{several}");
    println!("reasons of a refused line, of line 1, and three of one line");
}

/// A box with all rows in use, whose states are long lines, and answers of any bytes.
#[test]
fn long_lines_and_any_bytes() {
    let place = folder("mark-long");
    let list: String = std::iter::once("box 64 256 1024 256\n".to_string()).chain((0..256).map(|k| format!("B {k} {:02X}\n", 255 - k))).collect();
    std::fs::write(place.join("list.txt"), &list).unwrap();
    let key = String::from_utf8(replay::replay(list.as_bytes())).unwrap();
    let run = |answers: &[u8]| {
        std::fs::write(place.join("answers.txt"), answers).unwrap();
        let done = Command::new(root().join("replay")).args(["--mark", "answers.txt", "list.txt"]).current_dir(&place).output().unwrap();
        (done.status.code(), String::from_utf8(done.stdout).unwrap())
    };
    assert_eq!(run(key.as_bytes()), (Some(0), "257 of 257 lines are right\n".into()));
    let (status, written) = run(key.replace("256 B 255 new 1 0", "256 B 255 new 1 1").as_bytes());
    let states = replay::states::states(list.as_bytes(), false);
    let last = states.lines().last().unwrap().trim_start();
    assert!(status == Some(1) && written.contains(&format!("    state after   {last}\n256 of 257 lines are right\n")), "{written}");
    let (status, written) = run(&[vec![0xFF; 300_000], b"\n\0\0\n".to_vec()].concat());
    assert!(status == Some(1) && written.ends_with("\n0 of 257 lines are right\n") && written.is_ascii(), "{}", written.len());
    println!("long states, and answers of any bytes");
}

/// The example of lessons/README.md.
#[test]
fn as_the_page_tells_it() {
    let page = key("README.md");
    let shown = page.split("```\n").find(|piece| piece.starts_with("The first difference")).unwrap();
    let answers = key("week.expected").replace("3 B 2 same 0 0", "3 B 2 new 1 0");
    assert_eq!(marked("mark-page", answers.as_bytes(), "week.txt"), (Some(1), shown.to_string()));
    println!("the example of lessons/README.md");
}
