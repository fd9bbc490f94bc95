//! The command ./exam: its table and its lists held to every list by the model, its words, and the lesson held to the program.
use common::Random;
use model::exam::{key, lists, scores, Question, COUNTS};
use model::LABEL;
use replay::programs::{fences, folder, root, Program, Writing, EXAM, EXAM_SANITIZED};
use std::process::{Command, Output, Stdio};

const QUESTIONS: usize = 300;

/// A question under the label of zeros over a disk whose blocks are filled with these bytes.
fn question([p, m, d, k]: [usize; 4], contents: &[u8]) -> Question {
    Question { b: 64, p, m, d, t: m, label: vec![0; LABEL], disk: contents.iter().flat_map(|byte| vec![*byte; 64]).collect(), k, counts: vec![0; COUNTS] }
}

/// The table, line by line: hits, lists, the share in percent to one digit, and a bar as long as the count is beside the largest.
fn table(q: &Question) -> String {
    let counts = scores(q);
    let (total, most) = (counts.iter().sum::<u64>(), *counts.iter().max().unwrap());
    let reads = if q.k == 1 { "read" } else { "reads" };
    let mut text = format!("box 64 {} {} {}, lists of {} {reads}: {total}\nhits   lists    share\n", q.p, q.m, q.d, q.k);
    for (h, count) in counts.iter().enumerate() {
        let share = (1000 * count + total / 2) / total;
        let line = format!("{h:4} {count:7} {:>6} %  {}", format!("{}.{}", share / 10, share % 10), "#".repeat((40 * count).div_ceil(most) as usize));
        text += &format!("{}\n", line.trim_end());
    }
    text
}

/// What --list prints: so many of the lists with a score, at equal distances, with their keys.
fn listed(q: &Question, score: usize, asked: usize) -> String {
    let hits = |list: &[u32]| key(q, list).into_iter().filter(|hit| *hit).count();
    let with: Vec<Vec<u32>> = lists(q.p, q.k).filter(|list| hits(list) == score).collect();
    let shown = asked.min(with.len());
    let plural = |count: usize| if count == 1 { "" } else { "s" };
    let end = if shown > 0 { ":" } else { "" };
    let mut text = format!("{shown} of {} list{} with {score} hit{}{end}\n", with.len(), plural(with.len()), plural(score));
    for list in (0..shown).map(|k| &with[k * with.len() / shown]) {
        let addresses: String = list.iter().map(|a| format!(" {a}")).collect();
        let words: String = key(q, list).iter().map(|hit| if *hit { " hit" } else { " miss" }).collect();
        text += &format!("   {addresses}  {words}\n");
    }
    text
}

fn run(build: &'static replay::programs::Build, words: &[String]) -> String {
    let words: Vec<&str> = words.iter().map(String::as_str).collect();
    String::from_utf8(Program::states(build, &words).run(b"", Writing::Whole)).unwrap()
}

fn random_questions(build: &'static replay::programs::Build, count: usize, random: &mut Random) -> usize {
    let mut lines = 0;
    for done in 0..count {
        let p = 1 + random.below(4);
        let k = random.below(if done % 20 == 0 { 9 } else { 6 });
        let numbers = [p, 1 + random.below(5), 1 + random.below(5), k];
        let own = random.below(3) == 0;
        let contents: Vec<u8> = (0..p).map(|a| if own { a as u8 } else { 7 * random.below(3) as u8 }).collect();
        let q = question(numbers, &contents);
        let mut words: Vec<String> = [64].iter().chain(&numbers).map(|number| number.to_string()).collect();
        let mut expected = table(&q);
        if random.below(2) == 0 {
            let (score, asked) = (random.below(9), random.below(7));
            words.splice(0..0, ["--list".to_string(), score.to_string(), asked.to_string()]);
            expected += &listed(&q, score, asked);
        }
        if !own {
            let contents = contents.iter().map(|byte| byte.to_string()).collect::<Vec<_>>().join(",");
            words.extend(["--disk".to_string(), contents]);
        }
        assert_eq!(run(build, &words), expected, "{words:?}");
        lines += expected.lines().count();
    }
    lines
}

#[test]
fn random_tables_and_lists() {
    let lines = random_questions(&EXAM, QUESTIONS, &mut Random(125));
    println!("{QUESTIONS} questions from the seed 125, {lines} lines");
}

#[test]
fn with_the_sanitizers() {
    if !EXAM_SANITIZED.links() {
        println!("no sanitizers on this machine");
        return;
    }
    let lines = random_questions(&EXAM_SANITIZED, 40, &mut Random(126));
    println!("40 questions from the seed 126, {lines} lines, with the sanitizers");
}

/// Runs ./exam in a folder.
fn script(place: &std::path::Path, words: &[&str]) -> Output {
    Command::new(root().join("exam")).args(words).current_dir(place).stdin(Stdio::null()).output().unwrap()
}

/// A disk in a file: its bytes, not only one to a block.
#[test]
fn a_disk_in_a_file() {
    let place = folder("exam-disks");
    let mut q = question([4, 2, 2, 5], &[0; 4]);
    let block: Vec<u8> = (0..64).collect();
    q.disk = [&block[..], &[9; 64], &block, &[&block[..63], &[0]].concat()].concat();
    std::fs::write(place.join("disk"), &q.disk).unwrap();
    std::fs::write(place.join("long"), [&q.disk[..], &[0]].concat()).unwrap();
    std::fs::write(place.join("short"), &q.disk[1..]).unwrap();
    let done = script(&place, &["64", "4", "2", "2", "5", "disk", "--list", "3", "4"]);
    assert_eq!(String::from_utf8_lossy(&done.stdout), table(&q) + &listed(&q, 3, 4), "{}", String::from_utf8_lossy(&done.stderr));
    assert!(done.status.success() && done.stderr.is_empty());
    for name in ["long", "short"] {
        let done = script(&place, &["64", "4", "2", "2", "5", name]);
        assert!(done.status.code() == Some(1) && done.stdout.is_empty() && done.stderr == b"exam: refused with 2: a length is not right\n", "{name}");
    }
    println!("a disk in a file, and files of other lengths");
}

/// Nothing on standard output, the words on standard error, and the status.
#[test]
fn what_cannot_be_asked() {
    let [outside, large] = ["refused with 1: B, P, m or d is outside its set", "refused with 17: P is above 4, B is not 64 or k is above 8"];
    let cases: [(&str, i32, &str); 27] = [
        ("63 4 3 2 6", 1, outside),
        ("64 0 3 2 6", 1, outside),
        ("64 4 1025 2 6", 1, outside),
        ("64 4 3 257 9", 1, outside),
        ("999999999 999999999 3 2 6", 1, outside),
        ("64 5 3 2 6", 1, large),
        ("128 4 3 2 6", 1, large),
        ("64 4 3 2 9", 1, large),
        ("64 65536 3 2 6", 1, large),
        ("", 2, "five numbers are wanted"),
        ("64 4 3 2", 2, "five numbers are wanted"),
        ("64 4 3 2 06", 2, "this is none: 06"),
        ("64 4 -3 2 6", 2, "unknown option -3"),
        ("64 4 3 2 x", 2, "this is none: x"),
        ("64 4 3 2 1234567890", 2, "this is none: 1234567890"),
        ("64 4 3 2 6 no-such-disk", 1, "the file with the disk cannot be opened: No such file or directory"),
        ("64 4 3 2 6 .", 1, "the file with the disk cannot be read: Is a directory"),
        ("64 4 3 2 6 one two", 2, "this is one more: two"),
        ("64 4 3 2 6 --list 3", 2, "--list is given once, with a score and how many lists"),
        ("64 4 3 2 6 --list 9 1", 2, "a score is from 0 to 8: 9"),
        ("--list 1 1 --list 1 1 64 4 3 2 6", 2, "--list is given once"),
        ("64 4 3 2 6 --disk", 2, "--disk is given once"),
        ("64 4 3 2 6 --disk 1,,2", 2, "this is no such list: 1,,2"),
        ("64 4 3 2 6 --disk 256", 2, "this is no such list: 256"),
        ("64 4 3 2 6 --disk 1,2,3,4,5", 2, "more contents than the disk has blocks, from here on: 5"),
        ("64 4 3 2 6 --disk 1 disk", 2, "by --disk or by a file, not by both"),
        ("--score 64 4 3 2 6", 2, "unknown option --score"),
    ];
    for (words, status, message) in cases {
        let done = script(&root(), &words.split_whitespace().collect::<Vec<_>>());
        let said = String::from_utf8_lossy(&done.stderr);
        assert!(done.status.code() == Some(status) && done.stdout.is_empty() && said.contains(message), "{words:?}: {} {said}", done.status);
    }
    let help = script(&root(), &["--help"]);
    assert!(help.status.success() && String::from_utf8_lossy(&help.stdout).contains("./exam --list SCORE N B P m d k"));
    let full = std::fs::OpenOptions::new().write(true).open("/dev/full").unwrap();
    let lost = Command::new(root().join("exam")).args(["64", "4", "3", "2", "3"]).stdout(full).output().unwrap();
    assert!(lost.status.code() == Some(1) && lost.stderr == b"exam: the output cannot be written: No space left on device\n");
    println!("{} ways of asking for what cannot be done, --help, and lost output", cases.len());
}

/// Each command of lessons/exam.md with what the page shows after it.
#[test]
fn the_lesson() {
    let page = std::fs::read_to_string(root().join("lessons/exam.md")).unwrap();
    let mut shown = 0;
    for pair in fences(&page).windows(2) {
        let Some(words) = pair[0].strip_prefix("./exam ").map(str::trim_end) else { continue };
        let done = script(&root(), &words.split(' ').collect::<Vec<_>>());
        let written = [done.stdout, done.stderr].concat();
        assert_eq!(pair[1], String::from_utf8(written).unwrap(), "lessons/exam.md shows another output after {}", pair[0]);
        shown += 1;
    }
    assert_eq!(shown, 4, "commands that are shown with their output");
    println!("{shown} commands of lessons/exam.md");
}
