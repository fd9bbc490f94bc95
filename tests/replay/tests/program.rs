//! The proved program against the replay of this crate, byte for byte.
use common::{Progress, Random};
use replay::programs::{Program, Writing};
use replay::{cases::cases, list, lists::random_list, malformed::KINDS, replay, DOCUMENT_LIST, DOCUMENT_OUTPUT};
use std::collections::BTreeMap;
use std::io::{BufRead, BufReader, Write};
use std::sync::mpsc::channel;
use std::thread::spawn;
use std::time::Duration;

const LISTS: usize = 2_400;
const EACH_KIND: usize = 25;

/// What was compared: lines of output by what they say, and refused box lines by their number.
#[derive(Default)]
struct Seen {
    inputs: usize,
    lines: usize,
    said: BTreeMap<String, usize>,
}

impl Seen {
    /// Runs the program on an input. It must write what the replay of this crate does.
    fn compare(&mut self, program: &Program, name: &str, input: &[u8], writing: Writing) {
        let (expected, written) = (replay(input), program.run(input, writing));
        if written != expected {
            let same = written.iter().zip(&expected).take_while(|(one, two)| one == two).count();
            let line = expected[..same].iter().filter(|byte| **byte == b'\n').count();
            let show = |bytes: &[u8]| String::from_utf8_lossy(bytes).lines().nth(line).map(str::to_string);
            let start = String::from_utf8_lossy(&input[..input.len().min(2_000)]);
            panic!(
                "{name}: line {} of the output is {:?} where {:?} is expected; the input, as far as 2,000 bytes: {start:?}",
                line + 1,
                show(&written),
                show(&expected)
            );
        }
        self.inputs += 1;
        for line in String::from_utf8(expected).unwrap().lines() {
            self.lines += 1;
            *self.said.entry(kind(line)).or_default() += 1;
        }
    }

    /// Panics where one of these was not seen so often.
    fn expect(&self, least: usize, kinds: &[&str]) {
        for kind in kinds {
            let count = self.said.get(*kind).copied().unwrap_or(0);
            assert!(count >= least, "only {count} lines say {kind:?}");
        }
    }

    fn print(&self, what: &str, seconds: f64) {
        let said: Vec<String> = self.said.iter().map(|(kind, count)| format!("{kind} {count}")).collect();
        println!("{what}: {} inputs, {} lines of output the same ({}) in {seconds:.0} s", self.inputs, self.lines, said.join(", "));
    }
}

/// What a line of the output says: letter and word, or the refusal, with `box` before it for line 1.
fn kind(line: &str) -> String {
    let words: Vec<&str> = line.split(' ').collect();
    match words[..] {
        ["0", "refused", number] => format!("box refused {number}"),
        [_, "refused", number] => format!("refused {number}"),
        ["reads", ..] => "counters".to_string(),
        [_, letter, _, word, ..] => format!("{letter} {word}"),
        _ => panic!("a line of no form: {line}"),
    }
}

/// In small pieces for one input of eight.
fn writing(random: &mut Random) -> Writing {
    match random.below(8) {
        0 => Writing::Pieces(1 + random.below(40)),
        _ => Writing::Whole,
    }
}

#[test]
fn the_documents_run() {
    let (program, input) = (Program::replay(), list(&DOCUMENT_LIST));
    for size in 1..=input.len() {
        let output = program.run(&input, Writing::Pieces(size));
        assert_eq!(String::from_utf8_lossy(&output), DOCUMENT_OUTPUT, "in pieces of {size}");
    }
    println!("the document's run, written in pieces of 1 to {} bytes", input.len());
}

#[test]
fn cases_by_hand() {
    let (program, cases) = (Program::replay(), cases());
    for (input, output) in &cases {
        assert_eq!(String::from_utf8_lossy(&program.run(input, Writing::Whole)), *output, "input {:?}", String::from_utf8_lossy(input));
    }
    println!("{} inputs with outputs written by hand", cases.len());
}

#[test]
fn random_lists() {
    let (program, mut random, mut seen) = (Program::replay(), Random(61), Seen::default());
    let mut progress = Progress::new("replay, random lists", LISTS);
    for k in 0..LISTS {
        let input = random_list(&mut random);
        let writing = writing(&mut random);
        seen.compare(&program, "a random list", &input, writing);
        progress.at(k);
    }
    seen.print("random lists from the seed 61", progress.seconds());
    let letters = ["R hit", "R miss", "T same", "T new", "B same", "B new", "I same", "I new", "L cache", "L disk", "F done", "refused 3", "refused 4"];
    seen.expect(500, &letters);
    assert_eq!(seen.said["counters"], LISTS, "a box line was refused");
}

#[test]
fn malformed_inputs() {
    let (program, mut random, mut seen) = (Program::replay(), Random(62), Seen::default());
    let mut progress = Progress::new("replay, malformed inputs", EACH_KIND * KINDS.len());
    for k in 0..EACH_KIND {
        for (name, make) in KINDS {
            let input = make(&mut random);
            let writing = writing(&mut random);
            seen.compare(&program, name, &input, writing);
        }
        progress.at((k + 1) * KINDS.len());
    }
    seen.print(&format!("{} kinds of malformed inputs from the seed 62", KINDS.len()), progress.seconds());
    seen.expect(10, &["box refused 1", "box refused 4", "box refused 5", "refused 3", "refused 4", "R hit", "R miss"]);
}

/// 100 KB and more: one line, many lines, lines that are all refused, any bytes; with a box line before them and without.
#[test]
fn long_inputs() {
    let (program, mut random, mut seen) = (Program::replay(), Random(63), Seen::default());
    let progress = Progress::new("replay, long inputs", 12);
    let later: Vec<Vec<u8>> = vec![
        vec![b'R'; 100_000],
        b"R 1\n".repeat(25_000),
        b"\n".repeat(100_000),
        random.bytes(100_000),
        (0..12_500).flat_map(|k| format!("B {} {:02X}\n", k % 9, k % 256).into_bytes()).collect(),
        [vec![b' '; 131_072], b"R 1\nF\n".to_vec()].concat(),
    ];
    for input in &later {
        seen.compare(&program, "a long input", input, Writing::Whole);
        seen.compare(&program, "a long input after a box line", &[b"box 64 8 3 2\n", &input[..]].concat(), Writing::Pieces(4_096));
    }
    seen.print("inputs of 100 KB and more", progress.seconds());
}

/// Each line is answered when it is there, before the next one is written, and the end of the input is the end of the program.
#[test]
fn answers_as_the_lines_come() {
    let mut child = Program::replay().start();
    let (mut stdin, stdout) = (child.stdin.take().unwrap(), child.stdout.take().unwrap());
    let (sender, answers) = channel();
    let reader = spawn(move || BufReader::new(stdout).lines().for_each(|line| sender.send(line.unwrap()).unwrap()));
    let next = |asked: &str| answers.recv_timeout(Duration::from_secs(60)).unwrap_or_else(|_| panic!("no answer to {asked:?} after a minute"));
    writeln!(stdin, "{}", DOCUMENT_LIST[0]).unwrap();
    let mut expected = DOCUMENT_OUTPUT.lines();
    for line in &DOCUMENT_LIST[1..] {
        writeln!(stdin, "{line}").unwrap();
        assert_eq!(Some(next(line).as_str()), expected.next(), "{line}");
    }
    drop(stdin);
    assert_eq!(Some(next("the end").as_str()), expected.next());
    reader.join().unwrap();
    assert!(child.wait().unwrap().success() && expected.next().is_none());
    println!("{} lines answered one by one", DOCUMENT_LIST.len() - 1);
}
