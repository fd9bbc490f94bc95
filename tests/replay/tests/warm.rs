//! The states that the trainer's program prints for a box that is shut down cleanly and started again: against the model, beside those without a shutdown, and
//! the lesson of the warm start.
use common::{Progress, Random};
use replay::lists::random_list;
use replay::programs::{fences, root, Build, Program, Writing, PLAIN, SANITIZED};
use replay::states::{states, warm};
use replay::{list, replay};

const LISTS: usize = 50;
/// Of a longer list so many requests are tried, the first and the last among them.
const EACH_LIST: usize = 40;

fn run(build: &'static Build, request: usize, input: &[u8]) -> String {
    String::from_utf8(Program::states(build, &["--warm", &request.to_string()]).run(input, Writing::Whole)).unwrap()
}

/// The requests of a list whose box is opened.
fn requests(input: &[u8]) -> usize {
    replay(input).split(|byte| *byte == b'\n').count() - 2
}

/// Whether a line is that of a warm start.
fn is_start(line: &str) -> bool {
    line.starts_with("    saved: ")
}

/// The line of the warm start, and the output without it.
fn parted(output: &str) -> (&str, String) {
    let starts: Vec<&str> = output.lines().filter(|line| is_start(line)).collect();
    let [start] = starts[..] else { panic!("{} warm starts:\n{output}", starts.len()) };
    (start, output.split_inclusive('\n').filter(|line| !is_start(line)).collect())
}

/// What a shutdown leaves alone: an output without the marks, the primary writes and the sum of these.
fn in_common(output: &str) -> Vec<String> {
    let without = |line: &str| line.rsplit_once(' ').map_or(String::new(), |(before, _)| before.to_string());
    output.lines().map(|line| if line.starts_with(' ') || line.contains(" refused ") { line.replace('*', "") } else { without(line) }).collect()
}

/// The restored state is the one before it without its marks. All before the start is as without a shutdown, all after it but for marks and primary writes.
fn beside_the_states(input: &[u8], request: usize, output: &str) {
    let (start, rest) = parted(output);
    let without = states(input, false);
    let same = 2 * request;
    let before: Vec<&str> = without.lines().take(same).collect();
    assert_eq!(rest.lines().take(same).collect::<Vec<_>>(), before, "request {request}");
    assert_eq!(start.split_once("; restored: ").unwrap().1, before[same - 1].trim_start().replace('*', ""), "request {request}");
    assert_eq!(in_common(&rest), in_common(&without), "request {request}, input {:?}", String::from_utf8_lossy(input));
}

/// Random lists with a shutdown after each request in turn. Under the sanitizers where they link.
#[test]
fn random_lists() {
    let (build, how) = if SANITIZED.links() { (&SANITIZED, "under the sanitizers") } else { (&PLAIN, "no sanitizers on this machine") };
    let mut random = Random(101);
    let mut progress = Progress::new("warm starts, random lists", LISTS);
    let (mut starts, mut dirty) = (0, 0);
    for k in 0..LISTS {
        let input = random_list(&mut random);
        let last = requests(&input);
        for request in (1..=last).filter(|request| last <= EACH_LIST || [1, last].contains(request) || request % (last / EACH_LIST + 1) == 0) {
            let written = run(build, request, &input);
            assert!(written == warm(&input, request), "request {request}, input {:?}:\n{written}", String::from_utf8_lossy(&input));
            beside_the_states(&input, request, &written);
            starts += 1;
            dirty += !written.contains("    saved: 0 addresses were dirty, ") as usize;
        }
        progress.at(k);
    }
    assert!(starts > 1_000 && dirty > starts / 4, "{starts} starts, {dirty} with dirty addresses");
    println!("{LISTS} random lists from the seed 101, {starts} warm starts, {dirty} with dirty addresses, {how}");
}

/// A refused request is one too, and so is the last; a refused box line ends the run, as without the option.
#[test]
fn at_the_edges() {
    let input = list(&["box 64 8 3 2", "B 1 09", "R 9", "", "R 1"]);
    for request in 1..=4 {
        let written = run(&PLAIN, request, &input);
        assert_eq!(written, warm(&input, request));
        assert_eq!(parted(&written).0, "    saved: 1 address was dirty, 384 bytes; restored: 1:9; blocks - 9");
    }
    let fresh = list(&["box 64 8 3 2", "L 1"]);
    assert!(run(&PLAIN, 1, &fresh).contains("    saved: 0 addresses were dirty, 384 bytes; restored: none; blocks - -\n"));
    let largest = list(&["box 64 256 1024 256", "B 255 09", "B 0 08"]);
    assert!(run(&PLAIN, 2, &largest).contains("    saved: 2 addresses were dirty, 51392 bytes; restored: 255:9 0:8; blocks "));
    for (line, number) in [("box 64 8 0 2", 1), ("box 64 257 3 2", 5), ("box 64 8 3", 4), ("", 4)] {
        assert_eq!(run(&PLAIN, 1, &list(&[line, "R 1"])), format!("0 refused {number}\n"), "{line:?}");
    }
    println!("a shutdown after refused requests, after the last, of an empty box and of the largest, and four boxes that are refused");
}

/// A request that the list has not: the states of the list, status 1, and what is wrong on standard error.
#[test]
fn no_such_request() {
    let cases: [(&[&str], usize); 3] = [(&["box 64 8 3 2"], 0), (&["box 64 8 3 2", "B 1 09"], 1), (&["box 64 8 3 2", "B 1 09", "F"], 2)];
    for (lines, count) in cases {
        let input = list(lines);
        for request in [count + 1, count + 2, 99_999] {
            let (status, written, said) = Program::states(&PLAIN, &["--warm", &request.to_string()]).ended(&input);
            let message = format!("states: the list has no request {request}, after which the box is to be shut down: it has {count}\n");
            assert_eq!((status, String::from_utf8(written).unwrap(), said), (Some(1), states(&input, false), message));
        }
    }
    println!("{} lists that end before the request", cases.len());
}

/// Words that are no number of a request: status 2, nothing on standard output, and what is wanted on standard error.
#[test]
fn not_of_the_form() {
    let input = list(&["box 64 8 3 2", "B 1 09"]);
    let no_requests = ["", "0", "x", "01", "00", "-1", "+1", " 1", "1 ", "1,2", "1,", ",1", "0x1", "100000", "1.0", "--states"];
    for word in no_requests {
        let (status, written, said) = Program::states(&PLAIN, &["--warm", word]).ended(&input);
        assert!(status == Some(2) && written.is_empty() && said.contains("--warm takes the number of a request"), "{word:?}: {status:?} {said}");
    }
    let others: [&[&str]; 5] = [&["--warm"], &["--warm", "1", "2"], &["--full", "--warm", "1"], &["--limit", "1", "--warm", "1"], &["--warm=1"]];
    for words in others {
        let (status, written, said) = Program::states(&PLAIN, words).ended(&input);
        assert!(status == Some(2) && written.is_empty() && said.contains("unknown option") && said.contains("--warm LINE"), "{words:?}: {status:?} {said}");
    }
    println!("{} words that are no request, and {} other ways of asking", no_requests.len(), others.len());
}

/// The list of lessons/warm-start.md, its states without a shutdown and with one after request 4, and the morning with an empty box are what is printed.
#[test]
fn the_lesson() {
    let read = |name: &str| std::fs::read_to_string(root().join("lessons").join(name)).unwrap();
    let page = read("warm-start.md");
    let [input, without, with, morning, empty] = fences(&page)[..] else { panic!("the page has two lists and three outputs") };
    assert_eq!(input, read("warm-start.txt"));
    assert_eq!(without, states(input.as_bytes(), false));
    assert_eq!(run(&PLAIN, 4, input.as_bytes()), warm(input.as_bytes(), 4));
    assert_eq!(with, warm(input.as_bytes(), 4), "lessons/warm-start.md does not tell its list as it is");
    beside_the_states(input.as_bytes(), 4, with);
    assert_eq!(empty, states(morning.as_bytes(), false));
    // The morning has the first reads of the list behind the shutdown, from the disk that it leaves: hits there, misses here.
    let lines = |text: &str, from: usize| text.lines().skip(from).take(2).map(str::to_string).collect::<Vec<_>>();
    assert_eq!(lines(input, 5), lines(morning, 3));
    assert!(with.contains("\n5 R 2 hit 0 0\n") && with.contains("\n6 R 1 hit 0 0\n"));
    assert!(empty.contains("none; blocks - - - -\n3 R 2 miss 1 0\n    2:9;") && empty.contains("\n4 R 1 miss 1 0\n"));
    // What the page says of shutdowns after other requests.
    let start = |request: usize| run(&PLAIN, request, input.as_bytes()).lines().find(|line| is_start(line)).unwrap().to_string();
    let nothing: Vec<usize> = (1..=11).filter(|request| start(*request).contains(" 0 addresses were dirty")).collect();
    assert_eq!(nothing, [1, 11]);
    assert!(start(8).starts_with("    saved: 2 addresses were dirty") && run(&PLAIN, 8, input.as_bytes()).contains("\n11 F - done 0 0\n"));
    let (status, written, said) = Program::states(&PLAIN, &["--warm", "12"]).ended(input.as_bytes());
    assert!(status == Some(1) && written == without.as_bytes() && page.contains(said.trim_end().strip_prefix("states: ").unwrap()), "{said}");
    println!("the lesson of the warm start, {} lines", with.lines().count());
}
