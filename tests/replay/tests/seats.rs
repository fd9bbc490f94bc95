//! The reports that the trainer's program prints for lists whose writes have seats: against the model, and the lesson of the manager against the program.
use common::{Progress, Random};
use replay::lists::random_list;
use replay::programs::{fences, root, Build, Program, Writing, PLAIN, SANITIZED};
use replay::states::{states, with_seats, without_states};
use replay::{list, replay};

const LISTS: usize = 400;

fn run(build: &'static Build, input: &[u8]) -> String {
    String::from_utf8(Program::states(build, &["--seats"]).run(input, Writing::Whole)).unwrap()
}

/// An output without what the manager alone may see.
fn for_the_desk(output: &str) -> String {
    output.split_inclusive('\n').filter(|line| !line.starts_with("    manager:")).collect()
}

/// A list whose writes have these seats, as far as they are of the form; a seat may be such as no list takes.
fn seated(text: &str, mut seat: impl FnMut() -> String) -> String {
    text.lines().map(|line| if line.starts_with(['T', 'B', 'I']) { format!("{line} {}\n", seat()) } else { format!("{line}\n") }).collect()
}

/// Random lists with seats, each run twice with other seats: both are the model's, and the desk sees the same. Under the sanitizers where they link.
#[test]
fn random_lists() {
    let (build, how) = if SANITIZED.links() { (&SANITIZED, "under the sanitizers") } else { (&PLAIN, "no sanitizers on this machine") };
    let mut random = Random(71);
    let mut progress = Progress::new("seats, random lists", LISTS);
    let mut differ = 0;
    for k in 0..LISTS {
        let text = String::from_utf8_lossy(&random_list(&mut random)).into_owned();
        let [one, two] = [0, 1].map(|_| {
            let any = |random: &mut Random| [0, 1, 255, 256, 65_535, random.below(65_536)][random.below(6)].to_string();
            let input = seated(&text, || any(&mut random));
            let written = run(build, input.as_bytes());
            assert!(written == with_seats(input.as_bytes()), "input {input:?}:\n{written}");
            written
        });
        assert_eq!(for_the_desk(&one), for_the_desk(&two), "{text:?}");
        differ += (one != two) as usize;
        // The same list without seats has the answers of a replay.
        assert_eq!(without_states(&run(build, text.as_bytes())).into_bytes(), replay(text.as_bytes()), "{text:?}");
        progress.at(k);
    }
    assert!(differ > LISTS / 2, "only {differ} lists in which the manager sees the seats");
    println!("{LISTS} random lists from the seed 71 with two rows of seats each, {how}: the manager tells {differ} of them apart, the desk none");
}

/// What is no seat is refused with 4, and so is a seat where the option is not given, or behind a line that is no write.
#[test]
fn not_of_the_form() {
    let lines = ["B 1 09 65536", "B 1 09 99999", "B 1 09 100000", "B 1 09 07", "B 1 09 -1", "B 1 09 0x7", "B 1 09 7 7", "B 1 09  7", "B 1 09 ", "B 1 7"];
    let more = ["R 1 7", "T 1 0a 7", "I 1 7", "L 1 09 7", "F 1", "F 1 09 7", "R 1 09 7", "box 64 8 7", "B 01 09 7", "B 1 09\t7", "B 1 09 6553 5"];
    for line in lines.into_iter().chain(more) {
        let input = list(&["box 64 8 3 2", line]);
        let written = run(&PLAIN, &input);
        assert!(written.starts_with("1 refused 4\n") && written == with_seats(&input), "{line:?}: {written}");
    }
    let input = list(&["box 64 8 3 2", "B 1 09 7"]);
    assert!(states(&input, false).starts_with("1 refused 4\n"));
    assert_eq!(String::from_utf8(Program::states(&PLAIN, &[]).run(&input, Writing::Whole)).unwrap(), states(&input, false));
    assert!(run(&PLAIN, &input).starts_with("1 B 1 new 1 0\n    manager: 1* seat 7\n    desk: 1*\n"));
    println!("{} lines that are not of the form with --seats, and one that is, without it", lines.len() + more.len());
}

/// Each list of lessons/seats.md with what the page shows after it; the two differ in what the manager sees alone, and no replay takes them.
#[test]
fn the_lesson() {
    let page = std::fs::read_to_string(root().join("lessons/seats.md")).unwrap();
    let pieces = fences(&page);
    let [first, one, second, two] = pieces[..] else { panic!("the page has two lists and their outputs") };
    for (input, shown) in [(first, one), (second, two)] {
        let written = run(&PLAIN, input.as_bytes());
        assert_eq!(written, with_seats(input.as_bytes()));
        assert_eq!(shown, written, "lessons/seats.md does not tell its list as it is");
        assert!(String::from_utf8(replay(input.as_bytes())).unwrap().contains(" refused 4\n"), "a replay takes the list");
    }
    let without = |text: &str| text.lines().map(|line| line.split(' ').take(3).collect::<Vec<_>>().join(" ")).collect::<Vec<_>>();
    assert!(without(first) == without(second) && first != second, "the lists differ in more than their seats");
    assert!(for_the_desk(one) == for_the_desk(two) && one != two, "the desk sees the seats");
    println!("the lesson of the seats, {} lines twice", one.lines().count());
}
