//! A folder opened after a list, with one call and read by read: the trainer's program against the model, and the lesson against the program.
use common::{Progress, Random};
use replay::lists::random_list;
use replay::programs::{fences, root, Build, Program, Writing, PLAIN, SANITIZED};
use replay::states::{folder, option};

const LISTS: usize = 400;

fn run(build: &'static Build, asked: &[u32], input: &[u8]) -> String {
    String::from_utf8(Program::states(build, &["--folder", &option(asked)]).run(input, Writing::Whole)).unwrap()
}

/// The blocks fetched by one call and read by read, where the folder was not refused.
fn fetches(output: &str) -> Option<[u64; 2]> {
    let last = output.lines().last()?.strip_prefix("blocks fetched from disk: ")?;
    let (one, other) = last.strip_suffix(" read by read")?.split_once(" by one call, ")?;
    Some([one, other].map(|number| number.parse().unwrap()))
}

/// Under the sanitizers where they link. The folders have few addresses, so that most come again, and now and then one that the box has not.
#[test]
fn random_folders() {
    let (build, how) = if SANITIZED.links() { (&SANITIZED, "under the sanitizers") } else { (&PLAIN, "no sanitizers on this machine") };
    let mut random = Random(67);
    let mut progress = Progress::new("folders after random lists", LISTS);
    let (mut fewer, mut refused) = (0, 0);
    for k in 0..LISTS {
        let input = random_list(&mut random);
        let count = [random.below(71), random.below(9)][random.below(2)];
        let few = 1 + random.below(9);
        let asked: Vec<u32> = (0..count).map(|_| random.below(few) as u32).collect();
        let written = run(build, &asked, &input);
        assert!(written == folder(&input, &asked), "folder {asked:?}, input {:?}:\n{written}", String::from_utf8_lossy(&input));
        match fetches(&written) {
            Some([one, other]) => fewer += (one < other) as usize,
            None => refused += 1,
        }
        progress.at(k);
    }
    assert!(fewer > LISTS / 20 && refused > LISTS / 20, "{fewer} folders with fewer fetches than read by read, {refused} refused");
    println!("{LISTS} folders after random lists from the seed 67, {how}: {fewer} with fewer fetches than read by read, {refused} refused");
}

/// What document 02 rests on: a block is fetched at its own turn.
#[test]
fn fetched_in_turn() {
    let written = run(&PLAIN, &[1, 0], b"box 64 2 1 1\nB 0 07\n");
    assert!(written.contains("\n2 folder hits 0 flash 2 primary 1 fetches 2\n    contents 1 7\n"), "{written}");
    println!("write back 7 to address 0, then the folder 1 0: contents 1 and 7");
}

/// Each command of lessons/folder.md that opens a folder, with what the page shows after it.
#[test]
fn the_lesson() {
    let page = std::fs::read_to_string(root().join("lessons/folder.md")).unwrap();
    let mut shown = 0;
    for pair in fences(&page).windows(2) {
        let Some(words) = pair[0].strip_prefix("./replay --folder ") else { continue };
        let (asked, file) = words.trim_end().split_once(' ').unwrap();
        let asked: Vec<u32> = asked.trim_matches('"').split(',').filter(|a| !a.is_empty()).map(|a| a.parse().unwrap()).collect();
        let input = std::fs::read(root().join(file)).unwrap();
        let written = run(&PLAIN, &asked, &input);
        assert_eq!(written, folder(&input, &asked), "{words}");
        assert!(pair[1].starts_with("folder ") && written.ends_with(pair[1]), "lessons/folder.md shows another end than this after {words}:\n{written}");
        shown += 1;
    }
    assert!(shown >= 3 && page.matches("./replay --folder ").count() == shown, "{shown} commands are shown with their output");
    println!("{shown} folders of lessons/folder.md");
}

/// Addresses that are not of the form end the program before it reads the list.
#[test]
fn not_addresses() {
    let long = vec!["1"; 129].join(",");
    let words = ["1,x", "1,", ",1", "1,,2", "01", "123456", "-1", "1 2", "week.txt", &long];
    for word in words {
        let (status, written, said) = Program::states(&PLAIN, &["--folder", word]).ended(b"box 64 8 3 2\n");
        assert!(status == Some(2) && written.is_empty() && said.contains("addresses with commas between them"), "{word}: {status:?} {said}");
    }
    println!("{} words that are no addresses", words.len());
}
