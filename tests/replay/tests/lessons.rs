//! Every lesson of lessons/: the proved program, the replay of this crate and the program of the states against the stored output.
use replay::programs::{fences, root, Program, Writing, PLAIN};
use replay::{replay, states};
use std::path::PathBuf;

/// The lessons' lists, each with its stored output. A list without one, or a stored output without its list, is a failure.
fn lessons() -> Vec<(String, Vec<u8>, String)> {
    let folder = root().join("lessons");
    let mut files: Vec<PathBuf> = std::fs::read_dir(&folder).unwrap().map(|entry| entry.unwrap().path()).collect();
    files.sort();
    let with = |extension: &str| {
        files.iter().filter(|file| file.extension().is_some_and(|found| found == extension)).map(|file| file.with_extension("")).collect::<Vec<_>>()
    };
    assert_eq!(with("txt"), with("expected"), "lists and stored outputs");
    let read = |file: &PathBuf, extension: &str| std::fs::read(file.with_extension(extension)).unwrap();
    let name = |file: &PathBuf| file.file_name().unwrap().to_str().unwrap().to_string();
    with("txt").iter().map(|file| (name(file), read(file, "txt"), String::from_utf8(read(file, "expected")).unwrap())).collect()
}

#[test]
fn by_the_model() {
    let lessons = lessons();
    for (name, input, expected) in &lessons {
        assert_eq!(String::from_utf8_lossy(&replay(input)), *expected, "{name}");
    }
    println!("{} lessons by the replay of the tests", lessons.len());
}

#[test]
fn by_the_program() {
    let lessons = lessons();
    for (name, input, expected) in &lessons {
        assert_eq!(String::from_utf8_lossy(&Program::replay().run(input, Writing::Whole)), *expected, "{name}");
    }
    println!("{} lessons by the proved program", lessons.len());
}

#[test]
fn by_the_states() {
    let lessons = lessons();
    for (name, input, expected) in &lessons {
        let written = String::from_utf8(Program::states(&PLAIN, &[]).run(input, Writing::Whole)).unwrap();
        assert_eq!(states::without_states(&written), *expected, "{name}");
        assert_eq!(written, states::states(input, false), "{name}");
    }
    println!("{} lessons by the program of the states", lessons.len());
}

/// Whether all lines of a text stand in a page, in their order.
fn in_order(page: &str, text: &str) -> bool {
    let mut rest = page.lines();
    text.lines().all(|line| rest.any(|found| found == line))
}

/// The lesson of a flush in parts: its list, which no replay takes, stands in its page with what the program of the states prints for it.
#[test]
fn a_flush_in_parts() {
    let page = std::fs::read_to_string(root().join("lessons/flush-in-parts.md")).unwrap();
    let [input, shown] = fences(&page)[..] else { panic!("the page has a list and its output") };
    let written = String::from_utf8(Program::states(&PLAIN, &["--parts"]).run(input.as_bytes(), Writing::Whole)).unwrap();
    assert_eq!(written, states::in_parts(input.as_bytes()));
    assert_eq!(shown, written, "lessons/flush-in-parts.md does not tell its list as it is");
    assert!(String::from_utf8(replay(input.as_bytes())).unwrap().contains(" refused 4\n"), "a replay takes the list");
    println!("the lesson of a flush in parts, {} lines", written.lines().count());
}

/// What the pages show is what the programs print: README.md has the states of each list in one piece, the page of a lesson that has its own (week.md,
/// folder.md) those of its list with the tale between them.
#[test]
fn as_the_pages_tell_them() {
    let page = |name: &str| std::fs::read_to_string(root().join("lessons").join(name)).ok();
    let readme = page("README.md").unwrap();
    let lessons = lessons();
    for (name, input, _) in &lessons {
        let shown = states::states(input, false);
        let told = page(&format!("{name}.md")).map_or_else(|| readme.contains(&format!("```\n{shown}```\n")), |own| in_order(&own, &shown));
        assert!(told && readme.contains(&format!("({name}.txt)")), "lessons/ does not tell {name} as it is:\n{shown}");
    }
    println!("{} lessons in the pages of lessons/, state by state", lessons.len());
}
