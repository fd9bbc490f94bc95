//! The script ./replay, on programs that are built.
use replay::programs::{commands, folder, outside, root, PLAIN_COMMANDS};
use std::fs::File;
use std::os::unix::fs::{symlink, PermissionsExt};
use std::path::Path;
use std::process::{Command, Output, Stdio};

/// Runs ./replay with these words in the folder lessons/, with a file of it on standard input or nothing.
fn script(words: &[&str], input: Option<&str>) -> Output {
    let lessons = root().join("lessons");
    let stdin = input.map_or(Stdio::null(), |name| File::open(lessons.join(name)).unwrap().into());
    Command::new(root().join("replay")).args(words).current_dir(lessons).stdin(stdin).output().unwrap()
}

/// What it writes where all is well.
fn written(words: &[&str], input: Option<&str>) -> String {
    let done = script(words, input);
    assert!(done.status.success(), "{words:?}: {}", String::from_utf8_lossy(&done.stderr));
    String::from_utf8(done.stdout).unwrap()
}

fn stored(name: &str) -> String {
    std::fs::read_to_string(root().join(name)).unwrap()
}

#[test]
fn a_list() {
    let expected = stored("lessons/week.expected");
    assert_eq!(written(&["week.txt"], None), expected);
    assert_eq!(written(&[], Some("week.txt")), expected);
    assert_eq!(written(&["--", "week.txt"], None), expected);
    assert_eq!(written(&["/dev/stdin"], Some("refused-3.txt")), stored("lessons/refused-3.expected"));
    println!("./replay FILE and ./replay < FILE");
}

#[test]
fn states_and_page() {
    let states = written(&["--states", "week.txt"], None);
    assert_eq!(states, replay::states::states(stored("lessons/week.txt").as_bytes(), false));
    assert_eq!(written(&["--states"], Some("week.txt")), states);
    assert_eq!(written(&["--page", "week.txt"], None), stored("docs/week.html"));
    assert!(written(&["--page"], Some("week.txt")).contains("<h1>A list of requests, line by line</h1>"));
    assert_eq!(written(&["--parts", "week.txt"], None), states);
    let seats = written(&["--seats", "week.txt"], None);
    assert_eq!(seats, replay::states::with_seats(stored("lessons/week.txt").as_bytes()));
    assert_eq!(written(&["--seats"], Some("week.txt")), seats);
    let limited = written(&["--limit", "2", "limit.txt"], None);
    assert_eq!(limited, replay::states::limited(stored("lessons/limit.txt").as_bytes(), 2));
    assert_eq!(written(&["limit.txt", "--limit", "2"], None), limited);
    assert_eq!(written(&["--limit", "2"], Some("limit.txt")), limited);
    assert_eq!(written(&["--limit", "0", "limit.txt"], None), "0 refused 12\n");
    let warm = written(&["--warm", "4", "warm-start.txt"], None);
    assert_eq!(warm, replay::states::warm(stored("lessons/warm-start.txt").as_bytes(), 4));
    assert_eq!(written(&["warm-start.txt", "--warm", "4"], None), warm);
    assert_eq!(written(&["--warm", "4"], Some("warm-start.txt")), warm);
    assert_eq!(written(&["--warm", "1", "refused-box-1.txt"], None), "0 refused 1\n");
    println!("./replay --states, --parts, --seats, --limit, --warm and --page, of a file and of standard input");
}

#[test]
fn a_folder() {
    let expected = |asked: &[u32]| replay::states::folder(stored("lessons/folder.txt").as_bytes(), asked);
    assert_eq!(written(&["--folder", "1,4,1", "folder.txt"], None), expected(&[1, 4, 1]));
    assert_eq!(written(&["--folder", "0"], Some("folder.txt")), expected(&[0]));
    assert_eq!(written(&["--folder", "", "folder.txt"], None), expected(&[]));
    println!("./replay --folder, of a file and of standard input");
}

#[test]
fn counts() {
    let counted = written(&["--counts", "counting.txt"], None);
    assert!(counted.contains("\n3 R 1 hit 0 0\n    other addresses 1, other contents 1: hit\n"), "{counted}");
    assert_eq!(written(&["--counts"], Some("counting.txt")), counted);
    assert_eq!(written(&["--disk", "0,1,2", "counting.txt"], None), counted);
    assert_ne!(written(&["--disk", "0,7,7", "counting.txt"], None), counted);
    println!("./replay --counts and --disk, of a file and of standard input");
}

/// Nothing on standard output, the words on standard error, and the status.
#[test]
fn what_cannot_be_done() {
    let cases: [(&[&str], i32, &str); 37] = [
        (&["no-such-list.txt"], 1, "there is no file no-such-list.txt"),
        (&["--states", "no-such-list.txt"], 1, "there is no file no-such-list.txt"),
        (&["."], 1, ". is a folder, not a list of requests"),
        (&["--stats", "week.txt"], 2, "unknown option --stats"),
        (&["week.txt", "refused-3.txt"], 2, "more than one file is named"),
        (&["--folder"], 2, "--folder wants the addresses of the folder"),
        (&["--folder", "folder.txt"], 2, "this is no such list: folder.txt"),
        (&["--limit"], 2, "--limit wants the most addresses that may be dirty"),
        (&["--limit", "limit.txt"], 2, "this is none: limit.txt"),
        (&["--limit", "", "limit.txt"], 2, "one number of at most five digits"),
        (&["--limit", "02", "limit.txt"], 2, "this is none: 02"),
        (&["--limit", "-1", "limit.txt"], 2, "this is none: -1"),
        (&["--limit", "100000", "limit.txt"], 2, "this is none: 100000"),
        (&["--limit", "2", "--states", "limit.txt"], 2, "--limit and --states contradict each other"),
        (&["--warm"], 2, "--warm wants the number of the request"),
        (&["--warm", "warm-start.txt"], 2, "this is none: warm-start.txt"),
        (&["--warm", "", "warm-start.txt"], 2, "the number of a request of the list, from 1 on"),
        (&["--warm", "0", "warm-start.txt"], 2, "this is none: 0"),
        (&["--warm", "100000", "warm-start.txt"], 2, "this is none: 100000"),
        (&["--warm", "4", "--limit", "2", "warm-start.txt"], 2, "--warm and --limit contradict each other"),
        (&["--warm", "4", "--warm", "5", "warm-start.txt"], 2, "--warm is given twice"),
        (&["--disk"], 2, "--disk wants the contents"),
        (&["--disk", "counting.txt"], 2, "this is no such list: counting.txt"),
        (&["--folder", "1, 2", "folder.txt"], 2, "with commas between them and no spaces"),
        (&["week.txt", "--stats"], 2, "unknown option --stats"),
        (&["week.txt", "--states", "--page"], 2, "--states and --page contradict each other"),
        (&["--folder", "1", "week.txt", "--states"], 2, "--folder and --states contradict each other"),
        (&["--folder", "1", "--folder", "2", "week.txt"], 2, "--folder is given twice"),
        (&["--states", "--states", "week.txt"], 2, "--states is given twice"),
        (&["--seats", "--parts", "week.txt"], 2, "--seats and --parts contradict each other"),
        (&["--build", "week.txt"], 2, "--build takes no list"),
        (&["--mark"], 2, "--mark wants the file with the answers"),
        (&["--mark", "no-such-answers.txt", "week.txt"], 1, "there is no file no-such-answers.txt"),
        (&["--mark", ".", "week.txt"], 1, ". is a folder, not a file with answers"),
        (&["--mark", "week.expected", "no-such-list.txt"], 1, "there is no file no-such-list.txt"),
        (&["--mark", "-"], 2, "cannot both be standard input"),
        (&["--", "--states"], 1, "there is no file --states"),
    ];
    for (words, status, message) in cases {
        let done = script(words, None);
        let said = String::from_utf8_lossy(&done.stderr);
        assert!(done.status.code() == Some(status) && done.stdout.is_empty() && said.contains(message), "{words:?}: {} {said}", done.status);
    }
    let help = written(&["--help"], None);
    assert!(help.contains("./replay --page FILE") && help.contains("./replay --limit 2 FILE") && help.contains("./replay --warm 4 FILE"));
    let late = script(&["--warm", "12", "warm-start.txt"], None);
    assert!(late.status.code() == Some(1) && String::from_utf8_lossy(&late.stderr).contains("the list has no request 12"));
    println!("{} ways of asking for what cannot be done, and --help", cases.len());
}

#[test]
fn in_either_order() {
    let states = written(&["--states", "week.txt"], None);
    assert_eq!(written(&["week.txt", "--states"], None), states);
    assert_eq!(written(&["folder.txt", "--folder", "1,4,1"], None), written(&["--folder", "1,4,1", "folder.txt"], None));
    assert_eq!(written(&["week.txt", "--mark", "week.expected"], None), written(&["--mark", "week.expected", "week.txt"], None));
    assert_eq!(written(&["--states", "--", "week.txt"], None), states);
    println!("a file before its option, and behind it");
}

#[test]
fn standard_input_by_its_name() {
    let expected = stored("lessons/week.expected");
    assert_eq!(written(&["-"], Some("week.txt")), expected);
    assert_eq!(written(&["-", "--states"], Some("week.txt")), written(&["--states", "week.txt"], None));
    assert_eq!(written(&["--mark", "-", "week.txt"], Some("week.expected")), "13 of 13 lines are right\n");
    println!("- is standard input");
}

/// A link to a link, called from another folder, with a list of that folder.
#[test]
fn through_a_symbolic_link() {
    let place = outside("linked");
    symlink(root().join("replay"), place.join("first")).unwrap();
    symlink("first", place.join("second")).unwrap();
    std::fs::copy(root().join("lessons/week.txt"), place.join("own list.txt")).unwrap();
    for (words, expected) in
        [(vec!["own list.txt"], stored("lessons/week.expected")), (vec!["--states", "own list.txt"], written(&["--states", "week.txt"], None))]
    {
        let done = Command::new("./second").args(&words).current_dir(&place).output().unwrap();
        assert_eq!(String::from_utf8_lossy(&done.stdout), expected, "{words:?}: {}", String::from_utf8_lossy(&done.stderr));
    }
    let copy = place.join("copied");
    std::fs::copy(root().join("replay"), &copy).unwrap();
    let done = Command::new(&copy).arg("own list.txt").current_dir(&place).output().unwrap();
    let said = String::from_utf8_lossy(&done.stderr);
    assert!(done.status.code() == Some(1) && said.contains("neither in a checkout nor in bin/ of an installed tree"), "{said}");
    std::fs::remove_dir_all(place).unwrap();
    println!("./replay through symbolic links, from another folder; a copy of it that stands alone says so");
}

/// A file that can be run.
fn write_command(path: &Path, text: &str) {
    std::fs::write(path, text).unwrap();
    std::fs::set_permissions(path, std::fs::Permissions::from_mode(0o755)).unwrap();
}

/// Runs a script with the commands of one folder alone.
fn with_commands(script: &Path, path: &Path, words: &[&str]) -> Output {
    Command::new(script).args(words).env_clear().env("PATH", path).stdin(Stdio::null()).output().unwrap()
}

#[test]
fn the_version() {
    let header = stored("include/mindavehu.h");
    let number = |name: &str| header.lines().find_map(|line| line.strip_prefix(&format!("#define MINDAVEHU_VERSION{name} "))).unwrap().to_string();
    let version = number("");
    assert_eq!(version, format!("\"{}.{}.{}\"", number("_MAJOR"), number("_MINOR"), number("_PATCH")));
    let place = commands("without-rt", &PLAIN_COMMANDS);
    let said = |place: &Path| String::from_utf8(with_commands(&root().join("replay"), place, &["--version"]).stdout).unwrap();
    let first = format!("mindavehu {}\n", version.trim_matches('"'));
    assert_eq!(said(&place), format!("{first}toolchain: not installed\n"));
    write_command(&place.join("rt"), "#!/usr/bin/env bash\necho \"kit 7 of $1\"\n");
    assert_eq!(said(&place), format!("{first}toolchain: kit 7 of --version\n"));
    println!("{}, with a toolchain and without", first.trim_end());
}

/// A checkout in which nothing is built: the script, what it compiles, and the crates by their names.
fn unbuilt(name: &str) -> std::path::PathBuf {
    let place = outside(name);
    for file in ["replay", "exam", "crates.txt", "include/mindavehu.h", "trainer/states.c", "trainer/exam.c", "trainer/mark.c"] {
        std::fs::create_dir_all(place.join(file).parent().unwrap()).unwrap();
        std::fs::copy(root().join(file), place.join(file)).unwrap();
    }
    for line in stored("crates.txt").lines() {
        if let Some((name, _)) = line.split('#').next().unwrap().split_once(':') {
            std::fs::create_dir_all(place.join("crates").join(name.split(' ').next().unwrap())).unwrap();
        }
    }
    place
}

/// A stand-in for the toolchain: it says that it has started and in which folder, and brings what it is asked for.
fn put_rt(path: &Path) {
    let bring = |made: &str| format!("mkdir -p out; cp {} out/", root().join("crates").join(made).display());
    let (program, library) = (bring("replay_cli/out/replay_cli"), bring("service/out/libservice.a"));
    let text = format!("#!/usr/bin/env bash\necho \"rt: started $* in ${{PWD##*/}}\"\ncase $1 in\nrun) {program} ;;\nlib) {library} ;;\nesac\n");
    write_command(&path.join("rt"), &text);
}

const BUILDING: [&str; 19] =
    ["bash", "env", "readlink", "sed", "find", "tr", "tee", "tail", "cut", "mkdir", "touch", "mv", "cp", "cat", "gcc", "as", "ld", "flock", "sleep"];

#[test]
fn an_unbuilt_checkout() {
    let (place, path) = (unbuilt("unbuilt"), commands("building", &BUILDING));
    let list = root().join("lessons/week.txt");
    let run = |words: &[&str]| {
        let done = with_commands(&place.join("replay"), &path, &[words, &[list.to_str().unwrap()]].concat());
        (done.status.code(), String::from_utf8(done.stdout).unwrap(), String::from_utf8(done.stderr).unwrap())
    };
    let (status, _, said) = run(&[]);
    assert!(status == Some(1) && said.contains("the Rattle toolchain (the command rt), which proves and builds it, is not installed"), "{said}");
    put_rt(&path);
    std::fs::write(place.join("target"), "").unwrap();
    for words in [&[][..], &["--states"]] {
        let (status, written, said) = run(words);
        assert!(
            status == Some(1)
                && written.is_empty()
                && said.contains("is not built yet, and ")
                && said.contains("/target, where it is built, cannot be written to"),
            "{said}"
        );
        assert!(!said.contains("started"), "{said}");
    }
    std::fs::remove_file(place.join("target")).unwrap();
    // What takes minutes is said before it starts.
    let (status, written, said) = run(&["--states"]);
    let at = |text: &str| said.find(text).unwrap_or_else(|| panic!("{text:?} is not said: {said}"));
    let start = at("proving and building the engine as a library, which all but plain answers need (rt lib in crates/service)");
    assert!(start < at("started lib in service") && said.contains("from nothing this takes some minutes") && status == Some(0), "{said}");
    assert_eq!(written, replay::states::states(&std::fs::read(&list).unwrap(), false));
    std::fs::remove_dir_all(place).unwrap();
    println!("an unbuilt checkout: no toolchain, no place to write, and built at the first --states");
}

#[test]
fn built_at_once() {
    let (place, path) = (unbuilt("unbuilt-both"), commands("building-both", &BUILDING));
    put_rt(&path);
    let done = with_commands(&place.join("replay"), &path, &["--build"]);
    let said = String::from_utf8_lossy(&done.stderr);
    assert!(
        done.status.success() && done.stdout.is_empty() && said.contains("started run in replay_cli") && said.contains("started lib in service"),
        "{said}"
    );
    std::fs::remove_file(path.join("rt")).unwrap();
    let list = root().join("lessons/week.txt");
    for words in [&[][..], &["--states"], &["--explain"]] {
        let done = with_commands(&place.join("replay"), &path, &[words, &[list.to_str().unwrap()]].concat());
        assert!(done.status.success() && done.stderr.is_empty() && !done.stdout.is_empty(), "{words:?}: {}", String::from_utf8_lossy(&done.stderr));
    }
    let done = with_commands(&place.join("exam"), &path, &["64", "2", "1", "1", "2"]);
    assert!(done.status.success() && done.stderr.is_empty() && !done.stdout.is_empty(), "exam: {}", String::from_utf8_lossy(&done.stderr));
    std::fs::remove_dir_all(place).unwrap();
    println!("--build, and nothing is left to prove then");
}

/// Two replays in one unbuilt checkout: one builds, the other waits for it and says so, and both answer.
#[test]
fn two_at_once() {
    let (place, path) = (unbuilt("unbuilt-twice"), commands("building-twice", &BUILDING));
    put_rt(&path);
    let rt = std::fs::read_to_string(path.join("rt")).unwrap();
    write_command(&path.join("rt"), &rt.replace("case $1 in", &format!("echo started >> {}/target/starts\nsleep 2\ncase $1 in", place.display())));
    let list = root().join("lessons/week.txt");
    let said: Vec<String> = std::thread::scope(|scope| {
        let one = || {
            let done = with_commands(&place.join("replay"), &path, &["--states", list.to_str().unwrap()]);
            assert!(done.status.success(), "{}", String::from_utf8_lossy(&done.stderr));
            assert_eq!(String::from_utf8(done.stdout).unwrap(), replay::states::states(&std::fs::read(&list).unwrap(), false));
            String::from_utf8(done.stderr).unwrap()
        };
        let both = [scope.spawn(one), scope.spawn(one)];
        both.into_iter().map(|running| running.join().unwrap()).collect()
    });
    assert_eq!(std::fs::read_to_string(place.join("target/starts")).unwrap(), "started\n");
    assert_eq!(said.iter().filter(|said| said.contains("another replay is building the engine: waiting for it")).count(), 1, "{said:?}");
    std::fs::remove_dir_all(place).unwrap();
    println!("two replays at once in an unbuilt checkout: one builds, the other waits");
}

#[test]
fn a_text_without_a_heading() {
    let place = folder("headings");
    std::fs::copy(root().join("lessons/week.txt"), place.join("own.txt")).unwrap();
    let page = |text: &str| {
        std::fs::write(place.join("own.md"), text).unwrap();
        let done = Command::new(root().join("replay")).args(["--page", "own.txt"]).current_dir(&place).stdin(Stdio::null()).output().unwrap();
        assert!(done.status.success());
        (String::from_utf8(done.stdout).unwrap(), String::from_utf8(done.stderr).unwrap())
    };
    for text in ["", "\n# Late\n", "words\n", "#\n"] {
        let (page, said) = page(text);
        assert!(page.contains("<h1>own.txt</h1>") && said.contains("the first line of own.md is no heading"), "{text:?}: {said}");
    }
    let (page, said) = page("# Of my own\n");
    assert!(page.contains("<h1>Of my own</h1>") && said.is_empty(), "{said}");
    println!("a page whose text has no heading is named after its list, and that is said");
}

/// A list whose page would be longer ends with a picture fewer, and the sums.
#[test]
fn a_page_of_five_megabytes() {
    let place = folder("long-page");
    let list = |lines: usize| {
        let text: String = std::iter::once("box 64 256 1024 256\n".to_string()).chain((0..lines).map(|k| format!("R {}\n", k % 256))).collect();
        std::fs::write(place.join("long.txt"), text).unwrap();
        let done = Command::new(root().join("replay")).args(["--page", "long.txt"]).current_dir(&place).stdin(Stdio::null()).output().unwrap();
        assert!(done.status.success());
        (String::from_utf8(done.stdout).unwrap(), String::from_utf8(done.stderr).unwrap())
    };
    let (page, said) = list(20);
    assert!(said.is_empty() && page.matches("<section>").count() == 22, "{said}");
    let (page, said) = list(400);
    let pictures = page.matches("<section><h2>").count() - 2;
    assert!(page.len() <= 5_000_000 && page.len() > 4_800_000 && page.contains("<h2>The sums</h2>") && page.ends_with("</html>\n"), "{} bytes", page.len());
    let message = format!("a page has at most 5,000,000 bytes, so the last {} lines of the list are left out", 400 - pictures);
    assert!(said.contains(&message) && page.contains(&message[1..]), "{pictures} pictures: {said}");
    println!("a page of {} bytes with {pictures} of 400 lines", page.len());
}

/// Output that is lost, to a full device or to a pipe that nobody reads, and a list that cannot be read: the reason in words, and status 1.
#[test]
fn lost_output_and_lists_that_cannot_be_read() {
    let (warm, folder, mark): (&[&str], &[&str], &[&str]) = (&["--warm", "1"], &["--folder", "1"], &["--mark", "week.expected"]);
    let options: [&[&str]; 10] = [&[], &["--states"], &["--parts"], &["--explain"], &["--counts"], &["--limit", "1"], warm, folder, mark, &["--page"]];
    let run = |words: &[&str], input: &str, output: Stdio| {
        let stdin = File::open(root().join(input)).unwrap();
        let mut command = Command::new(root().join("replay"));
        let done = command.args(words).current_dir(root().join("lessons")).stdin(stdin).stdout(output).stderr(Stdio::piped()).spawn().unwrap();
        let done = done.wait_with_output().unwrap();
        (done.status, String::from_utf8(done.stderr).unwrap())
    };
    for words in options {
        let full = std::fs::OpenOptions::new().write(true).open("/dev/full").unwrap();
        let (status, said) = run(words, "lessons/counting.txt", full.into());
        assert!(status.code() == Some(1) && said.ends_with("cannot be written: No space left on device\n"), "{words:?}: {status} {said}");
        let (reader, unread) = std::io::pipe().unwrap();
        drop(reader);
        let (status, said) = run(words, "lessons/counting.txt", unread.into());
        assert!(status.code() == Some(1) && said.ends_with("cannot be written: Broken pipe\n"), "{words:?}: {status} {said}");
        let (status, said) = run(words, "lessons", Stdio::null());
        assert!(status.code() == Some(1) && said.contains("the list cannot be read: Is a directory"), "{words:?}: {status} {said}");
    }
    let closed = Command::new("bash").args(["-c", "./replay <&-"]).current_dir(root()).output().unwrap();
    let said = String::from_utf8(closed.stderr).unwrap();
    assert!(closed.status.code() == Some(1) && said == "replay: the list cannot be read: standard input is closed\n", "{said}");
    println!("{} options with lost output, and with a list that cannot be read", options.len());
}
