//! ./install: the tree that it makes, used with no toolchain in the path, and from C by pkg-config.
use replay::programs::{commands, folder, root, PLAIN_COMMANDS};
use std::path::{Path, PathBuf};
use std::process::{Command, Output, Stdio};
use std::sync::OnceLock;

/// The tree, installed and then moved to another folder.
fn tree() -> &'static Path {
    static TREE: OnceLock<PathBuf> = OnceLock::new();
    TREE.get_or_init(|| {
        let place = folder("installed");
        // A folder of the caller's, which is not the checkout.
        let done = Command::new(root().join("install")).current_dir(&place).env("PREFIX", "first").stdin(Stdio::null()).output().unwrap();
        assert!(done.status.success(), "{}", String::from_utf8_lossy(&done.stderr));
        std::fs::rename(place.join("first"), place.join("moved tree")).unwrap();
        place.join("moved tree")
    })
}

/// Every file of a folder, by its path in it.
fn files(folder: &Path) -> Vec<String> {
    let mut found = vec![];
    let mut open = vec![folder.to_owned()];
    while let Some(next) = open.pop() {
        for entry in std::fs::read_dir(next).unwrap().map(|entry| entry.unwrap().path()) {
            if entry.is_dir() {
                open.push(entry);
            } else {
                found.push(entry.strip_prefix(folder).unwrap().to_str().unwrap().to_string());
            }
        }
    }
    found.sort();
    found
}

/// Runs the installed command with a few plain commands in the path: no rt, no compiler, no cargo.
fn replayed(path: &Path, words: &[&str]) -> Output {
    Command::new(tree().join("bin/replay"))
        .args(words)
        .env_clear()
        .env("PATH", path)
        .current_dir(tree().join("share/mindavehu/lessons"))
        .stdin(Stdio::null())
        .output()
        .unwrap()
}

fn stored(name: &str) -> String {
    std::fs::read_to_string(root().join(name)).unwrap()
}

#[test]
fn what_is_there() {
    let found = files(tree());
    assert_eq!(found, files(&root().join("dist")), "the copy and dist/");
    let wanted = [
        "bin/replay",
        "bin/exam",
        "include/mindavehu.h",
        "lib/libmindavehu.a",
        "lib/pkgconfig/mindavehu.pc",
        "libexec/mindavehu/replay_cli",
        "libexec/mindavehu/toolchain",
    ];
    for name in wanted.iter().chain(&[
        "share/man/man1/replay.1",
        "share/man/man1/exam.1",
        "share/mindavehu/lessons/week.txt",
        "share/mindavehu/docs/week.html",
        "share/mindavehu/docs/FORMATS.md",
    ]) {
        assert!(found.iter().any(|file| file == name), "{name} is missing: {found:?}");
    }
    for lesson in files(&root().join("lessons")) {
        assert_eq!(
            std::fs::read(tree().join("share/mindavehu/lessons").join(&lesson)).unwrap(),
            std::fs::read(root().join("lessons").join(&lesson)).unwrap(),
            "{lesson}"
        );
    }
    // What a page refers to is there, but for what is on the net.
    let mut links = 0;
    for name in found.iter().filter(|name| name.ends_with(".md")) {
        let page = std::fs::read_to_string(tree().join(name)).unwrap();
        for link in page.split("](").skip(1).map(|rest| rest.split(')').next().unwrap()) {
            assert!(tree().join(name).parent().unwrap().join(link).exists(), "{name} refers to {link}");
            links += 1;
        }
    }
    assert!(links > 20, "{links} links");
    println!("{} files, {links} links between them", found.len());
}

#[test]
fn the_week_without_a_toolchain() {
    let path = commands("no-toolchain", &PLAIN_COMMANDS);
    let written = |words: &[&str]| {
        let done = replayed(&path, words);
        assert!(done.status.success() && done.stderr.is_empty(), "{words:?}: {}", String::from_utf8_lossy(&done.stderr));
        String::from_utf8(done.stdout).unwrap()
    };
    let week = stored("lessons/week.txt");
    assert_eq!(written(&["week.txt"]), stored("lessons/week.expected"));
    assert_eq!(written(&["--states", "week.txt"]), replay::states::states(week.as_bytes(), false));
    assert_eq!(written(&["--warm", "4", "warm-start.txt"]), replay::states::warm(stored("lessons/warm-start.txt").as_bytes(), 4));
    assert_eq!(written(&["--folder", "1,4,1", "folder.txt"]), replay::states::folder(stored("lessons/folder.txt").as_bytes(), &[1, 4, 1]));
    assert_eq!(written(&["--mark", "week.expected", "week.txt"]), "13 of 13 lines are right\n");
    assert!(written(&["--explain", "week.txt"]).contains("    content 9 is stored in flash\n"));
    assert_eq!(written(&["--build"]), "");
    assert!(written(&["--help"]).contains("./replay --mark ANSWERS FILE"));
    let version = written(&["--version"]);
    let toolchain = std::fs::read_to_string(tree().join("libexec/mindavehu/toolchain")).unwrap();
    assert!(version.starts_with("mindavehu ") && version.ends_with(&format!("\ntoolchain: {toolchain}")) && !toolchain.trim().is_empty(), "{version}");
    println!("{}", version.replace('\n', ", "));
}

/// The exam's command of the tree prints what that of the checkout does.
#[test]
fn exam_questions_without_a_toolchain() {
    let path = commands("exam-no-toolchain", &PLAIN_COMMANDS);
    let words = ["--list", "2", "3", "64", "4", "3", "2", "5"];
    let done = Command::new(tree().join("bin/exam")).args(words).env_clear().env("PATH", &*path).stdin(Stdio::null()).output().unwrap();
    let own = Command::new(root().join("exam")).args(words).stdin(Stdio::null()).output().unwrap();
    assert!(done.status.success() && done.stderr.is_empty() && own.status.success(), "{}", String::from_utf8_lossy(&done.stderr));
    assert!(done.stdout == own.stdout && !done.stdout.is_empty());
    println!("{}", String::from_utf8_lossy(&done.stdout).lines().next().unwrap());
}

/// The page needs python3: without it that is said, and with it the page is the one of docs/.
#[test]
fn the_page() {
    let path = commands("no-python", &PLAIN_COMMANDS);
    let done = replayed(&path, &["--page", "week.txt"]);
    assert!(done.status.code() == Some(1) && done.stdout.is_empty() && String::from_utf8_lossy(&done.stderr).contains("the page needs python3"));
    let lessons = tree().join("share/mindavehu/lessons");
    let done = Command::new(tree().join("bin/replay")).args(["--page", "week.txt"]).current_dir(lessons).stdin(Stdio::null()).output().unwrap();
    assert_eq!(String::from_utf8_lossy(&done.stdout), stored("docs/week.html"));
    println!("the page of the week, from the installed tree");
}

/// The programs need the C library and nothing else that is loaded.
#[test]
fn the_c_library_alone() {
    for name in ["replay_cli", "states", "exam", "mark"] {
        let done = Command::new("ldd").arg(tree().join("libexec/mindavehu").join(name)).output().unwrap();
        let said = String::from_utf8(done.stdout).unwrap() + &String::from_utf8_lossy(&done.stderr);
        let others: Vec<&str> = said
            .lines()
            .filter(|line| !["linux-vdso.so", "libc.so", "ld-linux", "statically linked", "not a dynamic executable"].iter().any(|known| line.contains(known)))
            .collect();
        assert!(others.is_empty() && !said.is_empty(), "{name}: {said}");
    }
    println!("four programs, and the C library alone");
}

fn pkg_config(words: &[&str]) -> String {
    let done =
        Command::new("pkg-config").args(words).arg("mindavehu").env("PKG_CONFIG_PATH", tree().join("lib/pkgconfig")).output().expect("pkg-config is missing");
    assert!(done.status.success(), "{}", String::from_utf8_lossy(&done.stderr));
    String::from_utf8(done.stdout).unwrap().trim_end().to_string()
}

/// The C programs of tests/c are built with what pkg-config says and nothing of the checkout's.
#[test]
fn from_c_by_pkg_config() {
    let header = stored("include/mindavehu.h");
    let version = header.lines().find_map(|line| line.strip_prefix("#define MINDAVEHU_VERSION ")).unwrap();
    assert_eq!(format!("\"{}\"", pkg_config(&["--modversion"])), version);
    let flags = pkg_config(&["--cflags", "--libs"]);
    assert!(flags.contains("-lmindavehu") && !flags.contains("staticlib"), "{flags}");
    let place = folder("by-pkg-config");
    for name in ["expect.h", "week.c", "box.c"] {
        std::fs::copy(root().join("tests/c").join(name), place.join(name)).unwrap();
    }
    for name in ["week", "box"] {
        let line = format!("gcc -std=c99 -Wall -Wextra -Werror -pedantic {name}.c {flags} -o {name} && ./{name}");
        let done = Command::new("bash").args(["-e", "-c", &line]).current_dir(&place).output().unwrap();
        assert!(done.status.success() && !done.stdout.is_empty(), "{line}: {}{}", String::from_utf8_lossy(&done.stdout), String::from_utf8_lossy(&done.stderr));
        println!("{}", String::from_utf8_lossy(&done.stdout).trim_end());
    }
}

/// Every option that --help names is in the command's manual page, and the other way round.
#[test]
fn the_manual_page() {
    let options = |text: &str| {
        let mut found: Vec<String> = text
            .split(|letter: char| !(letter.is_ascii_lowercase() || letter == '-'))
            .filter(|word| word.starts_with("--") && word.len() > 2)
            .map(str::to_string)
            .collect();
        found.sort();
        found.dedup();
        found
    };
    for (name, least) in [("replay", 9), ("exam", 3)] {
        let page = std::fs::read_to_string(tree().join(format!("share/man/man1/{name}.1"))).unwrap().replace("\\-", "-");
        // Of ./replay the exam's help names options too, each behind its name.
        let help = String::from_utf8(Command::new(root().join(name)).arg("--help").output().unwrap().stdout).unwrap();
        let own = if name == "exam" { help.replace("./replay --build", "").replace("./replay --disk", "") } else { help };
        assert_eq!(options(&page), options(&own), "{name}");
        assert!(options(&page).len() >= least && !page.contains("@VERSION@"));
        println!("the manual page of {name}: {}", options(&page).join(" "));
    }
}
