//! include/mindavehu.h and README.md as a C programmer takes them: the examples, the lines that build a program, the stack.
use replay::programs::{folder, root};
use std::process::Command;

/// Runs a command, which must end well. Gives its output.
fn run(command: &mut Command) -> String {
    let done = command.output().unwrap();
    assert!(done.status.success(), "{command:?}: {}{}", String::from_utf8_lossy(&done.stdout), String::from_utf8_lossy(&done.stderr));
    String::from_utf8(done.stdout).unwrap()
}

fn read(name: &str) -> String {
    std::fs::read_to_string(root().join(name)).unwrap()
}

/// The pieces of the header's first comment that stand four columns further in than its text.
fn pieces() -> Vec<String> {
    let header = read("include/mindavehu.h");
    let comment = header.split("*/").next().unwrap();
    let mut pieces = vec![];
    let mut piece = String::new();
    for line in comment.lines().map(|line| line.strip_prefix(" *").unwrap_or("/* not a line of the comment")) {
        match line.strip_prefix("     ") {
            Some(code) => piece += &format!("{code}\n"),
            None if line.is_empty() && !piece.is_empty() => piece.push('\n'),
            None => pieces.extend(Some(std::mem::take(&mut piece)).filter(|piece| !piece.is_empty())),
        }
    }
    pieces.extend(Some(piece).filter(|piece| !piece.is_empty()));
    pieces.iter().map(|piece| format!("{}\n", piece.trim_end())).collect()
}

/// Compiled as the header says, C99 with every warning, the programs print what stands behind them.
#[test]
fn the_examples() {
    let place = folder("header");
    let pieces = pieces();
    let starts: Vec<usize> = (0..pieces.len()).filter(|k| pieces[*k].starts_with("#include")).collect();
    assert_eq!(starts.len(), 3, "complete programs in the header");
    for k in starts {
        let source = place.join(format!("example{k}.c"));
        std::fs::write(&source, &pieces[k]).unwrap();
        let program = source.with_extension("");
        let mut command = Command::new("gcc");
        command.args(["-std=c99", "-Wall", "-Wextra", "-Werror", "-pedantic", "-I"]).arg(root().join("include")).arg(&source);
        run(command.arg(root().join("crates/service/out/libservice.a")).arg("-o").arg(&program));
        assert_eq!(run(&mut Command::new(&program)), pieces[k + 1], "{}", pieces[k]);
    }
    println!("three programs of the header print what it says");
}

/// The lines of README.md for the C programmer, without the first, which proves: they run as they stand and write under target/ alone.
#[test]
fn the_lines_of_readme() {
    let readme = read("README.md");
    let lines: Vec<&str> = readme.split("```sh\n").nth(1).unwrap().split("```").next().unwrap().lines().collect();
    assert_eq!(lines[0], "mkdir -p target && (cd crates/service && rt lib)");
    assert!(lines.len() == 3 && read(".gitignore").lines().any(|line| line == "target/"), "{lines:?}");
    let output = lines[1].split(" -o ").nth(1).unwrap();
    assert!(output.starts_with("target/") && lines[2].starts_with(&format!("./{output}")), "{lines:?}");
    let before = std::fs::read_dir(root()).unwrap().count();
    let written = run(Command::new("bash").args(["-e", "-c", &lines[1..].join("\n")]).current_dir(root()));
    assert!(written.contains("facts hold") && root().join(output).exists(), "{written}");
    assert_eq!(std::fs::read_dir(root()).unwrap().count(), before, "files in the root folder");
    println!("README.md: {}", lines[1]);
}

/// Each call's stack, measured as bench/service/run does, beside the header's number.
#[test]
fn the_stack() {
    let program = folder("stack-of-calls").join("stack");
    let mut command = Command::new("gcc");
    command.args(["-O1", "-I"]).arg(root().join("include")).arg(root().join("bench/service/stack.c"));
    run(command.arg(root().join("crates/service/out/libservice.a")).args(["-lpthread", "-o"]).arg(&program));
    let header = read("include/mindavehu.h");
    let most: u64 = header.lines().find_map(|line| line.strip_prefix("#define MINDAVEHU_STACK ")).unwrap().parse().unwrap();
    let written = run(&mut Command::new(&program));
    let needs: Vec<u64> = written.lines().skip(1).map(|line| line.split_whitespace().last().unwrap().parse().unwrap()).collect();
    let deepest = *needs.iter().max().unwrap();
    assert!(needs.len() >= 14 && deepest <= most, "the header says {most}:\n{written}");
    // A number far above the need would say nothing.
    assert!(deepest > most / 2, "the header says {most}, and {deepest} bytes are needed");
    println!("stack: {deepest} bytes of at most {most}");
}
