//! The built programs: the proved replay, and the trainer's programs of the states and of exam questions, which are compiled here through the header.
use std::io::{ErrorKind, Write};
use std::path::{Path, PathBuf};
use std::process::{Child, Command, Output, Stdio};
use std::sync::OnceLock;
use std::time::Duration;

pub fn root() -> PathBuf {
    Path::new(env!("CARGO_MANIFEST_DIR")).join("../..").canonicalize().unwrap()
}

/// The blocks of code of a page, without a word behind their first mark.
pub fn fences(page: &str) -> Vec<&str> {
    page.split("```\n").skip(1).step_by(2).collect()
}

/// A program that reads standard input and writes standard output.
pub struct Program {
    path: PathBuf,
    words: Vec<String>,
}

/// How an input is written: at once, or in pieces of so many bytes with a pause after each, as far as the pauses last.
#[derive(Clone, Copy)]
pub enum Writing {
    Whole,
    Pieces(usize),
}

const MOST_PAUSES: usize = 12;

impl Program {
    /// The proved program, which `rt run` in crates/replay_cli puts into crates/replay_cli/out/.
    pub fn replay() -> Program {
        let path = root().join("crates/replay_cli/out/replay_cli");
        assert!(path.exists(), "crates/replay_cli/out/replay_cli is missing: `rt run` in crates/replay_cli builds it");
        Program { path, words: vec![] }
    }

    /// A program of the trainer, with the compiler's options and its own words.
    pub fn states(build: &'static Build, words: &[&str]) -> Program {
        Program { path: build.path().to_owned(), words: words.iter().map(|word| word.to_string()).collect() }
    }

    /// The script that makes a page of the states' output.
    pub fn page(title: &str) -> Program {
        Program { path: root().join("trainer/page.py"), words: vec![title.to_string()] }
    }

    /// Starts the program, gives it the input and takes its output. It must end well and say nothing on standard error.
    pub fn run(&self, input: &[u8], writing: Writing) -> Vec<u8> {
        let done = self.done(input, writing);
        let said = String::from_utf8_lossy(&done.stderr);
        assert!(done.status.success() && said.is_empty(), "{} ended with {} and said: {said}", self.path.display(), done.status);
        done.stdout
    }

    /// The same where it need not end well: the status, the output, and what it said on standard error.
    pub fn ended(&self, input: &[u8]) -> (Option<i32>, Vec<u8>, String) {
        let done = self.done(input, Writing::Whole);
        (done.status.code(), done.stdout, String::from_utf8_lossy(&done.stderr).into_owned())
    }

    /// Starts the program with pipes for its input, its output and what it says on standard error.
    pub fn start(&self) -> Child {
        Command::new(&self.path).args(&self.words).stdin(Stdio::piped()).stdout(Stdio::piped()).stderr(Stdio::piped()).spawn().unwrap()
    }

    fn done(&self, input: &[u8], writing: Writing) -> Output {
        let mut child = self.start();
        let stdin = child.stdin.take().unwrap();
        std::thread::scope(|scope| {
            scope.spawn(|| write(stdin, input, writing));
            child.wait_with_output().unwrap()
        })
    }
}

/// Writes an input and closes the pipe. A program that has ended at a refused box line reads no further.
fn write(mut stdin: impl Write, input: &[u8], writing: Writing) {
    let size = match writing {
        Writing::Whole => input.len().max(1),
        Writing::Pieces(size) => size,
    };
    for (k, piece) in input.chunks(size).enumerate() {
        match stdin.write_all(piece) {
            Err(error) if error.kind() == ErrorKind::BrokenPipe => return,
            done => done.unwrap(),
        }
        if k < MOST_PAUSES && size < input.len() {
            std::thread::sleep(Duration::from_micros(300));
        }
    }
}

/// A fresh folder target/tests/NAME, empty.
pub fn folder(name: &str) -> PathBuf {
    let path = root().join("target/tests").join(name);
    let _ = std::fs::remove_dir_all(&path);
    std::fs::create_dir_all(&path).unwrap();
    path
}

/// A fresh folder outside the repository, empty: `rt ci` refuses a crates.txt below its top, and links. Who asks for it removes it.
pub fn outside(name: &str) -> PathBuf {
    let path = std::env::temp_dir().canonicalize().unwrap().join(format!("mindavehu-{name}-{}", std::process::id()));
    let _ = std::fs::remove_dir_all(&path);
    std::fs::create_dir_all(&path).unwrap();
    path
}

/// A folder outside the repository that is removed with its owner.
pub struct Temporary(PathBuf);

impl std::ops::Deref for Temporary {
    type Target = Path;

    fn deref(&self) -> &Path {
        &self.0
    }
}

impl Drop for Temporary {
    fn drop(&mut self) {
        let _ = std::fs::remove_dir_all(&self.0);
    }
}

/// A folder for PATH that has these commands of the machine, as links, and no other.
pub fn commands(name: &str, names: &[&str]) -> Temporary {
    let path = outside(name);
    let places: Vec<PathBuf> = std::env::split_paths(&std::env::var_os("PATH").unwrap()).collect();
    for name in names {
        let found = places.iter().map(|place| place.join(name)).find(|file| file.exists()).unwrap_or_else(|| panic!("{name} is not installed"));
        std::os::unix::fs::symlink(found.canonicalize().unwrap(), path.join(name)).unwrap();
    }
    Temporary(path)
}

/// What the script ./replay and an installed tree need beside the C library.
pub const PLAIN_COMMANDS: [&str; 5] = ["bash", "cat", "env", "readlink", "sed"];

/// A build of a program of trainer/, made once in each test program.
pub struct Build {
    source: &'static str,
    name: &'static str,
    flags: &'static [&'static str],
    path: OnceLock<PathBuf>,
}

const SANITIZERS: &[&str] = &["-fsanitize=address,undefined", "-fno-sanitize-recover=all"];

impl Build {
    const fn of(source: &'static str, name: &'static str, flags: &'static [&'static str]) -> Build {
        Build { source, name, flags, path: OnceLock::new() }
    }
}

pub static PLAIN: Build = Build::of("trainer/states.c", "states", &[]);
pub static SANITIZED: Build = Build::of("trainer/states.c", "states-sanitized", SANITIZERS);
pub static EXAM: Build = Build::of("trainer/exam.c", "exam", &[]);
pub static EXAM_SANITIZED: Build = Build::of("trainer/exam.c", "exam-sanitized", SANITIZERS);

impl Build {
    fn gcc(&self, source: &Path, more: &[&Path], output: &Path) -> (bool, String) {
        let mut command = Command::new("gcc");
        command.args(["-O1", "-g", "-Wall", "-Wextra", "-Werror"]).args(self.flags).arg("-I").arg(root().join("include")).arg(source).args(more);
        let done = command.arg("-o").arg(output).output().expect("gcc is missing");
        (done.status.success(), String::from_utf8_lossy(&done.stderr).into_owned())
    }

    /// Whether programs with these flags can be linked on this machine.
    pub fn links(&self) -> bool {
        let folder = root().join("target/tests");
        let source = folder.join(format!("{}-empty.c", self.name));
        std::fs::write(&source, "int main(void) { return 0; }\n").unwrap();
        let output = source.with_extension("");
        let linked = self.gcc(&source, &[], &output).0;
        let _ = (std::fs::remove_file(&source), std::fs::remove_file(&output));
        linked
    }

    fn path(&self) -> &Path {
        self.path.get_or_init(|| {
            let output = root().join("target/tests").join(self.name);
            let library = root().join("crates/service/out/libservice.a");
            let (built, said) = self.gcc(&root().join(self.source), &[&library], &output);
            assert!(built, "{} does not compile:\n{said}", self.source);
            output
        })
    }
}
