//! What the tests that run the program share: a folder for its files, and what came of a run.

// each test program uses a part of this
#![allow(dead_code)]

pub mod json;

use std::ffi::{OsStr, OsString};
use std::fs::{self, File, OpenOptions};
use std::io::Write;
use std::os::unix::fs::OpenOptionsExt;
use std::path::{Path, PathBuf};
use std::process::{Child, Command, Output, Stdio};
use std::sync::atomic::{AtomicUsize, Ordering};

/// A Record of `a`, an Int, and `b`, an Array of Bool.
pub const M4: [u8; 10] = [0x42, 7, 0, 2, 1, b'a', 0x20, 1, b'b', 0x62];

/// M12's template, a Map of blank 0 to blank 1, and M13's, an Array of blank 0.
pub const M12: [u8; 5] = [0x41, 2, 0, 0, 1];
pub const M13: [u8; 4] = [0x40, 1, 0, 0];

/// Sheets of the bench card: each of two blanks for the other, Int for blank 0, and those of M14.
pub const SWAP: [u8; 14] = [2, 0, 0, 0, 1, 0, 1, 0, 1, 0, 2, 0, 1, 0];
pub const INT_FOR_0: [u8; 9] = [1, 0, 0, 0, 1, 0, 1, 0, 0x20];
pub const FIRST: [u8; 9] = [1, 0, 0, 0, 1, 0, 1, 0, 1];
pub const SECOND: [u8; 9] = [1, 0, 1, 0, 1, 0, 1, 0, 0x20];
pub const JOINED: [u8; 14] = [2, 0, 0, 0, 1, 0, 1, 0, 1, 0, 2, 0, 0x20, 0x20];

/// A shape with a payload.
pub fn long(first: u8, payload: &[u8]) -> Vec<u8> {
    let size = (payload.len() as u16).to_le_bytes();
    [&[first], &size[..], payload].concat()
}

/// So many Arrays round a shape.
pub fn arrays(count: usize, inner: &[u8]) -> Vec<u8> {
    (0..count).fold(inner.to_vec(), |inner, _| long(0x40, &inner))
}

/// A sheet of one entry.
pub fn one(blank: u16, shape: &[u8]) -> Vec<u8> {
    let length = (shape.len() as u16).to_le_bytes();
    [&[1, 0], &blank.to_le_bytes()[..], &length, &length, shape].concat()
}

/// The program, ready to be given its arguments. Where cargo runs what it built in an emulator, so
/// does this: the emulator does not pass itself on.
pub fn program() -> Command {
    let runner = std::env::var("CARGO_TARGET_X86_64_UNKNOWN_LINUX_GNU_RUNNER");
    let runner = runner.unwrap_or_default();
    let binary = env!("CARGO_BIN_EXE_shiulbart");
    let mut words = runner.split_whitespace().chain([binary]);
    let mut command = Command::new(words.next().unwrap());
    command.args(words);
    command
}

/// What came of a run.
#[derive(Debug)]
pub struct Ran {
    pub status: i32,
    pub out: Vec<u8>,
    pub err: String,
}

impl Ran {
    pub fn of(output: Output) -> Ran {
        Ran {
            status: output.status.code().expect("it was not killed"),
            out: output.stdout,
            err: String::from_utf8(output.stderr).expect("standard error is text"),
        }
    }

    pub fn text(&self) -> &str {
        std::str::from_utf8(&self.out).expect("standard output is text")
    }

    /// Of a run that was answered, without a word on standard error: standard output.
    #[track_caller]
    pub fn answer(self) -> Vec<u8> {
        assert_eq!((self.status, &self.err[..]), (0, ""), "{self:?}");
        self.out
    }

    /// As [`answer`](Self::answer), for an answer that is text.
    #[track_caller]
    pub fn page(self) -> String {
        String::from_utf8(self.answer()).expect("standard output is text")
    }

    /// Of a run that was refused: standard error. Nothing else was said.
    #[track_caller]
    pub fn refusal(self) -> String {
        assert_eq!((self.status, self.text()), (1, ""), "{self:?}");
        self.err
    }

    /// Of a run that could not be tried: its line on standard error, without what it starts with.
    #[track_caller]
    pub fn trouble(self) -> String {
        assert_eq!((self.status, self.text()), (2, ""), "{self:?}");
        let line = self.err.strip_prefix("shiulbart: ").expect("its name");
        let line = line.strip_suffix('\n').expect("a whole line");
        assert!(!line.contains('\n'), "{line}");
        line.to_string()
    }
}

/// A folder of a test, which is gone in the end.
pub struct Folder(PathBuf);

impl Folder {
    pub fn new() -> Folder {
        static COUNT: AtomicUsize = AtomicUsize::new(0);
        let count = COUNT.fetch_add(1, Ordering::Relaxed);
        let name = format!("{}-{count}", std::process::id());
        let path = Path::new(env!("CARGO_TARGET_TMPDIR")).join(name);
        fs::create_dir_all(&path).unwrap();
        Folder(path)
    }

    /// A folder with these files.
    pub fn with<const N: usize>(files: [(&str, &[u8]); N]) -> Folder {
        let folder = Folder::new();
        for (name, bytes) in files {
            folder.put(name, bytes);
        }
        folder
    }

    pub fn path(&self, name: &str) -> PathBuf {
        self.0.join(name)
    }

    pub fn put(&self, name: impl AsRef<OsStr>, bytes: &[u8]) {
        fs::write(self.0.join(name.as_ref()), bytes).unwrap();
    }

    pub fn bytes(&self, name: &str) -> Vec<u8> {
        fs::read(self.path(name)).unwrap()
    }

    /// The names of all that is in it, in order.
    pub fn names(&self) -> Vec<String> {
        let entries = fs::read_dir(&self.0).unwrap();
        let name = |entry: std::io::Result<fs::DirEntry>| {
            let name = entry.unwrap().file_name();
            name.into_string().unwrap()
        };
        let mut names: Vec<String> = entries.map(name).collect();
        names.sort();
        names
    }

    /// The program in the folder, with these arguments and nothing on standard input.
    pub fn command(&self, words: &[&str]) -> Command {
        let mut command = program();
        command.args(words).current_dir(&self.0);
        command.stdin(Stdio::null());
        command
    }

    /// Runs it.
    pub fn run(&self, words: &[&str]) -> Ran {
        Ran::of(self.command(words).output().unwrap())
    }

    /// Runs it with a line of words.
    pub fn line(&self, line: &str) -> Ran {
        self.run(&line.split_whitespace().collect::<Vec<_>>())
    }

    /// Runs it with a line of words and this on standard input.
    pub fn fed(&self, line: &str, bytes: &[u8]) -> Ran {
        let mut child = self.started(line);
        feed(&mut child, bytes);
        Ran::of(child.wait_with_output().unwrap())
    }

    /// Starts it with a line of words and all its streams open.
    pub fn started(&self, line: &str) -> Child {
        let words: Vec<&str> = line.split_whitespace().collect();
        let mut command = self.command(&words);
        command.stdin(Stdio::piped());
        command.stdout(Stdio::piped()).stderr(Stdio::piped());
        command.spawn().unwrap()
    }
}

/// Gives a program its whole standard input. It need not read all.
pub fn feed(child: &mut Child, bytes: &[u8]) {
    let _ = child.stdin.take().unwrap().write_all(bytes);
}

impl Drop for Folder {
    fn drop(&mut self) {
        let _ = fs::remove_dir_all(&self.0);
    }
}

/// A device, if this system has it; where it does not, the test that wants it says so. What is not
/// there yet is not waited for.
pub fn device(name: &str) -> Option<File> {
    const O_NONBLOCK: i32 = 0o4000;
    let mut options = OpenOptions::new();
    options.read(true).write(true).custom_flags(O_NONBLOCK);
    let device = options.open(name);
    device.map_err(|error| println!("{name}: {error}")).ok()
}

/// A file of the repository.
pub fn repository(name: &str) -> PathBuf {
    Path::new(env!("CARGO_MANIFEST_DIR"))
        .join("../..")
        .join(name)
}

/// The place that the caret of a dump is under, by its row's first number and its column, and the
/// digits above it.
pub fn caret(text: &str) -> (usize, String) {
    let lines: Vec<&str> = text.lines().collect();
    let carets: Vec<usize> = (0..lines.len())
        .filter(|&k| lines[k].contains("^^"))
        .collect();
    let [caret] = carets[..] else {
        panic!("there is not one caret in {text}");
    };
    let column = lines[caret].find('^').unwrap();
    assert_eq!((column - 8) % 3, 0, "{text}");
    let row = format!("{:<80}", lines[caret - 1]);
    let start: usize = row[..6].trim().parse().unwrap();
    let above = row[column..column + 2].trim().to_string();
    (start + (column - 8) / 3, above)
}

/// Words for [`Folder::run`] that are no text.
pub fn os(bytes: &[u8]) -> OsString {
    use std::os::unix::ffi::OsStrExt;
    OsStr::from_bytes(bytes).to_os_string()
}
