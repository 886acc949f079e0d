//! Where answers go: files that change only once the whole answer stands, terminals, scripts.
//!
//! No test names a file to be written outside its own folder: whoever runs the tests may be root, and
//! a program that replaced a device by a file would do so for the whole machine.

mod common;

use common::{device, feed, json, Folder, Ran, INT_FOR_0, M12, M13, M4, SWAP};
use std::fs::{self, File, Permissions};
use std::io::{ErrorKind, Read};
use std::os::fd::AsRawFd;
use std::os::unix::fs::{symlink, FileTypeExt, PermissionsExt};
use std::os::unix::net::UnixListener;
use std::process::{Command, Stdio};
use std::time::{Duration, Instant};

/// M12's and M13's template and sheet, and a file that is there.
fn files() -> Folder {
    Folder::with([
        ("m12", &M12),
        ("m13", &M13),
        ("swap", &SWAP),
        ("int", &INT_FOR_0),
        ("cut", &SWAP[..13]),
        ("there", b"as it was"),
    ])
}

const NAMES: [&str; 6] = ["cut", "int", "m12", "m13", "swap", "there"];

#[test]
fn a_new_file() {
    let folder = files();
    assert_eq!(folder.line("fill m13 int -o new").answer(), []);
    assert_eq!(folder.bytes("new"), [0x60]);
    fs::create_dir(folder.path("d")).unwrap();
    assert_eq!(folder.line("fill m13 int -o d/new").answer(), []);
    assert_eq!(folder.bytes("d/new"), [0x60]);
    // nothing else is left behind, there or here
    assert_eq!(fs::read_dir(folder.path("d")).unwrap().count(), 1);
    assert_eq!(
        folder.names(),
        ["cut", "d", "int", "m12", "m13", "new", "swap", "there"]
    );
}

#[test]
fn a_file_that_is_there() {
    let folder = files();
    let there = folder.path("there");
    fs::set_permissions(&there, Permissions::from_mode(0o640)).unwrap();
    let mut reader = File::open(&there).unwrap();
    assert_eq!(folder.line("fill m12 swap -o there").answer(), []);
    assert_eq!(folder.bytes("there"), [0x41, 2, 0, 1, 0]);
    // who is reading the old one reads it to the end: at no time was there a part of the answer
    let mut old = Vec::new();
    reader.read_to_end(&mut old).unwrap();
    assert_eq!(old, b"as it was");
    let mode = fs::metadata(&there).unwrap().permissions().mode();
    assert_eq!(mode & 0o777, 0o640);
    assert_eq!(folder.names(), NAMES);
}

#[test]
fn the_template_itself() {
    let folder = files();
    assert_eq!(folder.line("fill m13 int -o m13").answer(), []);
    assert_eq!(folder.bytes("m13"), [0x60]);
}

#[test]
fn a_refusal_changes_no_file() {
    let folder = files();
    let there = |line: &str| {
        let said = folder.line(line).refusal();
        assert!(said.contains(": refused, number "), "{said}");
        assert_eq!(folder.bytes("there"), b"as it was", "{line}");
        assert_eq!(folder.names(), NAMES);
    };
    there("fill m12 cut -o there");
    there("join cut swap -o there");
    there("table swap -o there");
    there("write m12 -o there");
    there("sheet 7=swap -o there");
    there("fill m12 cut -o new");
    there("fill m12 cut -o -");
}

/// The disk is full, or stands still for another reason: a file may have no more bytes.
#[test]
fn a_file_that_cannot_be_finished() {
    let folder = files();
    let run = |name: &str| {
        let mut sh = Command::new("sh");
        sh.args(["-c", "trap '' XFSZ; ulimit -f 0; exec \"$@\"", "sh"]);
        let program = folder.command(&["fill", "m12", "swap", "-o", name]);
        sh.arg(program.get_program()).args(program.get_args());
        Ran::of(sh.current_dir(folder.path("")).output().unwrap())
    };
    assert_eq!(
        run("there").trouble(),
        "there: cannot be written: file too large"
    );
    assert_eq!(folder.bytes("there"), b"as it was");
    assert_eq!(
        run("new").trouble(),
        "new: cannot be written: file too large"
    );
    assert_eq!(folder.names(), NAMES);
}

/// A file that may not be written is not replaced either. Root may write all but a program that runs.
#[test]
fn a_file_that_may_not_be_written() {
    let folder = files();
    // copied by another program: were it open here, a test that starts one meanwhile would hold it
    let mut copy = Command::new("cp");
    let copied = copy.arg("/bin/sh").arg(folder.path("busy")).status();
    assert!(copied.unwrap().success());
    let before = folder.bytes("busy");
    let mut busy = Command::new(folder.path("busy"));
    let busy = busy.args(["-c", "read line"]).stdin(Stdio::piped());
    let mut busy = busy.spawn().unwrap();
    let said = folder.line("fill m13 int -o busy").trouble();
    drop(busy.stdin.take());
    busy.wait().unwrap();
    assert_eq!(said, "busy: cannot be written: text file busy");
    assert!(folder.bytes("busy") == before);
}

#[test]
fn places_where_nothing_can_be_written() {
    let folder = files();
    fs::create_dir(folder.path("d")).unwrap();
    symlink("nowhere", folder.path("link")).unwrap();
    for (name, why) in [
        ("d", "it is a directory"),
        ("none/new", "there is no such file or folder"),
        ("there/new", "not a directory"),
        ("link", "it is a link that leads nowhere"),
    ] {
        let ran = folder.run(&["fill", "m13", "int", "-o", name]);
        assert_eq!(ran.trouble(), format!("{name}: cannot be written: {why}"));
    }
    let mut names = NAMES.to_vec();
    names.extend(["d", "link"]);
    names.sort();
    assert_eq!(folder.names(), names);
    let ran = folder.run(&["fill", "m13", "int", "-o", ""]);
    assert_eq!(
        ran.trouble(),
        ": cannot be written: there is no such file or folder"
    );
    assert_eq!(folder.names(), names);
}

/// A link stays one, and what it leads to changes.
#[test]
fn a_link() {
    let folder = files();
    symlink("there", folder.path("link")).unwrap();
    assert_eq!(folder.line("fill m13 int -o link").answer(), []);
    assert!(fs::symlink_metadata(folder.path("link"))
        .unwrap()
        .is_symlink());
    assert_eq!(folder.bytes("there"), [0x60]);
}

/// A pipe gets the bytes, and stays a pipe.
#[test]
fn a_pipe() {
    let folder = files();
    let path = folder.path("pipe");
    let made = Command::new("mkfifo").arg(&path).status();
    assert!(made.unwrap().success());
    let pipe = device(path.to_str().unwrap()).unwrap();
    assert_eq!(folder.line("fill m12 swap -o pipe").answer(), []);
    assert!(fs::metadata(&path).unwrap().file_type().is_fifo());
    assert_eq!(soon(pipe, 5), [0x41, 2, 0, 1, 0]);
}

/// What cannot be opened stays what it is, too.
#[test]
fn a_socket() {
    let folder = files();
    // the name of a socket must be short, and that of the folder need not be
    let here = File::open(folder.path("")).unwrap();
    let name = format!("/proc/self/fd/{}/socket", here.as_raw_fd());
    let _socket = UnixListener::bind(name).unwrap();
    let said = folder.line("fill m13 int -o socket").trouble();
    assert_eq!(said, "socket: cannot be written: no such device or address");
    let socket = fs::metadata(folder.path("socket")).unwrap();
    assert!(socket.file_type().is_socket());
}

/// So many bytes of a device, within a few seconds.
fn soon(mut device: File, length: usize) -> Vec<u8> {
    let mut came = Vec::new();
    let start = Instant::now();
    while came.len() < length && start.elapsed() < Duration::from_secs(5) {
        let mut byte = [0];
        match device.read(&mut byte) {
            Ok(read) => came.extend(&byte[..read]),
            Err(error) if error.kind() == ErrorKind::WouldBlock => {
                std::thread::sleep(Duration::from_millis(1));
            }
            Err(error) => panic!("{error}"),
        }
    }
    came
}

/// The name of the file that is written first may be taken: then it is another.
#[test]
fn names_that_are_taken() {
    let folder = files();
    fs::create_dir(folder.path("d")).unwrap();
    let mut child = folder.started("fill m13 - -o d/new");
    let taken: Vec<String> = (0..3)
        .map(|k| format!("d/.shiulbart-{}-{k}", child.id()))
        .collect();
    taken.iter().for_each(|name| folder.put(name, b"mine"));
    feed(&mut child, &INT_FOR_0);
    assert_eq!(Ran::of(child.wait_with_output().unwrap()).answer(), []);
    assert_eq!(folder.bytes("d/new"), [0x60]);
    assert!(taken.iter().all(|name| folder.bytes(name) == b"mine"));
    assert_eq!(fs::read_dir(folder.path("d")).unwrap().count(), 4);
}

#[test]
fn standard_output_as_a_file() {
    let folder = files();
    assert_eq!(folder.line("fill m13 int -o -").answer(), [0x60]);
    folder.put("t.hex", b"40010000");
    folder.put("s.hex", b"01 00 00 00 01 00 01 00 20");
    assert_eq!(folder.line("fill --hex t.hex s.hex -o -").answer(), b"60\n");
    assert!(!folder.names().contains(&"-".to_string()));
}

/// What a terminal is shown. The master's side of a new one is a terminal, too, and what is written
/// to it comes back as its echo.
#[test]
fn a_terminal() {
    let folder = files();
    if device("/dev/ptmx").is_none() {
        return;
    }
    let shown = |words: &[&str], length: usize| {
        let terminal = device("/dev/ptmx").unwrap();
        let out = Stdio::from(terminal.try_clone().unwrap());
        let status = folder.command(words).stdout(out).status().unwrap();
        assert_eq!(status.code(), Some(0));
        String::from_utf8(soon(terminal, length)).unwrap()
    };
    assert_eq!(shown(&["fill", "m13", "int"], 4), "60\r\n");
    assert_eq!(shown(&["fill", "m12", "swap"], 16), "41 02 00 01 00\r\n");
    // the byte 60 itself is a backquote
    assert_eq!(shown(&["fill", "m13", "int", "-o", "-"], 1), "`");
}

/// Every command tells a script, whether it is answered or refused.
#[test]
fn every_command_for_scripts() {
    let folder = files();
    folder.put("m4", &M4);
    folder.line("table m4 -o t").answer();
    for (answered, refused, number) in [
        ("check m4", "check swap", 3),
        ("show m4", "show swap", 3),
        ("fill m12 swap", "fill m12 cut", 13),
        ("join swap swap", "join swap cut", 14),
        ("table m4", "table swap", 3),
        ("write t", "write m4", 9),
        ("sheet 7=m4", "sheet 7=swap", 3),
    ] {
        let name = answered.split_whitespace().next().unwrap();
        let told = json::line(&folder.line(&format!("{answered} --json")).page());
        assert_eq!(told.text("command"), name);
        assert!(told.is("answered"));
        assert!(told.number("length") > 0);
        let ran = folder.line(&format!("{refused} --json"));
        assert_eq!((ran.status, &ran.err[..]), (1, ""), "{refused}");
        let told = json::line(ran.text());
        assert_eq!(told.text("command"), name);
        assert!(!told.is("answered"));
        assert_eq!(told.number("refusal number"), number, "{refused}");
        let words = told.text("refusal words");
        assert!(
            words.contains(&told.number("refusal place").to_string()),
            "{words}"
        );
        let file = told.text("refusal file");
        assert!(refused.ends_with(file), "{refused}");
    }
}

/// The bytes that a script is told are those that the file gets; what cannot be tried has no object.
#[test]
fn files_for_scripts() {
    let folder = files();
    let told = json::line(&folder.line("fill --json m12 swap -o there").page());
    assert_eq!(told.names(), ["command", "answered", "length", "bytes"]);
    assert_eq!(told.text("bytes"), "4102000100");
    assert_eq!(folder.bytes("there"), [0x41, 2, 0, 1, 0]);
    assert!(folder
        .line("fill --json m12 none")
        .trouble()
        .starts_with("none: "));
    assert!(folder
        .line("fill --json m12 swap -o none/x")
        .trouble()
        .starts_with("none/x: "));
    let name = "a\"b\\c\n";
    folder.put(name, &M4);
    let told = json::line(&folder.run(&["check", "--json", name]).page());
    // as a message has it, on one line
    assert_eq!(told.text("file"), "a\"b\\c\\n");
}
