//! `check`: what is a shape, what is none, the caret under the byte, and standard input as it comes.

mod common;

use common::{arrays, caret, device, feed, json, long, repository, Folder, Ran, M4};
use std::fs::{self, File};
use std::io::{BufRead, BufReader, Write};
use std::process::{Child, Stdio};
use std::sync::mpsc::{self, Receiver};
use std::thread;
use std::time::Duration;

/// What `check` says of bytes: exit status and standard output. It says nothing else.
fn check(bytes: &[u8]) -> (i32, String) {
    let folder = Folder::with([("m", bytes)]);
    let ran = folder.line("check m");
    assert_eq!(ran.err, "");
    (ran.status, ran.text().to_string())
}

#[test]
fn length_and_depth() {
    assert_eq!(check(&M4), (0, "m: ok, 10 bytes, 3 levels\n".to_string()));
    assert_eq!(check(&[0x20]), (0, "m: ok, 1 byte, 1 level\n".to_string()));
    let longest = long(0x44, &[&[1, 0xFA, 0x0F][..], &[b'a'; 2042]].concat());
    assert_eq!(
        check(&longest),
        (0, "m: ok, 2,048 bytes, 1 level\n".to_string())
    );
}

/// The examples, with the lines that were written by hand from the rules.
#[test]
fn every_example() {
    let folder = Folder::new();
    let expected = fs::read_to_string(repository("examples/expected")).unwrap();
    let mut refused = 0;
    for line in expected.lines() {
        let words: Vec<&str> = line.split_whitespace().collect();
        let [name, verdict, one, other] = words[..] else {
            panic!("{line}");
        };
        let bytes = fs::read(repository("examples").join(name)).unwrap();
        let [one, other] = [one, other].map(|number| number.parse::<usize>().unwrap());
        folder.put(name, &bytes);
        let ran = folder.run(&["check", name]);
        let told = json::line(folder.run(&["check", "--json", name]).text());
        assert_eq!(told.text("file"), name);
        if verdict == "ok" {
            assert_eq!(ran.status, 0);
            assert_eq!(
                (told.number("length"), told.number("depth")),
                (one as u64, other as u64)
            );
            continue;
        }
        refused += 1;
        assert_eq!((ran.status, &ran.err[..]), (1, ""));
        let start = format!("{name}: refused, number {one}: ");
        assert!(ran.text().starts_with(&start), "{}", ran.text());
        let above = bytes
            .get(other)
            .map_or(String::new(), |byte| format!("{byte:02X}"));
        assert_eq!(caret(ran.text()), (other, above));
        assert_eq!(told.number("refusal number"), one as u64);
        assert_eq!(told.number("refusal place"), other as u64);
    }
    assert!(refused >= 8);
}

#[test]
fn words_dump_and_caret() {
    let page = "\
m: refused, number 6: long form where a short one exists at byte 0
     0  40 01 00 20                                      @..
        ^^
";
    assert_eq!(check(&[0x40, 1, 0, 0x20]), (1, page.to_string()));
}

/// A byte of a long shape is broken: the caret is under it, with a row before and a row after.
#[test]
fn the_caret_finds_every_broken_byte() {
    let names: Vec<u8> = (0..20).flat_map(|k| [1, b'a' + k, 0x20]).collect();
    let record = long(0x42, &[&[20][..], &names].concat());
    let folder = Folder::new();
    for field in 0..20 {
        let place = 4 + 3 * field + 2;
        let mut broken = record.clone();
        broken[place] = 0xA0;
        folder.put("m", &broken);
        let ran = folder.line("check m");
        assert_eq!(ran.status, 1);
        assert_eq!(
            caret(ran.text()),
            (place, "A0".to_string()),
            "{}",
            ran.text()
        );
        let rows = [place / 16 > 0, place / 16 < 3]
            .into_iter()
            .filter(|there| *there);
        assert_eq!(
            ran.text().lines().count(),
            1 + 2 + rows.count(),
            "{}",
            ran.text()
        );
    }
}

/// The input ends where the fault is: no byte is above the caret, in a row of its own if need be.
#[test]
fn the_caret_at_the_end() {
    for count in [5, 11, 12, 13, 28, 40] {
        let mut function = long(0x43, &[&[60][..], &vec![0x20; count]].concat());
        let end = function.len();
        let (status, page) = check(&function);
        assert_eq!(status, 1);
        assert!(page.starts_with(&format!("m: refused, number 1: cut short at byte {end}\n")));
        assert_eq!(caret(&page), (end, String::new()), "{page}");
        assert!(page.ends_with("^^ the end\n"), "{page}");
        // with one byte more that does not belong to it, the shape's end is not the input's
        function.push(0x55);
        let (_, page) = check(&function);
        assert_eq!(caret(&page), (end, "55".to_string()), "{page}");
        assert!(!page.contains("the end"));
    }
    let (status, page) = check(&[]);
    assert_eq!(status, 1);
    assert_eq!(
        page,
        "m: refused, number 1: cut short at byte 0\n     0\n        ^^ the end\n"
    );
}

#[test]
fn long_inputs() {
    for length in [2049, 5000, 1 << 20] {
        let (status, page) = check(&vec![0x20; length]);
        assert_eq!(status, 1);
        assert!(page.starts_with("m: refused, number 8: input over 2,048 bytes\n"));
        assert_eq!(caret(&page), (2048, "20".to_string()));
    }
    let (status, page) = check(&arrays(15, &[0x60]));
    assert_eq!((status, caret(&page).0), (1, 45));
}

#[test]
fn from_standard_input() {
    let folder = Folder::new();
    assert_eq!(
        folder.fed("check -", &M4).page(),
        "standard input: ok, 10 bytes, 3 levels\n"
    );
    let hex = b"42 07 00 02 # two fields\n01 61 20 0162 62";
    assert_eq!(
        folder.fed("check --hex -", hex).page(),
        "standard input: ok, 10 bytes, 3 levels\n"
    );
    let ran = folder.fed("check -", b"");
    assert_eq!(ran.status, 1);
    assert!(ran
        .text()
        .starts_with("standard input: refused, number 1: cut short at byte 0\n"));
}

/// What is said of standard input is what is said of a file, but for the name.
#[test]
fn standard_input_as_a_file() {
    let mut inputs: Vec<Vec<u8>> = vec![vec![], M4.to_vec(), arrays(15, &[0x60])];
    let examples = fs::read_to_string(repository("examples/expected")).unwrap();
    for line in examples.lines() {
        let name = line.split_whitespace().next().unwrap();
        inputs.push(fs::read(repository("examples").join(name)).unwrap());
    }
    // rows around byte 2,048, of which each byte is another
    let count = |length| (0..length).map(|k: u32| (k % 251) as u8).collect();
    let lengths = [
        2048, 2049, 2063, 2064, 2065, 2079, 2080, 2081, 5000, 100_000,
    ];
    inputs.extend(lengths.map(count));
    let folder = Folder::new();
    for bytes in inputs {
        let row = |row: &[u8]| {
            let pairs: Vec<String> = row.iter().map(|byte| format!("{byte:02x}")).collect();
            pairs.join(" ") + " # a row\n"
        };
        let hex: String = bytes.chunks(7).map(row).collect();
        for (options, content) in [("", &bytes[..]), ("--hex", hex.as_bytes())] {
            for json in ["", "--json"] {
                folder.put("m", content);
                let file = folder.line(&format!("check {options} {json} m"));
                let fed = folder.fed(&format!("check {options} {json} -"), content);
                let named = match json {
                    "" => file.text().replacen("m: ", "standard input: ", 1),
                    _ => file
                        .text()
                        .replace(r#""file":"m""#, r#""file":"standard input""#),
                };
                assert_eq!(fed.text(), named);
                assert_eq!((fed.status, &fed.err), (file.status, &file.err));
            }
        }
    }
}

/// And so is what is wrong with it, hex text that is broken and too long among it.
#[test]
fn standard_input_that_cannot_be_read() {
    let folder = Folder::new();
    let spaces = vec![b' '; 4 << 20];
    for hex in [
        &b"42 0"[..],
        b"4",
        b"4 2",
        b"42\n0g 07",
        b"42 # \xff\n\xff",
        &[&b"x"[..], &spaces[1..]].concat(),
        &[&b"x"[..], &spaces].concat(),
        &[&spaces[..], b" "].concat(),
    ] {
        folder.put("m", hex);
        let file = folder.line("check --hex m").trouble();
        for line in ["check --hex -", "check --hex --json -"] {
            let fed = folder.fed(line, hex).trouble();
            assert_eq!(fed, file.replacen("m: ", "standard input: ", 1));
        }
    }
    let mut command = folder.command(&["check", "-"]);
    command.stdin(File::open(folder.path(".")).unwrap());
    assert_eq!(
        Ran::of(command.output().unwrap()).trouble(),
        "standard input: cannot be read: is a directory"
    );
}

/// The program with a line of words, which is fed part by part and told on.
struct Waiting {
    folder: Folder,
    child: Child,
    /// The lines of its standard error.
    lines: Receiver<String>,
}

impl Waiting {
    /// Starts it. Its standard output is a file, which can be looked at without waiting.
    fn started(line: &str) -> Waiting {
        let folder = Folder::new();
        let words: Vec<&str> = line.split_whitespace().collect();
        let mut command = folder.command(&words);
        command.stdin(Stdio::piped()).stderr(Stdio::piped());
        command.stdout(File::create(folder.path("out")).unwrap());
        let mut child = command.spawn().unwrap();
        let err = BufReader::new(child.stderr.take().unwrap());
        let (sender, lines) = mpsc::channel();
        thread::spawn(move || err.lines().try_for_each(|line| sender.send(line.unwrap())));
        Waiting {
            folder,
            child,
            lines,
        }
    }

    fn send(&mut self, part: &[u8]) {
        let stdin = self.child.stdin.as_mut().unwrap();
        stdin.write_all(part).unwrap();
    }

    /// The line that says how far it is. As the next part is sent only then, each part is one read.
    #[track_caller]
    fn line(&self) -> String {
        let long = Duration::from_secs(60);
        self.lines.recv_timeout(long).expect("a line for each part")
    }

    /// It goes on waiting, and has not said a word of an answer.
    #[track_caller]
    fn waits(&mut self) {
        thread::sleep(Duration::from_millis(50));
        assert_eq!(self.child.try_wait().unwrap(), None);
        assert_eq!(self.folder.bytes("out"), b"");
    }

    /// What comes of it once the input has ended.
    fn end(mut self) -> Ran {
        drop(self.child.stdin.take());
        let status = self
            .child
            .wait()
            .unwrap()
            .code()
            .expect("it was not killed");
        Ran {
            status,
            out: self.folder.bytes("out"),
            err: self.lines.iter().map(|line| line + "\n").collect(),
        }
    }
}

#[test]
fn progress_comes_before_the_end_and_the_answer_after() {
    let mut program = Waiting::started("check --progress -");
    program.waits();
    for (part, line) in [
        (&M4[..2], "2 bytes so far, 0 levels open"),
        (&M4[2..3], "3 bytes so far, 1 level open"),
        (&M4[3..6], "6 bytes so far, 1 level open"),
        (&M4[6..], "10 bytes so far, 0 levels open"),
    ] {
        program.send(part);
        assert_eq!(program.line(), line);
        program.waits();
    }
    assert_eq!(
        program.end().page(),
        "standard input: ok, 10 bytes, 3 levels\n"
    );
}

/// A byte that is refused wherever it stands does not end the waiting, nor does one too many.
#[test]
fn a_refusal_waits_for_the_end_too() {
    let mut program = Waiting::started("check - --progress --json");
    program.send(&[0xA0]);
    assert_eq!(program.line(), "1 byte so far, 0 levels open");
    program.waits();
    program.send(&[0x20; 2047]);
    assert_eq!(program.line(), "2,048 bytes so far, 0 levels open");
    for _ in 0..2 {
        program.send(&[0x20; 100]);
        assert_eq!(program.line(), "over 2,048 bytes so far, 0 levels open");
        program.waits();
    }
    let ran = program.end();
    assert_eq!((ran.status, &ran.err[..]), (1, ""));
    let told = json::line(ran.text());
    assert_eq!(told.number("refusal number"), 8);
    assert_eq!(told.text("refusal file"), "standard input");
}

/// A part of hex text may end within a byte or a comment. The bytes are those that are there.
#[test]
fn progress_of_hex_text() {
    let mut program = Waiting::started("check --hex --progress -");
    for (part, line) in [
        ("40 0", "1 byte so far, 0 levels open"),
        ("4 00#", "3 bytes so far, 1 level open"),
        (" 40 01 00", "3 bytes so far, 1 level open"),
        ("\n400", "4 bytes so far, 1 level open"),
        ("100", "6 bytes so far, 2 levels open"),
        ("  0", "6 bytes so far, 2 levels open"),
        ("7 ", "7 bytes so far, 0 levels open"),
    ] {
        program.send(part.as_bytes());
        assert_eq!(program.line(), line, "{part}");
    }
    program.waits();
    assert_eq!(
        program.end().page(),
        "standard input: ok, 7 bytes, 3 levels\n"
    );

    let mut program = Waiting::started("check --hex --progress -");
    program.send(b"42 x");
    assert_eq!(program.line(), "1 byte so far, 0 levels open");
    program.waits();
    program.send(b"y 42");
    assert_eq!(program.line(), "1 byte so far, 0 levels open");
    program.waits();
    assert_eq!(
        program.end().trouble(),
        "standard input: not hex: line 1, column 4: 'x' is no hex digit"
    );
}

#[test]
fn no_progress_without_a_part_or_the_option() {
    let none = Folder::new().fed("check --progress -", b"");
    assert_eq!((none.status, &none.err[..]), (1, ""));
    let mut program = Waiting::started("check -");
    for part in M4.chunks(4) {
        program.send(part);
        program.waits();
    }
    assert_eq!(
        program.end().page(),
        "standard input: ok, 10 bytes, 3 levels\n"
    );
}

/// Nobody can read how far it is: it is judged all the same.
#[test]
fn progress_with_standard_error_full() {
    let Some(full) = device("/dev/full") else {
        return;
    };
    let folder = Folder::new();
    let mut command = folder.command(&["check", "--progress", "-"]);
    command.stdin(Stdio::piped()).stdout(Stdio::piped());
    let mut child = command.stderr(Stdio::from(full)).spawn().unwrap();
    feed(&mut child, &M4);
    let ran = Ran::of(child.wait_with_output().unwrap());
    assert_eq!(ran.page(), "standard input: ok, 10 bytes, 3 levels\n");
}

/// The place is a byte, not a letter of the hex text.
#[test]
fn hex_text() {
    let folder = Folder::with([("m.hex", b"# M10, and a comment\n44 03 00\n81 00 00\n")]);
    let ran = folder.line("check --hex m.hex");
    assert_eq!(ran.status, 1);
    assert_eq!(caret(ran.text()), (3, "81".to_string()));
    // without --hex it is bytes, and its first one is a #: a Str, and then too much
    let ran = folder.line("check m.hex");
    assert_eq!(ran.status, 1);
    assert_eq!(caret(ran.text()), (1, "20".to_string()));
}
