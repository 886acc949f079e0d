//! Help, bad use, and files that cannot be read: one line on standard error, and exit status 2.

mod common;

use common::{device, feed, os, Folder, Ran, INT_FOR_0, M13, M4};
use std::fs;
use std::process::Stdio;

#[test]
fn help() {
    let folder = Folder::new();
    let page = folder.line("").page();
    for name in [
        "check", "show", "fill", "join", "twice", "table", "write", "sheet", "help",
    ] {
        assert!(page.contains(&format!("\n  {name} ")), "{page}");
    }
    for option in ["--hex", "--json", "--progress", "-o FILE", "--"] {
        assert!(page.contains(&format!("\n  {option} ")), "{page}");
    }
    assert!(page.contains("exit status is 0"), "{page}");
    for line in ["help", "--help", "-h"] {
        assert_eq!(folder.line(line).page(), page);
    }
    let one = folder.line("help sheet").page();
    assert!(
        one.starts_with("shiulbart sheet [OPTIONS] [NUMBER=FILE ..]\n"),
        "{one}"
    );
    for line in ["sheet --help", "--help sheet", "sheet -h 7=a"] {
        assert_eq!(folder.line(line).page(), one);
    }
    let show = folder.line("help show").page();
    assert!(
        show.contains("FILE may be hex text or\nbytes as they are"),
        "{show}"
    );
    assert!(show.contains("show bytes; FILE may be hex text"), "{show}");
    assert!(!show.contains("-o FILE"), "{show}");
    let check = folder.line("help check").page();
    assert!(check.contains("files are hex text"), "{check}");
    assert!(check.contains("\n  --progress "), "{check}");
    assert!(!show.contains("--progress"), "{show}");
}

#[test]
fn version() {
    let line = format!("shiulbart {}\n", env!("CARGO_PKG_VERSION"));
    assert_eq!(Folder::new().line("--version").page(), line);
}

#[test]
fn bad_use() {
    let folder = Folder::with([("m", &M4), ("s", &INT_FOR_0)]);
    for (line, why) in [
        ("m", "there is no command m: see shiulbart help"),
        ("help m", "there is no command m: see shiulbart help"),
        ("help check show", "help takes one command"),
        ("--json", "there is no command: see shiulbart help"),
        (
            "check",
            "check takes FILE, and got 0 files: see shiulbart help check",
        ),
        (
            "check m m",
            "check takes FILE, and got 2 files: see shiulbart help check",
        ),
        (
            "join s",
            "join takes FIRST SECOND, and got 1 file: see shiulbart help join",
        ),
        (
            "check --raw m",
            "there is no option --raw: see shiulbart help",
        ),
        ("check -x m", "there is no option -x: see shiulbart help"),
        ("fill m s -o", "-o needs the name of a file"),
        (
            "fill m s -o a -o b",
            "-o is given twice, and there is one answer to write",
        ),
        ("check m -o a", "check makes no bytes for -o to write"),
        ("show m -o a", "show makes no bytes for -o to write"),
        (
            "check m --progress",
            "--progress goes with check -, not with a file, which is read at once",
        ),
        (
            "fill - s --progress",
            "--progress goes with check -, not with fill",
        ),
        (
            "fill m s --json -o -",
            "--json needs standard output for itself, so -o - cannot have it",
        ),
        (
            "twice m s s -o -",
            "twice needs standard output for its page, so -o - cannot have it",
        ),
    ] {
        assert_eq!(folder.line(line).trouble(), why, "{line}");
    }
    assert_eq!(folder.names(), ["m", "s"]);
}

#[test]
fn files_that_cannot_be_read() {
    let folder = Folder::with([("m", &M4), ("odd", b"42 0\n"), ("g", b"42 07\n00 0g")]);
    fs::create_dir(folder.path("d")).unwrap();
    let none = "cannot be read: there is no such file or folder";
    for (line, why) in [
        ("check none", format!("none: {none}")),
        ("fill m none", format!("none: {none}")),
        ("twice m m none/m", format!("none/m: {none}")),
        (
            "show m/x",
            "m/x: cannot be read: not a directory".to_string(),
        ),
        ("check d", "d: cannot be read: is a directory".to_string()),
        ("table d", "d: cannot be read: is a directory".to_string()),
        (
            "check --hex m",
            "m: not hex: line 1, column 2: byte 07 is no hex digit".to_string(),
        ),
        (
            "check --hex odd",
            "odd: not hex: line 1, column 4: a byte is two hex digits, and here is one".to_string(),
        ),
        (
            "write --hex g",
            "g: not hex: line 2, column 5: 'g' is no hex digit".to_string(),
        ),
    ] {
        assert_eq!(folder.line(line).trouble(), why, "{line}");
    }
}

#[test]
fn files_that_are_too_long() {
    let most = 4 << 20;
    let folder = Folder::with([("most", &vec![0x20; most]), ("more", &vec![0x20; most + 1])]);
    let ran = folder.line("check most");
    assert_eq!(ran.status, 1);
    assert!(
        ran.text().starts_with("most: refused, number 8: "),
        "{}",
        ran.text()
    );
    let long = "too long: over 4,194,304 bytes, and no shape, sheet or table is that long";
    assert_eq!(folder.line("check more").trouble(), format!("more: {long}"));
    assert_eq!(
        folder.line("check --hex more").trouble(),
        format!("more: {long}")
    );
    // without an end
    assert_eq!(
        folder.line("check /dev/zero").trouble(),
        format!("/dev/zero: {long}")
    );
    let spaces = vec![b' '; most + 1];
    assert_eq!(
        folder.fed("check --hex -", &spaces).trouble(),
        format!("standard input: {long}")
    );
}

/// A line stays a line, and a name that is no text can be a file's.
#[test]
fn odd_file_names() {
    let folder = Folder::new();
    let run = |name: &[u8]| {
        let mut command = folder.command(&["check"]);
        Ran::of(command.arg(os(name)).output().unwrap())
    };
    let none = "cannot be read: there is no such file or folder";
    assert_eq!(run(b"a\nb").trouble(), format!("a\\nb: {none}"));
    assert_eq!(run(b"\x1b[1mx").trouble(), format!("\\u{{1b}}[1mx: {none}"));
    assert_eq!(run(b"x\xff").trouble(), format!("x\u{fffd}: {none}"));
    folder.put(os(b"x\xff"), &M4);
    assert_eq!(run(b"x\xff").page(), "x\u{fffd}: ok, 10 bytes, 3 levels\n");
    assert_eq!(run(b"").trouble(), format!(": {none}"));
    let mut sheet = folder.command(&["sheet"]);
    let sheet = Ran::of(sheet.arg(os(b"7=x\xff")).output().unwrap()).answer();
    assert_eq!(sheet[..6], [1, 0, 7, 0, 10, 0]);
}

/// Nobody reads standard output any more: the program says so and does not panic.
#[test]
fn a_closed_standard_output() {
    let folder = Folder::with([("int", &INT_FOR_0)]);
    for line in ["check -", "show -", "fill - int", "fill --json - int"] {
        let mut child = folder.started(line);
        drop(child.stdout.take());
        feed(&mut child, &M13);
        let ran = Ran::of(child.wait_with_output().unwrap());
        assert_eq!(
            ran.trouble(),
            "standard output: cannot be written: its reader has closed it",
            "{line}"
        );
    }
}

#[test]
fn a_full_standard_output() {
    let folder = Folder::with([("m13", &M13), ("int", &INT_FOR_0)]);
    for line in ["check m13", "fill m13 int", "help", "--version"] {
        let words: Vec<&str> = line.split_whitespace().collect();
        let Some(full) = device("/dev/full") else {
            return;
        };
        let mut command = folder.command(&words);
        command.stdout(Stdio::from(full)).stderr(Stdio::piped());
        let ran = Ran::of(command.spawn().unwrap().wait_with_output().unwrap());
        assert_eq!(
            ran.trouble(),
            "standard output: cannot be written: no space left on device",
            "{line}"
        );
    }
}

/// With standard error closed too, the exit status still tells.
#[test]
fn a_closed_standard_error() {
    let folder = Folder::with([("m3", &[0x40, 1, 0, 0x20])]);
    for (line, status) in [("check none", 2), ("table m3", 1)] {
        let words: Vec<&str> = line.split_whitespace().collect();
        let Some(full) = device("/dev/full") else {
            return;
        };
        let mut command = folder.command(&words);
        command.stderr(Stdio::from(full)).stdout(Stdio::piped());
        let ran = Ran::of(command.spawn().unwrap().wait_with_output().unwrap());
        assert_eq!((ran.status, ran.text()), (status, ""), "{line}");
    }
}
