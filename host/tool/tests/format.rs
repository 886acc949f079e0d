//! Every example of docs/FORMAT.md and of this crate's README.md, given to the program.
//!
//! A block marked `hex` is hex text. Its first line names it and says what it is; it is put into a file
//! of that name, with `.hex` behind it, which later examples may use:
//!
//! | first line | what must hold |
//! |---|---|
//! | `# NAME: ok LENGTH DEPTH` | `check` accepts it |
//! | `# NAME: no NUMBER PLACE` | `check` refuses it |
//! | `# NAME: sheet` | `join` with the empty sheet makes the same sheet of it |
//! | `# NAME: sheet, no NUMBER PLACE` | `join` refuses it |
//! | `# NAME: fill TEMPLATE SHEET` | `fill` makes it |
//! | `# NAME: join FIRST SECOND` | `join` makes it |
//! | `# NAME: table of SHAPE` | `table` makes it of the shape, and `write` the shape of it |
//! | `# NAME: table for SHAPE` | `write` makes the shape of it |
//! | `# NAME: table, no NUMBER PLACE` | `write` refuses it |
//!
//! A block marked `console` has commands after `$ `, each with all that it prints. Blocks marked `sh`
//! are left alone. There are no others, so that no example is missed.

mod common;

use common::json::{self, Json};
use common::{program, repository, Folder};
use std::collections::BTreeMap;
use std::fs;
use std::os::unix::fs::{symlink, PermissionsExt};
use std::process::Command;

/// A fenced block: how it is marked, and its lines.
struct Block<'a> {
    mark: &'a str,
    lines: Vec<&'a str>,
}

fn blocks(document: &str) -> Vec<Block<'_>> {
    let mut blocks: Vec<Block> = Vec::new();
    let mut open = false;
    for line in document.lines() {
        if let Some(mark) = line.strip_prefix("```") {
            open = !open;
            if open {
                let lines = Vec::new();
                blocks.push(Block { mark, lines });
            }
        } else if open {
            blocks.last_mut().unwrap().lines.push(line);
        }
    }
    blocks
}

/// What was judged: how many claims of each sort, and the bytes of each example.
#[derive(Default)]
struct Judged {
    claims: BTreeMap<String, usize>,
    bytes: BTreeMap<String, Vec<u8>>,
    commands: usize,
}

/// Judges every example of a document, up to one that does not hold.
fn judge(document: &str) -> Result<Judged, String> {
    let folder = Folder::new();
    prepare(&folder);
    let mut judged = Judged::default();
    for block in blocks(document) {
        match block.mark {
            "hex" => judge_hex(&folder, &block.lines, &mut judged)?,
            "console" => judge_console(&folder, &block.lines, &mut judged)?,
            "sh" => {}
            mark => return Err(format!("no test judges a block marked '{mark}'")),
        }
    }
    Ok(judged)
}

/// The examples of the repository, the empty sheet, and the program under its own name.
fn prepare(folder: &Folder) {
    symlink(repository("examples"), folder.path("examples")).unwrap();
    folder.put("no-entries.hex", b"00 00 00 00");
    fs::create_dir(folder.path("bin")).unwrap();
    let program = program();
    let words = [program.get_program()]
        .into_iter()
        .chain(program.get_args());
    let words: Vec<String> = words
        .map(|word| format!("'{}'", word.to_str().unwrap()))
        .collect();
    let script = format!("#!/bin/sh\nexec {} \"$@\"\n", words.join(" "));
    folder.put("bin/shiulbart", script.as_bytes());
    let all = fs::Permissions::from_mode(0o755);
    fs::set_permissions(folder.path("bin/shiulbart"), all).unwrap();
}

fn judge_hex(folder: &Folder, lines: &[&str], judged: &mut Judged) -> Result<(), String> {
    let first = lines.first().copied().unwrap_or_default();
    let claim = first
        .strip_prefix("# ")
        .and_then(|line| line.split_once(": "));
    let (name, claim) = claim.ok_or(format!("'{first}' makes no claim"))?;
    folder.put(format!("{name}.hex"), lines.join("\n").as_bytes());
    if judged
        .bytes
        .insert(name.to_string(), bytes(lines))
        .is_some()
    {
        return Err(format!("{name} is there twice"));
    }
    let sort = holds(folder, name, claim, judged).map_err(|why| format!("{name}: {why}"))?;
    *judged.claims.entry(sort).or_default() += 1;
    Ok(())
}

/// The bytes of an example, by the simplest reading of hex text.
fn bytes(lines: &[&str]) -> Vec<u8> {
    let text = lines.iter().map(|line| line.split('#').next().unwrap());
    let pairs = text.flat_map(str::split_whitespace);
    pairs
        .map(|pair| u8::from_str_radix(pair, 16).expect(pair))
        .collect()
}

/// Whether what an example's first line claims is so. Answers what sort of claim it is.
fn holds(folder: &Folder, name: &str, claim: &str, judged: &Judged) -> Result<String, String> {
    let words: Vec<&str> = claim.split_whitespace().collect();
    let run = |line: String| json::line(folder.line(&format!("{line} --hex --json")).text());
    let empty = "no-entries.hex";
    match words[..] {
        ["ok", length, depth] => {
            let told = run(format!("check {name}.hex"));
            same(
                &told,
                &[("answered", "true"), ("length", length), ("depth", depth)],
            )?;
        }
        ["no", number, place] => {
            refused(&run(format!("check {name}.hex")), number, place)?;
            return Ok(format!("no {number}"));
        }
        ["sheet"] => made(&run(format!("join {name}.hex {empty}")), name, judged)?,
        ["sheet,", "no", number, place] => {
            refused(&run(format!("join {name}.hex {empty}")), number, place)?;
        }
        [call @ ("fill" | "join"), one, other] => {
            made(&run(format!("{call} {one}.hex {other}.hex")), name, judged)?;
        }
        ["table", "of", shape] => {
            made(&run(format!("table {shape}.hex")), name, judged)?;
            made(&run(format!("write {name}.hex")), shape, judged)?;
        }
        ["table", "for", shape] => made(&run(format!("write {name}.hex")), shape, judged)?,
        ["table,", "no", number, place] => {
            refused(&run(format!("write {name}.hex")), number, place)?;
            return Ok(format!("no {number}"));
        }
        _ => return Err(format!("'{claim}' is no claim")),
    }
    Ok(words[0].to_string())
}

/// Fields of an object, written as JSON has them.
fn same(told: &Json, fields: &[(&str, &str)]) -> Result<(), String> {
    for (path, wanted) in fields {
        let there = match told.find(path) {
            Some(Json::Number(number)) => number.to_string(),
            Some(Json::Bool(value)) => value.to_string(),
            other => format!("{other:?}"),
        };
        if there != *wanted {
            return Err(format!("{path} should be {wanted} and is {there}"));
        }
    }
    Ok(())
}

fn refused(told: &Json, number: &str, place: &str) -> Result<(), String> {
    let fields = [
        ("answered", "false"),
        ("refusal number", number),
        ("refusal place", place),
    ];
    same(told, &fields)
}

/// Whether the bytes that were made are those of an example.
fn made(told: &Json, name: &str, judged: &Judged) -> Result<(), String> {
    let wanted = judged
        .bytes
        .get(name)
        .ok_or(format!("there is no {name} yet"))?;
    let wanted: String = wanted.iter().map(|byte| format!("{byte:02X}")).collect();
    match told.find("bytes") {
        Some(Json::Text(bytes)) if *bytes == wanted => Ok(()),
        other => Err(format!("the bytes should be {wanted} and are {other:?}")),
    }
}

fn judge_console(folder: &Folder, lines: &[&str], judged: &mut Judged) -> Result<(), String> {
    let mut lines = lines.iter().peekable();
    while let Some(line) = lines.next() {
        let command = line
            .strip_prefix("$ ")
            .ok_or(format!("'{line}' follows no command"))?;
        let mut wanted = String::new();
        while let Some(line) = lines.next_if(|line| !line.starts_with("$ ")) {
            wanted += &format!("{line}\n");
        }
        let path = std::env::var("PATH").unwrap_or_default();
        let output = Command::new("sh")
            .args(["-c", &format!("exec 2>&1 </dev/null\n{command}")])
            .env("PATH", format!("{}:{path}", folder.path("bin").display()))
            .current_dir(folder.path(""))
            .output()
            .unwrap();
        let came = String::from_utf8(output.stdout).unwrap();
        if came != wanted {
            return Err(format!(
                "{command}\nshould print\n{wanted}and prints\n{came}"
            ));
        }
        judged.commands += 1;
    }
    Ok(())
}

fn document(name: &str) -> String {
    fs::read_to_string(repository(name)).unwrap()
}

const FORMAT: &str = "docs/FORMAT.md";

#[test]
fn every_example_of_the_format() {
    let judged = judge(&document(FORMAT)).unwrap_or_else(|why| panic!("{why}"));
    let count = |sort: &str| judged.claims.get(sort).copied().unwrap_or_default();
    println!("{:?}, {} commands", judged.claims, judged.commands);
    // 8 is shown by a command, for its bytes would fill the page
    for number in (1..=7).chain(9..=11) {
        assert!(
            count(&format!("no {number}")) > 0,
            "no example is refused with {number}"
        );
    }
    assert!(document(FORMAT).contains("refused, number 8: "));
    for (sort, least) in [
        ("ok", 18),
        ("sheet", 4),
        ("sheet,", 4),
        ("fill", 2),
        ("join", 1),
        ("table", 2),
    ] {
        assert!(count(sort) >= least, "{} of {sort}", count(sort));
    }
    assert!(judged.commands >= 3);
    every_kind(&judged);
}

/// Each row of the table of first bytes has an accepted example, and each kind with a payload its own.
fn every_kind(judged: &Judged) {
    let accepted = judged
        .bytes
        .values()
        .filter(|bytes| shiulbart::read(bytes).is_ok());
    let firsts: Vec<u8> = accepted.map(|bytes| bytes[0]).collect();
    let rows = (0x20..=0x24).chain(0x40..=0x45).map(|first| first..=first);
    for row in rows.chain([0x00..=0x1F, 0x60..=0x64, 0x65..=0x7D]) {
        assert!(firsts.iter().any(|first| row.contains(first)), "{row:02X?}");
    }
}

#[test]
fn every_command_of_the_readme() {
    let judged = judge(&document("host/tool/README.md")).unwrap_or_else(|why| panic!("{why}"));
    assert!(judged.commands >= 9, "{}", judged.commands);
}

/// A document that says anything else does not pass.
#[test]
fn examples_that_do_not_hold() {
    let right = document(FORMAT);
    for (from, to) in [
        ("# record: ok 10 3", "# record: ok 10 2"),
        ("# record: ok 10 3", "# record: ok 9 3"),
        ("# record: ok 10 3", "# record: no 6 0"),
        ("# record: ok 10 3", "# record: okay"),
        ("# record: ok 10 3", "# a record"),
        ("# long-array-of-int: no 6 0", "# long-array-of-int: no 6 1"),
        ("# long-array-of-int: no 6 0", "# long-array-of-int: no 5 0"),
        ("# long-array-of-int: no 6 0", "# long-array-of-int: ok 4 2"),
        ("\n41  02 00  01  00\n", "\n41  02 00  00  01\n"),
        ("# joined: join first second", "# joined: join second first"),
        ("# swap: sheet", "# swap: sheet, no 13 0"),
        ("# sheet-cut: sheet, no 13 6", "# sheet-cut: sheet, no 13 7"),
        ("# sheet-cut: sheet, no 13 6", "# sheet-cut: sheet"),
        (
            "# table-of-record: table of record",
            "# table-of-record: table of function",
        ),
        (
            "# table-that-shares: table for map",
            "# table-that-shares: table of map",
        ),
        (
            "# table-of-itself: table, no 10 0",
            "# table-of-itself: table, no 11 0",
        ),
        ("# float: ok 1 1\n21", "# float: ok 1 1\n2F"),
        ("# float: ok", "# int: ok"),
        ("  2048  00", "  2048  01"),
        ("the bytes are the same", "the bytes differ"),
        ("```hex\n# int", "```\n# int"),
    ] {
        assert!(right.contains(from), "{from}");
        let wrong = right.replacen(from, to, 1);
        assert!(judge(&wrong).is_err(), "{to} passes");
    }
}
