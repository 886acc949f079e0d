//! `twice`: both boards' ways, side by side.

mod common;

use common::json::{self, Json};
use common::{arrays, caret, long, one, Folder};
use common::{FIRST, INT_FOR_0, M12, M13, SECOND, SWAP};

/// M12's template and swap, and M13's; M14's two sheets; the empty sheet.
fn bench_card() -> Folder {
    Folder::with([
        ("m12", &M12),
        ("m13", &M13),
        ("swap", &SWAP),
        ("int", &INT_FOR_0),
        ("first", &FIRST),
        ("second", &SECOND),
        ("none", &[0; 4]),
    ])
}

#[test]
fn m14_on_m13() {
    assert_eq!(
        bench_card().line("twice m13 first second").page(),
        "       board A                                 board B
       fill template with first: 4 bytes       join first and second: 14 bytes
       fill that with second: 1 byte           fill template with that: 1 byte
    0  60                                      60
the bytes are the same
"
    );
}

/// Each pair of sheets on each template: the bytes in the end, which both boards have.
#[test]
fn m12_m13_and_m14() {
    let folder = bench_card();
    for (line, bytes) in [
        ("m12 swap swap", &M12[..]),
        ("m12 swap none", &[0x41, 2, 0, 1, 0]),
        ("m12 none swap", &[0x41, 2, 0, 1, 0]),
        ("m12 swap int", &[0x41, 2, 0, 1, 0x20]),
        ("m12 first second", &[0x65]),
        ("m12 second first", &[0x41, 2, 0, 1, 0x20]),
        ("m13 int none", &[0x60]),
        ("m13 first second", &[0x60]),
        ("m13 swap int", &[0x40, 1, 0, 1]),
        ("m13 none none", &M13),
    ] {
        let page = folder.line(&format!("twice {line} -o out")).page();
        assert!(page.ends_with("the bytes are the same\n"), "{page}");
        assert_eq!(folder.bytes("out"), bytes, "{line}");
        let digits: Vec<String> = bytes.iter().map(|byte| format!("{byte:02X}")).collect();
        let row = format!("    0  {:<38}  {}\n", digits.join(" "), digits.join(" "));
        assert!(page.contains(&row), "{page}");
    }
}

/// Answers of many bytes stand in rows of eight.
#[test]
fn long_answers() {
    let function = long(0x43, &[&[30][..], &[0; 31]].concat());
    let folder = bench_card();
    folder.put("f", &function);
    let page = folder.line("twice f first second").page();
    let row = "    8  20 20 20 20 20 20 20 20                 20 20 20 20 20 20 20 20\n";
    assert!(page.contains(row), "{page}");
    assert!(
        page.contains("   32  20 20 20                                20 20 20\n"),
        "{page}"
    );
    assert_eq!(page.lines().count(), 3 + 5 + 1);
}

/// Board A refuses what it would make on the way; board B makes no such shape.
#[test]
fn a_way_that_is_refused() {
    let parameters = long(0x40, &[0]).repeat(500);
    let folder = Folder::with([
        (
            "t",
            &long(0x43, &[&[0xF4, 3][..], &parameters, &[0x20]].concat()),
        ),
        ("first", &one(0, &[0x45, 2, 0, 40, 0])),
        ("second", &one(40, &[0x20])),
        ("out", b"as it was"),
    ]);
    let ran = folder.line("twice t first second -o out");
    assert_eq!((ran.status, &ran.err[..]), (1, ""));
    let page = ran.text();
    let head = "       board A                                 board B
       fill template with first: refused (16)  join first and second: 14 bytes
                                               fill template with that: 506 bytes
    0                                          43 F7 01 F4 03 60 60 60
";
    assert!(page.starts_with(head), "{page}");
    let last =
        "board A, fill template with first: refused, number 16: made shape over 2,048 bytes\n";
    assert!(page.ends_with(last), "{page}");
    assert!(!page.contains('!') && !page.contains("same"), "{page}");
    assert_eq!(folder.bytes("out"), b"as it was");

    let ran = folder.line("twice --json t first second");
    assert_eq!(ran.status, 1);
    let told = json::line(ran.text());
    assert!(!told.is("answered"));
    assert_eq!(told.at("same"), &Json::Null);
    assert_eq!(told.text("boards 0 steps 0 refusal call"), "fill");
    assert_eq!(told.number("boards 0 steps 0 refusal number"), 16);
    assert_eq!(told.list("boards 0 steps").len(), 1);
    assert_eq!(told.text("boards 1 steps 1 bytes").len(), 2 * 506);
    assert!(!told.names().contains(&"bytes"));
}

#[test]
fn both_ways_refused() {
    let folder = bench_card();
    folder.put("cut", &SECOND[..8]);
    let ran = folder.line("twice m13 first cut");
    assert_eq!((ran.status, &ran.err[..]), (1, ""));
    assert_eq!(
        ran.text(),
        "       board A                                 board B
       fill template with first: 4 bytes       join first and second: refused (14)
       fill that with second: refused (13)
board A, fill that with second: cut: refused, number 13: sheet broken at entry or byte 6
board B, join first and second: cut: refused, number 14: second sheet broken at entry or byte 6
"
    );
    let ran = folder.line("twice m13 cut second");
    assert_eq!(ran.status, 1);
    for step in [
        "board A, fill template with first",
        "board B, join first and second",
    ] {
        let line = format!("\n{step}: cut: refused, number 13: sheet broken at entry or byte 6\n");
        assert!(ran.text().contains(&line), "{}", ran.text());
    }
}

/// A bad template: board B finds out only after it has joined.
#[test]
fn a_template_that_is_no_shape() {
    let folder = bench_card();
    folder.put("m3", &[0x40, 1, 0, 0x20]);
    let ran = folder.line("twice m3 first second");
    assert_eq!((ran.status, &ran.err[..]), (1, ""));
    let parts: Vec<&str> = ran.text().split("\nboard ").collect();
    let why = "m3: refused, number 6: long form where a short one exists at byte 0\n";
    for (part, step) in parts[1..]
        .iter()
        .zip(["A, fill template with first", "B, fill template with that"])
    {
        assert!(
            part.starts_with(&format!("{step}: {why}")),
            "{}",
            ran.text()
        );
        assert_eq!(caret(part), (0, "40".to_string()));
    }
    assert_eq!(parts.len(), 3);
}

/// What is made of what was made has no file: the words say what it is.
#[test]
fn the_second_step_refused() {
    let folder = Folder::with([
        ("t", &[1]),
        ("first", &one(1, &arrays(15, &[0]))),
        ("second", &one(0, &[0x60])),
    ]);
    let ran = folder.line("twice t first second");
    assert_eq!(ran.status, 1);
    let deep = "refused, number 15: made shape deeper than 16";
    let last = format!(
        "board A, fill that with second: {deep}\nboard B, join first and second: {deep} at blank 1\n"
    );
    assert!(ran.text().ends_with(&last), "{}", ran.text());
}

#[test]
fn for_scripts_and_hex_text() {
    let folder = bench_card();
    let told = json::line(&folder.line("twice --json m13 first second -o out").page());
    assert_eq!(
        told.names(),
        ["command", "answered", "same", "boards", "length", "bytes"]
    );
    assert!(told.is("answered") && told.is("same"));
    assert_eq!(told.text("bytes"), "60");
    assert_eq!(told.text("boards 0 board"), "board A");
    assert_eq!(
        told.text("boards 0 steps 0 what"),
        "fill template with first"
    );
    assert_eq!(told.text("boards 0 steps 0 bytes"), "40010001");
    assert_eq!(
        told.text("boards 1 steps 0 bytes"),
        "0200000001000100010002002020"
    );
    assert_eq!(folder.bytes("out"), [0x60]);
    folder.put("t.hex", b"40 01 00 00");
    folder.put("s.hex", b"00 00 00 00");
    let page = folder
        .fed(
            "twice --hex t.hex s.hex - -o out",
            b"01 00 00 00 01 00 01 00 20",
        )
        .page();
    assert!(page.ends_with("the bytes are the same\n"), "{page}");
    assert_eq!(folder.bytes("out"), b"60\n");
}
