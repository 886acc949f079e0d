//! `sheet`: sheets from shapes in files.

mod common;

use common::{caret, json, long, Folder, FIRST, INT_FOR_0, SWAP};

fn shapes() -> Folder {
    Folder::with([
        ("int", &[0x20]),
        ("b0", &[0]),
        ("b1", &[1]),
        ("bad", &[0x40, 1, 0, 0x20]),
    ])
}

#[test]
fn the_sheets_of_the_bench_card() {
    let folder = shapes();
    assert_eq!(folder.line("sheet 0=int").answer(), INT_FOR_0);
    assert_eq!(folder.line("sheet 0=b1").answer(), FIRST);
    assert_eq!(folder.line("sheet 0=b1 1=b0").answer(), SWAP);
    assert_eq!(folder.line("sheet 1=b0 0=b1").answer(), SWAP);
}

#[test]
fn the_empty_sheet() {
    assert_eq!(Folder::new().line("sheet").answer(), [0; 4]);
    assert_eq!(Folder::new().line("sheet --hex").answer(), b"00 00 00 00\n");
}

#[test]
fn numbers_and_lengths_take_two_bytes() {
    let long = long(0x44, &[&[1, 0xAC, 0x02][..], &[b'x'; 300]].concat());
    let folder = Folder::with([("long", &long), ("int", &[0x20])]);
    let sheet = folder.line("sheet 65535=long 300=int").answer();
    assert_eq!(sheet[..12], [2, 0, 44, 1, 1, 0, 255, 255, 50, 1, 51, 1]);
    assert_eq!(sheet[12..], [&[0x20][..], &long].concat());
}

#[test]
fn as_many_as_there_may_be() {
    let folder = shapes();
    let entries: Vec<String> = (0..33).map(|k| format!("{k}=int")).collect();
    let sheet = folder
        .line(&format!("sheet {}", entries[..32].join(" ")))
        .answer();
    assert_eq!(sheet.len(), 2 + 4 * 32 + 2 + 32);
    assert_eq!(
        folder
            .line(&format!("sheet {}", entries.join(" ")))
            .trouble(),
        "a sheet has at most 32 entries, and these are 33"
    );
}

/// The proved check has the last word on the sheet as a whole.
#[test]
fn shapes_that_are_too_much_together() {
    let longest = long(0x44, &[&[1, 0xFA, 0x0F][..], &[b'a'; 2042]].concat());
    let folder = Folder::with([("longest", &longest)]);
    let line = |count: usize| {
        let entries: Vec<String> = (0..count).map(|k| format!("{k}=longest")).collect();
        format!("sheet {}", entries.join(" "))
    };
    assert_eq!(folder.line(&line(8)).answer().len(), 2 + 4 * 8 + 2 + 16_384);
    for (count, all, place) in [(9, "18,432", 38), (32, "65,536", 130)] {
        assert_eq!(
            folder.line(&line(count)).refusal(),
            format!(
                "shiulbart: a sheet with {all} bytes of shapes: refused, number 13: \
                 sheet broken at entry or byte {place}\n"
            )
        );
    }
}

#[test]
fn a_file_that_is_no_shape() {
    let folder = shapes();
    let said = folder.line("sheet 0=int 7=bad -o s").refusal();
    let line = "shiulbart: bad: refused, number 6: long form where a short one exists at byte 0\n";
    assert!(said.starts_with(line), "{said}");
    assert_eq!(caret(&said), (0, "40".to_string()));
    assert!(!folder.names().contains(&"s".to_string()));
    // none of these has a length that a sheet could hold
    for (bytes, number) in [(vec![], 1), (vec![0x20; 2049], 8), (vec![0x20; 70_000], 8)] {
        folder.put("bad", &bytes);
        let said = folder.line("sheet 7=bad").refusal();
        assert!(
            said.starts_with(&format!("shiulbart: bad: refused, number {number}: ")),
            "{said}"
        );
    }
}

#[test]
fn names_with_equals_and_standard_input() {
    let folder = Folder::with([("a=b", &[0x20])]);
    assert_eq!(folder.line("sheet 0=a=b").answer(), INT_FOR_0);
    assert_eq!(folder.fed("sheet 0=-", &[0x20]).answer(), INT_FOR_0);
    assert_eq!(
        folder.fed("sheet --hex 0=-", b"20 # Int").page(),
        "01 00 00 00 01 00 01 00 20\n"
    );
    assert!(folder
        .fed("sheet 0=- 1=-", &[0x20])
        .trouble()
        .starts_with("standard input: "));
}

#[test]
fn bad_entries() {
    let folder = shapes();
    for (line, why) in [
        ("sheet int", "int: an entry of a sheet is NUMBER=FILE"),
        (
            "sheet 65536=int",
            "65536=int: the number of a blank is 0 to 65,535",
        ),
        (
            "sheet -- -1=int",
            "-1=int: the number of a blank is 0 to 65,535",
        ),
        ("sheet 0=int 7=", "7=: there is no file after ="),
        ("sheet 7=int 7=b0", "blank 7 is given twice: int and b0"),
        (
            "sheet 7=none",
            "none: cannot be read: there is no such file or folder",
        ),
    ] {
        assert_eq!(folder.line(line).trouble(), why, "{line}");
    }
}

#[test]
fn for_scripts() {
    let folder = shapes();
    let told = json::line(&folder.line("sheet --json 0=b1 1=b0").page());
    assert_eq!(told.names(), ["command", "answered", "length", "bytes"]);
    assert_eq!(told.text("bytes"), "0200000001000100010002000100");
    let ran = folder.line("sheet --json 7=bad");
    assert_eq!((ran.status, &ran.err[..]), (1, ""));
    let told = json::line(ran.text());
    assert_eq!(told.text("refusal file"), "bad");
    assert_eq!(told.text("refusal call"), "read");
}
