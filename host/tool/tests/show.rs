//! `show`: the tree, its places, and the bytes beside it.

mod common;

use common::json::{self, Json};
use common::{caret, long, repository, Folder, M12, M4};
use std::fs;

/// The page of a shape, with or without its bytes.
fn show(bytes: &[u8], options: &str) -> String {
    let folder = Folder::with([("m", bytes)]);
    folder.line(&format!("show {options} m")).page()
}

#[test]
fn a_record() {
    assert_eq!(
        show(&M4, ""),
        "\
place  shape
    0  Record of 2 fields
    6    \"a\": Int
    9    \"b\": Array, packed
    -      element: Bool
"
    );
    assert_eq!(
        show(&M4, "--hex"),
        "\
place  bytes                    shape
    0  42 07 00 02 01           Record of 2 fields
    6  61 20                      \"a\": Int
    9  01 62 62                   \"b\": Array, packed
    -                               element: Bool
"
    );
}

/// A Function of every other kind, with blanks short and long.
fn every_kind() -> Vec<u8> {
    let symbol = long(0x44, &[3, 2, b'u', b'p', 0, 1, b'"']);
    let fields = [&[2, 0, 0x24, 3, b'a', b'\n', b'b'][..], &symbol].concat();
    let parts = [
        &[4][..],
        &long(0x42, &fields),
        &long(0x40, &[31]),
        &long(0x41, &[0x21, 0x45, 2, 0, 0xFF, 0xFF]),
        &long(0x42, &[0]),
        &[0x76],
    ];
    long(0x43, &parts.concat())
}

#[test]
fn every_kind_of_shape() {
    assert_eq!(
        show(&every_kind(), "--hex"),
        "\
place  bytes                    shape
    0  43 27 00 04              Function
    4  42 11 00 02 00             parameter 0: Record of 2 fields
    9  24                           \"\": Bytes
   14  03 61 0A 62 44 07 00 03      \"a\\nb\": Symbol of 3 texts
       02
   19  75 70                          \"up\"
   22  00                             \"\"
   23  01 22                          \"\\\"\"
   24  40 01 00                   parameter 1: Array
   27  1F                           element: <blank 31>
   28  41 06 00                   parameter 2: Map
   31  21                           key: Float
   32  45 02 00 FF FF               value: <blank 65535>
   37  42 01 00 00                parameter 3: Record of 0 fields
   41  76                         return: Map, packed
    -                               key: Str
    -                               value: Bool
blanks: 31 65535
"
    );
}

#[test]
fn blanks_are_marked() {
    assert_eq!(
        show(&M12, ""),
        "\
place  shape
    0  Map
    3    key: <blank 0>
    4    value: <blank 1>
blanks: 0 1
"
    );
}

/// The bytes beside the lines, read downwards, are the file; a line of many goes on below.
#[test]
fn every_byte_stands_beside_a_line() {
    let folder = Folder::new();
    let mut shapes: Vec<Vec<u8>> = vec![every_kind()];
    for entry in fs::read_dir(repository("examples")).unwrap() {
        shapes.push(fs::read(entry.unwrap().path()).unwrap());
    }
    let mut shown = 0;
    for shape in shapes {
        folder.put("m", &shape);
        if folder.line("check m").status != 0 {
            continue;
        }
        let page = folder.line("show --hex m").page();
        let column = |line: &str| line.chars().skip(7).take(23).collect::<String>();
        let beside: Vec<String> = page.lines().skip(1).map(column).collect();
        let beside = beside.join(" ");
        let digits: Vec<&str> = beside.split_whitespace().take(shape.len()).collect();
        let bytes = digits
            .iter()
            .map(|pair| u8::from_str_radix(pair, 16).unwrap());
        assert!(bytes.eq(shape.iter().copied()), "{page}");
        shown += 1;
    }
    assert!(shown >= 10, "{shown}");
}

/// With --hex a file is hex text or bytes. What is neither hex text nor a shape says both.
#[test]
fn hex_text_or_bytes() {
    let folder = Folder::with([
        ("m.hex", b"42 07 00 02 # M4\n01 61 20\n01 62 62\n"),
        ("m", &M4),
        ("space", b" "),
        ("hash", b"#"),
        ("typo", b"42 07 0o 02 01 61 20 01 62 62"),
        ("comment", b"# nothing\n"),
        ("cut", b"42 07 00"),
    ]);
    let pages = ["m", "m.hex"].map(|name| folder.run(&["show", "--hex", name]).page());
    assert_eq!(pages[0], pages[1]);
    // one byte each, which could stand in a hex text that has no digits
    assert!(folder
        .line("show --hex space")
        .page()
        .contains("    0  20                       Int\n"));
    assert!(folder
        .line("show --hex hash")
        .page()
        .contains("    0  23                       Str\n"));

    let said = folder.line("show --hex typo").refusal();
    let line = "shiulbart: typo: refused, number 2: first byte not assigned at byte 0 \
                (taken as bytes, for it is no hex text: line 1, column 8: 'o' is no hex digit)\n";
    assert!(said.starts_with(line), "{said}");
    let said = folder.line("show --hex comment").refusal();
    assert!(
        said.contains("(taken as bytes, for it is no hex text: it has no digits)\n"),
        "{said}"
    );
    // what is hex text is taken for nothing else
    let said = folder.line("show --hex cut").refusal();
    assert!(
        said.starts_with("shiulbart: cut: refused, number 1: cut short at byte 0\n"),
        "{said}"
    );
    assert_eq!(caret(&said), (0, "42".to_string()));
    // without --hex a file is bytes
    let said = folder.line("show m.hex").refusal();
    assert!(
        said.starts_with("shiulbart: m.hex: refused, number 2: "),
        "{said}"
    );
    assert_eq!(
        folder.fed("show --hex -", b"4207000201612001 6262").page(),
        pages[0]
    );
    assert_eq!(folder.fed("show --hex -", &M4).page(), pages[0]);
}

#[test]
fn what_is_no_shape() {
    let folder = Folder::with([("m", &M4[..9])]);
    let said = folder.line("show m").refusal();
    assert!(
        said.starts_with("shiulbart: m: refused, number 1: cut short at byte 0\n"),
        "{said}"
    );
    assert_eq!(caret(&said), (0, "42".to_string()));
}

/// Holds a branch of the tree, and all that is in it, to what the calls find. Its places count from
/// the start of the file, where `before` bytes stand before these. Answers how many shapes there are.
fn found_by_the_calls(branch: &Json, bytes: &[u8], before: u64) -> usize {
    let kind = branch.text("shape");
    let inside = (0..).zip(branch.list("inside"));
    let mut count = 1;
    for (k, inner) in inside {
        if let Ok(name) = shiulbart::name(bytes, k) {
            let [place, text] = match kind {
                "Symbol" => ["place", "text"],
                _ => ["name_place", "name"],
            };
            assert_eq!(inner.number(place), before + name.place as u64);
            assert_eq!(inner.text(text).as_bytes(), &bytes[name.range()]);
        }
        match shiulbart::child(bytes, k) {
            Ok(shiulbart::Child::Part { place, length }) => {
                let at = before + place as u64;
                assert_eq!(inner.number("place"), at);
                assert_eq!(inner.number("length"), length as u64);
                count += found_by_the_calls(inner, &bytes[place..place + length], at);
            }
            Ok(shiulbart::Child::Primitive(primitive)) => {
                assert_eq!(inner.at("place"), &Json::Null);
                assert_eq!(inner.text("shape"), format!("{primitive:?}"));
                count += 1;
            }
            Err(_) => assert_eq!(kind, "Symbol"),
        }
    }
    count
}

#[test]
fn for_scripts() {
    let shape = every_kind();
    let folder = Folder::with([("m", &shape)]);
    let told = json::line(&folder.line("show --json m").page());
    assert_eq!(found_by_the_calls(told.at("tree"), &shape, 0), 13);
    assert_eq!(told.text("command"), "show");
    assert_eq!(told.number("length"), shape.len() as u64);
    let blanks = [Json::Number(31), Json::Number(65535)];
    assert_eq!(told.list("blanks"), blanks);
    assert_eq!(told.number("tree inside 2 inside 1 number"), 65535);
    assert_eq!(told.text("tree inside 2 inside 1 role"), "value");
    assert!(!told.at("tree").names().contains(&"bytes"));
    let told = json::line(&folder.line("show --json --hex m").page());
    assert_eq!(told.text("tree bytes"), "43270004");
}
