//! `fill`, `join`, `table` and `write`: answers, refusals, and the forms of files.

mod common;

use common::{arrays, caret, long, one, Folder};
use common::{FIRST, INT_FOR_0, JOINED, M12, M13, M4, SECOND, SWAP};

/// M4's table, from the bench card.
const M4_TABLE: &str = "\
04 00 00 00 00 00 00 00 02 00 00 00 00 00 05 00
00 00 01 00 07 00 01 00 02 00 03 00 01 00 00 00
00 00 00 00 02 00 01 00 02 00 00 00 01 00 01 00
01 00 02 00 61 62
";

#[test]
fn the_bench_card_filled() {
    let folder = Folder::with([
        ("m12", &M12),
        ("m13", &M13),
        ("swap", &SWAP),
        ("int", &INT_FOR_0),
    ]);
    assert_eq!(folder.line("fill m12 swap").answer(), [0x41, 2, 0, 1, 0]);
    assert_eq!(folder.line("fill m13 int").answer(), [0x60]);
    assert_eq!(folder.line("fill --hex m12 swap").status, 2);
}

#[test]
fn the_bench_card_joined() {
    let folder = Folder::with([("first", &FIRST), ("second", &SECOND)]);
    assert_eq!(folder.line("join first second").answer(), JOINED);
}

#[test]
fn a_table_both_ways() {
    let folder = Folder::with([("m4", &M4), ("m4.hex", b"42 07 00 02 01 61 20 01 62 62")]);
    assert_eq!(folder.line("table m4 -o t").answer(), []);
    assert_eq!(folder.line("write t").answer(), M4);
    assert_eq!(folder.line("table --hex m4.hex").page(), M4_TABLE);
    assert_eq!(
        folder.fed("write --hex -", M4_TABLE.as_bytes()).page(),
        "42 07 00 02 01 61 20 01 62 62\n"
    );
    let bytes = folder.bytes("t");
    assert_eq!(bytes.len(), 54);
    assert_eq!(folder.fed("write -", &bytes).answer(), M4);
}

/// Hex text goes through every command, and what comes out goes in again.
#[test]
fn hex_text_there_and_back() {
    let folder = Folder::with([
        ("template.hex", b"# M13\n40 0100 00 # Array of blank 0\n"),
        ("first.hex", b"01 00  00 00 01 00  01 00  01"),
        ("second.hex", b"01 00  01 00 01 00  01 00  20"),
    ]);
    assert_eq!(
        folder
            .line("join --hex first.hex second.hex -o joined.hex")
            .answer(),
        []
    );
    assert_eq!(
        folder.bytes("joined.hex"),
        b"02 00 00 00 01 00 01 00 01 00 02 00 20 20\n"
    );
    assert_eq!(
        folder.line("fill --hex template.hex joined.hex").answer(),
        b"60\n"
    );
    assert_eq!(
        folder
            .line("fill --hex template.hex first.hex -o once.hex")
            .answer(),
        []
    );
    assert_eq!(
        folder.line("fill --hex once.hex second.hex").answer(),
        b"60\n"
    );
    assert_eq!(
        folder.line("table --hex once.hex -o table.hex").answer(),
        []
    );
    assert_eq!(
        folder.line("write --hex table.hex").answer(),
        folder.bytes("once.hex")
    );
}

#[test]
fn a_long_answer_in_hex_text() {
    let symbol = long(0x44, &[&[1, 0xFA, 0x0F][..], &[b'a'; 2042]].concat());
    let folder = Folder::with([("m", &symbol), ("none", &[0; 4])]);
    let table = folder.line("table m").answer();
    assert_eq!(table.len(), 2064);
    assert_eq!(folder.line("fill m none").answer(), symbol);
    let digits: String = symbol.iter().map(|byte| format!("{byte:02X}")).collect();
    let text = folder.fed("fill --hex - none.hex", b"").trouble();
    assert_eq!(
        text,
        "none.hex: cannot be read: there is no such file or folder"
    );
    folder.put("none.hex", b"00 00 00 00");
    let text = folder
        .fed("fill --hex - none.hex", digits.as_bytes())
        .page();
    assert_eq!(text.lines().count(), 128);
    assert_eq!(text.split_whitespace().collect::<String>(), digits);
}

/// The first line of a refusal, without what it starts with.
fn refusal(folder: &Folder, line: &str) -> String {
    let said = folder.line(line).refusal();
    let first = said.lines().next().unwrap();
    first.strip_prefix("shiulbart: ").unwrap().to_string()
}

/// A refusal names the file that it is about or, if it is about none, the call.
#[test]
fn whose_fault_it_is() {
    let folder = Folder::with([
        ("m3", &[0x40, 1, 0, 0x20]),
        ("m13", &M13),
        ("int", &INT_FOR_0),
        ("cut", &INT_FOR_0[..8]),
        ("deep", &arrays(15, &[0])),
        ("packed", &one(0, &[0x60])),
        ("wide", &long(0x43, &[&[0xF4, 3][..], &[0; 501]].concat())),
        ("many", &one(0, &long(0x42, &[1, 0, 0x20]))),
        ("high", &one(40, &arrays(15, &[0]))),
        ("zero", &one(0, &arrays(15, &[0]))),
    ]);
    for (line, words) in [
        (
            "fill m3 int",
            "m3: refused, number 6: long form where a short one exists at byte 0",
        ),
        (
            "fill m3 cut",
            "m3: refused, number 6: long form where a short one exists at byte 0",
        ),
        (
            "fill m13 cut",
            "cut: refused, number 13: sheet broken at entry or byte 6",
        ),
        (
            "fill deep packed",
            "fill deep with packed: refused, number 15: made shape deeper than 16",
        ),
        (
            "fill wide many",
            "fill wide with many: refused, number 16: made shape over 2,048 bytes",
        ),
        (
            "join cut int",
            "cut: refused, number 13: sheet broken at entry or byte 6",
        ),
        (
            "join int cut",
            "cut: refused, number 14: second sheet broken at entry or byte 6",
        ),
        (
            "join high packed",
            "join high and packed: refused, number 15: made shape deeper than 16 at blank 40",
        ),
        (
            "join zero packed",
            "join zero and packed: refused, number 15: made shape deeper than 16 at blank 0",
        ),
        (
            "table m3",
            "m3: refused, number 6: long form where a short one exists at byte 0",
        ),
        (
            "write m3",
            "m3: refused, number 9: table section broken at byte 0",
        ),
    ] {
        assert_eq!(refusal(&folder, line), words, "{line}");
    }
}

#[test]
fn joined_sheets_that_are_too_large() {
    let entries = |from: u8| -> Vec<u8> {
        let entries = (from..from + 20).flat_map(|blank| [blank, 0, 1, 0]);
        [
            &[20, 0][..],
            &entries.collect::<Vec<_>>(),
            &[20, 0],
            &[0x20; 20],
        ]
        .concat()
    };
    let folder = Folder::with([("low", &entries(0)), ("high", &entries(20))]);
    assert_eq!(
        refusal(&folder, "join low high"),
        "join low and high: refused, number 17: \
         joined sheet over 32 entries or 16,384 bytes: there would be 40"
    );
}

/// The dump of a broken table; nodes and names have no byte to show.
#[test]
fn broken_tables() {
    let folder = Folder::with([("m4", &M4)]);
    let table = folder.line("table m4").answer();
    // the count of links, at 26, is one too many: the sections after it are not where they should be
    let broken = |place: usize, byte: u8| {
        let mut broken = table.clone();
        broken[place] = byte;
        folder.put("t", &broken);
        folder.line("write t").refusal()
    };
    let said = broken(27, 0xFF);
    assert!(said.starts_with("shiulbart: t: refused, number 9: table section broken at byte 26\n"));
    assert_eq!(caret(&said), (26, "03".to_string()));
    assert_eq!(
        broken(2, 11),
        "shiulbart: t: refused, number 10: table node 0 broken\n"
    );
    assert_eq!(
        broken(52, 0xFF),
        "shiulbart: t: refused, number 11: table name 0 broken\n"
    );
    folder.put("t", &[&table[..], &[7]].concat());
    let said = folder.line("write t").refusal();
    assert_eq!(caret(&said), (54, "07".to_string()));
    folder.put("t", &table[..50]);
    let said = folder.line("write t").refusal();
    assert_eq!(caret(&said), (50, String::new()));
}

#[test]
fn standard_input_for_either_file() {
    let folder = Folder::with([("m13", &M13), ("int", &INT_FOR_0)]);
    assert_eq!(folder.fed("fill - int", &M13).answer(), [0x60]);
    assert_eq!(folder.fed("fill m13 -", &INT_FOR_0).answer(), [0x60]);
    assert_eq!(
        folder.fed("join - -", &INT_FOR_0).trouble(),
        "standard input: it is named by - twice, and can be read only once"
    );
    folder.put("-", &M13);
    assert_eq!(folder.line("fill ./- int").answer(), [0x60]);
}
