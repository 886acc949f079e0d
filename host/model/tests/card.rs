//! "Bytes on the bench card", "To run" and "Slips a good mechanic makes".

mod common;

use common::{array, arrays, function, hex, map, no, record, symbol};
use model::parts::{child, name, Child};
use model::read::read;
use model::shape::{encode, Shape};
use model::sheet::{check, fill, join, Sheet};
use model::table::{to_table, write};

const M4: &str = "42 07 00 02 01 61 20 01 62 62";

const M4_TABLE: &str = "04 00 00 00 00 00 00 00 02 00 00 00 00 00 05 00 00 00 01 00 \
    07 00 01 00 02 00 03 00 01 00 00 00 00 00 00 00 02 00 01 00 \
    02 00 00 00 01 00 01 00 01 00 02 00 61 62";

const ROOM: usize = 100_000;

fn sheet(entries: &[(u16, Shape)]) -> Vec<u8> {
    Sheet(entries.to_vec()).bytes()
}

#[test]
fn m1_to_m11() {
    // M1, M2
    assert_eq!(read(&hex("20")), Ok(Shape::Int));
    assert_eq!(read(&hex("76")), Ok(map(Shape::Str, Shape::Bool)));
    // M3
    assert_eq!(read(&hex("40 01 00 20")), no(6, 0));
    // M4
    let m4 = record(&[("a", Shape::Int), ("b", array(Shape::Bool))]);
    assert_eq!(read(&hex(M4)), Ok(m4));
    let part = Child::Part {
        place: 9,
        length: 1,
    };
    assert_eq!(child(&hex(M4), 1), Ok(part));
    // M5, M6
    assert_eq!(read(&hex("45 02 00 20 00")), Ok(Shape::Variable(32)));
    assert_eq!(read(&hex("45 02 00 1F 00")), no(6, 0));
    // M7, M8
    assert_eq!(read(&[]), no(1, 0));
    assert_eq!(read(&hex("20 20")), no(3, 1));
    // M9
    let m9 = function(vec![], Shape::Int);
    assert_eq!(read(&hex("43 02 00 00 20")), Ok(m9));
    // M10, M11
    assert_eq!(read(&hex("44 03 00 81 00 00")), no(4, 3));
    assert_eq!(read(&hex("A0")), no(2, 0));
}

#[test]
fn m12() {
    // "filled with 0 as Variable 1, 1 as Variable 0"; and the slip "Replacing again in what was
    // just put in (M12 turns wrong)."
    let swap = sheet(&[(0, Shape::Variable(1)), (1, Shape::Variable(0))]);
    let filled = fill(&hex("41 02 00 00 01"), &swap, ROOM);
    assert_eq!(filled, Ok(hex("41 02 00 01 00")));
}

#[test]
fn m13() {
    // And the slip "Keeping the long Array after its blank became Int (M13)."
    let filled = fill(
        &hex("40 01 00 00"),
        &hex("01 00 00 00 01 00 01 00 20"),
        ROOM,
    );
    assert_eq!(filled, Ok(hex("60")));
}

#[test]
fn m14() {
    let first = sheet(&[(0, Shape::Variable(1))]);
    let second = sheet(&[(1, Shape::Int)]);
    let joined = join(&first, &second, ROOM);
    assert_eq!(joined, Ok(hex("02 00 00 00 01 00 01 00 01 00 02 00 20 20")));
}

#[test]
fn single_byte_60() {
    // "For the single byte 60 (hex) it prints `ok 1 2`."
    assert_eq!(read(&hex("60")), Ok(array(Shape::Int)));
    assert_eq!(read(&hex("60")).unwrap().depth(), 2);
}

#[test]
fn to_run_table_of_m4() {
    // "M4's table, 54 bytes"
    let table = hex(M4_TABLE);
    assert_eq!(table.len(), 54);
    assert_eq!(to_table(&hex(M4), ROOM), Ok(table.clone()));
    assert_eq!(write(&table, ROOM), Ok(hex(M4)));
    // With just enough room and with less.
    assert_eq!(to_table(&hex(M4), 54), Ok(table.clone()));
    assert_eq!(to_table(&hex(M4), 53), no(12, 54));
    assert_eq!(to_table(&hex(M4), 0), no(12, 54));
    assert_eq!(write(&table, 10), Ok(hex(M4)));
    assert_eq!(write(&table, 9), no(12, 10));
    assert_eq!(write(&table, 0), no(12, 10));
}

#[test]
fn to_run_arrays() {
    // "Fifteen Arrays round Int: 43 bytes, accepted; sixteen: 46, 7 at 45."; and the slip "Taking
    // a packed byte at level 16."
    let fifteen = encode(&arrays(15, Shape::Int));
    assert_eq!(fifteen.len(), 43);
    assert_eq!(read(&fifteen), Ok(arrays(15, Shape::Int)));
    assert_eq!(read(&fifteen).unwrap().depth(), 16);
    let sixteen = encode(&arrays(16, Shape::Int));
    assert_eq!(sixteen.len(), 46);
    assert_eq!(read(&sixteen), no(7, 45));
}

/// The table of a Symbol with one text.
fn symbol_table(text: &[u8]) -> Vec<u8> {
    let length = [(text.len() % 256) as u8, (text.len() / 256) as u8];
    let mut table = hex("01 00 09 00 00 00 01 00 01 00 00 00 00 00 01 00 00 00");
    table.extend(length);
    table.extend(length);
    table.extend(text);
    table
}

#[test]
fn to_run_long_symbol() {
    // "Symbol of one text of 2,042 letters: 2,048 bytes; 2,043: 8 from the reader, 16 from the
    // writer."
    let letters = "x".repeat(2_043);
    let fits = symbol(&[&letters[..2_042]]);
    assert_eq!(encode(&fits).len(), 2_048);
    assert_eq!(read(&encode(&fits)), Ok(fits.clone()));
    let over = symbol(&[&letters]);
    assert_eq!(encode(&over).len(), 2_049);
    assert_eq!(read(&encode(&over)), no(8, 2_048));
    let table = symbol_table(&letters.as_bytes()[..2_042]);
    assert_eq!(write(&table, 2_048), Ok(encode(&fits)));
    assert_eq!(write(&table, 2_047), no(12, 2_048));
    assert_eq!(to_table(&encode(&fits), ROOM), Ok(table));
    assert_eq!(write(&symbol_table(letters.as_bytes()), ROOM), no(16, 0));
    // 16 comes before 12.
    assert_eq!(write(&symbol_table(letters.as_bytes()), 0), no(16, 0));
}

#[test]
fn to_run_cut_text() {
    // "`44 02 00 01 05`: 1 at 4."
    assert_eq!(read(&hex("44 02 00 01 05")), no(1, 4));
    assert_eq!(name(&hex("44 02 00 01 05"), 0), no(1, 4));
}

#[test]
fn slip_stage_by_stage() {
    // "Refusing stage by stage. Function of 500 Arrays of Variable 0, returning Int, is 2,006
    // bytes. Blank 0 as Variable 40 makes 4,006: 16. Joined with 40 as Int it makes 506: answered."
    let template = encode(&function(vec![array(Shape::Variable(0)); 500], Shape::Int));
    assert_eq!(template.len(), 2_006);
    let first = sheet(&[(0, Shape::Variable(40))]);
    let second = sheet(&[(40, Shape::Int)]);
    let between = function(vec![array(Shape::Variable(40)); 500], Shape::Int);
    assert_eq!(encode(&between).len(), 4_006);
    assert_eq!(fill(&template, &first, ROOM), no(16, 0));
    let joined = join(&first, &second, ROOM).unwrap();
    let expected = Sheet(vec![(0, Shape::Int), (40, Shape::Int)]);
    assert_eq!(check(&joined, 13), Ok(expected));
    let filled = fill(&template, &joined, ROOM).unwrap();
    assert_eq!(filled.len(), 506);
    let expected = function(vec![array(Shape::Int); 500], Shape::Int);
    assert_eq!(read(&filled), Ok(expected));
}
