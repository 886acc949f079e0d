//! Runs the bench card's cases over the model, and prints a line for each: `NAME INPUT: ok NUMBERS
//! BUFFER` or `NAME INPUT: no NUMBER PLACE BUFFER`. An input is its bytes, or only how many they are.
//! The buffer is every byte of it, where one was lent. The cases are 01-scope.md's, from "Bytes on
//! the bench card" and "Slips a good mechanic makes", and some of ours. tests/card.sh compares the
//! lines with those of the program `bench_card`, which runs the proved calls.
//!
//! What the document gives in bytes is here in bytes; what it gives in words is built as a shape or
//! as a sheet, and the model encodes it.
#![forbid(unsafe_code)]

use model::parts::{child, Child};
use model::read::read;
use model::shape::{encode, Shape};
use model::sheet::{fill, join, Sheet};
use model::table::{to_table, write};
use model::Refusal;

// ---------------------------------------------------------------------------------------------
// Lines.

/// What every byte of a lent buffer is before a call.
const BEFORE: u8 = 0xEE;

/// The lent buffers: for the longest encoding, and for short answers, which need a few bytes less.
const ENCODING_ROOM: usize = 2_048;
const FILL_ROOM: usize = 8;
const JOIN_ROOM: usize = 16;
const WRITE_ROOM: usize = 16;
const TABLE_ROOM: usize = 80;

/// So many equal bytes in a row are printed once, with how many they are.
const LONG_RUN: usize = 10;

/// Each byte in hex, with a space before it.
fn shown(bytes: &[u8]) -> String {
    let mut line = String::new();
    let mut rest = bytes;
    while let Some(byte) = rest.first() {
        let run = rest.iter().take_while(|other| *other == byte).count();
        let taken = if run < LONG_RUN {
            line += &format!(" {byte:02X}");
            1
        } else {
            line += &format!(" {byte:02X}x{run}");
            run
        };
        rest = &rest[taken..];
    }
    line
}

/// A case's name, and the bytes of its input.
fn input(name: &str, bytes: &[u8]) -> String {
    format!("{name}{}", shown(bytes))
}

/// A case's name, and the length of its input.
fn long_input(name: &str, bytes: &[u8]) -> String {
    format!("{name}, {} bytes", bytes.len())
}

/// The line of an answer that is numbers.
fn numbers(case: &str, answer: Result<Vec<u64>, Refusal>) {
    match answer {
        Ok(numbers) => {
            let numbers: Vec<String> = numbers.iter().map(u64::to_string).collect();
            println!("{case}: ok {}", numbers.join(" "));
        }
        Err(Refusal { number, place }) => println!("{case}: no {number} {place}"),
    }
}

/// The line of an answer that is written into a buffer of `room` bytes:
/// > No lent buffer is changed.
/// > An answer that writes n bytes writes the first n of the lent buffer only.
fn written(case: &str, made: &Result<Vec<u8>, Refusal>, room: usize) {
    let mut buffer = vec![BEFORE; room];
    match made {
        Ok(bytes) => {
            buffer[..bytes.len()].copy_from_slice(bytes);
            println!("{case}: ok {}{}", bytes.len(), shown(&buffer));
        }
        Err(Refusal { number, place }) => {
            println!("{case}: no {number} {place}{}", shown(&buffer));
        }
    }
}

// ---------------------------------------------------------------------------------------------
// Calls, a line or two for each.

/// Length and depth.
fn judged(case: &str, bytes: &[u8]) {
    let answer = read(bytes).map(|shape| vec![bytes.len() as u64, shape.depth()]);
    numbers(case, answer);
}

fn show_read(name: &str, bytes: &[u8]) {
    judged(&input(name, bytes), bytes);
}

fn show_long_read(name: &str, bytes: &[u8]) {
    judged(&long_input(name, bytes), bytes);
}

/// Place and length, or a primitive's number.
fn show_child(name: &str, bytes: &[u8], k: u64) {
    let answer = child(bytes, k).map(|found| match found {
        Child::Part { place, length } => vec![u64::from(place), u64::from(length)],
        Child::Primitive(number) => vec![u64::from(number)],
    });
    numbers(&format!("{}, child {k}", input(name, bytes)), answer);
}

fn show_fill(name: &str, template: &[u8], sheet: &[u8]) {
    let case = input(name, template) + &input(" filled with", sheet);
    written(&case, &fill(template, sheet, FILL_ROOM), FILL_ROOM);
}

fn show_long_fill(name: &str, template: &[u8], sheet: &[u8]) {
    let case = long_input(name, template) + &input(" filled with", sheet);
    let made = fill(template, sheet, ENCODING_ROOM);
    written(&case, &made, ENCODING_ROOM);
}

/// Answers the joined sheet too.
fn show_join(name: &str, first: &[u8], second: &[u8], room: usize) -> Result<Vec<u8>, Refusal> {
    let case = input(name, first) + &input(" joined with", second);
    let joined = join(first, second, room);
    written(&case, &joined, room);
    joined
}

fn show_write(name: &str, table: &[u8]) {
    let case = input(name, table) + " written";
    written(&case, &write(table, WRITE_ROOM), WRITE_ROOM);
}

fn show_long_write(name: &str, table: &[u8]) {
    let case = long_input(name, table) + " written";
    written(&case, &write(table, ENCODING_ROOM), ENCODING_ROOM);
}

/// The table of an encoding, and the encoding that the table means.
fn show_table(name: &str, bytes: &[u8]) {
    let case = input(name, bytes) + " as a table";
    let table = to_table(bytes, TABLE_ROOM);
    written(&case, &table, TABLE_ROOM);
    if let Ok(table) = table {
        show_write(name, &table);
    }
}

/// An accepted shape, which its table tells from others of the same length and depth.
fn show_shape(name: &str, bytes: &[u8]) {
    show_read(name, bytes);
    show_table(name, bytes);
}

// ---------------------------------------------------------------------------------------------
// Inputs.

/// Bytes from hex with spaces.
fn hex(text: &str) -> Vec<u8> {
    text.split_whitespace()
        .map(|pair| u8::from_str_radix(pair, 16).expect("two hex digits"))
        .collect()
}

fn array(element: Shape) -> Shape {
    Shape::Array(Box::new(element))
}

fn map(key: Shape, value: Shape) -> Shape {
    Shape::Map(Box::new(key), Box::new(value))
}

fn function(parameters: Vec<Shape>, result: Shape) -> Shape {
    Shape::Function(parameters, Box::new(result))
}

fn record(fields: Vec<(&str, Shape)>) -> Shape {
    let fields = fields.into_iter();
    Shape::Record(fields.map(|(name, shape)| (name.into(), shape)).collect())
}

/// So many Arrays round a shape.
fn arrays(count: usize, inner: Shape) -> Shape {
    (0..count).fold(inner, |shape, _| array(shape))
}

/// A sheet of one entry.
fn one(blank: u16, shape: Shape) -> Sheet {
    Sheet(vec![(blank, shape)])
}

/// The table of a Symbol of one text, by 01-scope.md, "Node table".
fn symbol_table(text: &str) -> Vec<u8> {
    let length = (text.len() as u16).to_le_bytes();
    let mut table = hex("01 00  09 00 00 00 01 00"); // one node: a Symbol, one link from 0
    table.extend(hex("01 00  00 00 00 00")); // one link: target 0, name 0
    table.extend(hex("01 00  00 00")); // one name, from 0
    table.extend(length);
    table.extend(length); // the text's count
    table.extend(text.as_bytes());
    table
}

// ---------------------------------------------------------------------------------------------
// The cases.

/// M1 to M11.
fn readings() {
    show_shape("M1", &hex("20"));
    show_shape("M2", &hex("76"));
    show_read("M3", &hex("40 01 00 20"));
    let m4 = hex("42 07 00 02 01 61 20 01 62 62");
    show_shape("M4", &m4);
    show_child("M4", &m4, 1);
    show_shape("M5", &hex("45 02 00 20 00"));
    show_read("M6", &hex("45 02 00 1F 00"));
    show_read("M7", &[]);
    show_read("M8", &hex("20 20"));
    show_shape("M9", &hex("43 02 00 00 20"));
    show_read("M10", &hex("44 03 00 81 00 00"));
    show_read("M11", &hex("A0"));
}

/// M12 to M14.
/// > Replacing again in what was just put in (M12 turns wrong).
/// > Keeping the long Array after its blank became Int (M13).
fn fillings() {
    let swap = Sheet(vec![(0, Shape::Variable(1)), (1, Shape::Variable(0))]).bytes();
    show_fill("M12", &hex("41 02 00 00 01"), &swap);
    let int = hex("01 00 00 00 01 00 01 00 20");
    show_fill("M13", &hex("40 01 00 00"), &int);
    let first = one(0, Shape::Variable(1)).bytes();
    let second = one(1, Shape::Int).bytes();
    let _ = show_join("M14", &first, &second, JOIN_ROOM);
}

/// "To run", but for M4's table, and the byte that the page's first section names.
fn to_run() {
    let fifteen = encode(&arrays(15, Shape::Int));
    show_long_read("fifteen Arrays round Int", &fifteen);
    let sixteen = encode(&arrays(16, Shape::Int));
    show_long_read("sixteen Arrays round Int", &sixteen);
    for (count, letters) in [("2,042", 2_042), ("2,043", 2_043)] {
        let name = format!("Symbol of {count} letters");
        let text = "x".repeat(letters);
        let symbol = Shape::Symbol(vec![text.clone().into_bytes()]);
        show_long_read(&name, &encode(&symbol));
        show_long_write(&format!("table of {name}"), &symbol_table(&text));
    }
    show_read("Symbol of a cut text", &hex("44 02 00 01 05"));
    show_read("Array of Int", &hex("60"));
}

/// > Refusing stage by stage. Function of 500 Arrays of Variable 0, returning Int, is 2,006 bytes.
/// > Blank 0 as Variable 40 makes 4,006: 16. Joined with 40 as Int it makes 506: answered.
fn stages() {
    let template = function(vec![array(Shape::Variable(0)); 500], Shape::Int);
    let bytes = encode(&template);
    show_long_read("500 Arrays", &bytes);
    let first = one(0, Shape::Variable(40)).bytes();
    show_long_fill("500 Arrays", &bytes, &first);
    let second = one(40, Shape::Int).bytes();
    let joined = show_join("0 as Variable 40 and 40 as Int", &first, &second, 14);
    if let Ok(joined) = joined {
        show_long_fill("500 Arrays", &bytes, &joined);
    }
}

/// > Taking a packed byte at level 16.
fn level_16() {
    let packed = encode(&arrays(15, map(Shape::Int, Shape::Int)));
    show_long_read("packed Map at level 16", &packed);
    let blank = encode(&arrays(15, Shape::Variable(0)));
    show_long_read("Variable 0 at level 16", &blank);
}

/// Cases that are ours, not the card's: fill and join.
fn our_fillings() {
    let deep = encode(&arrays(15, Shape::Variable(0)));
    let int = one(0, Shape::Int).bytes();
    show_long_fill("ours, Int at level 16", &deep, &int);
    let packed = one(0, map(Shape::Int, Shape::Int)).bytes();
    show_long_fill("ours, packed Map at level 16", &deep, &packed);
    let template = record(vec![("a", Shape::Variable(0)), ("b", array(Shape::Bool))]);
    show_fill("ours, buffer too short", &encode(&template), &int);
    let cut = hex("01 00 01");
    let _ = show_join("ours, second sheet cut short", &int, &cut, JOIN_ROOM);
}

/// Ours too: tables.
fn our_tables() {
    let inner = record(vec![("b", Shape::Float)]);
    let outer = record(vec![("a", inner), ("c", map(Shape::Str, Shape::Float))]);
    show_table("ours, Record in a Record", &encode(&outer));
    let empty = function(vec![array(Shape::Int)], record(vec![]));
    show_table("ours, empty Record after a link", &encode(&empty));
    show_table("ours, M3", &hex("40 01 00 20"));
    // Variable 7, and a Map of it to itself
    let shared = "02 00  0A 00 07 00 00 00  06 00 00 00 02 00 \
        02 00  00 00 00 00  00 00 00 00  00 00  00 00";
    show_write("ours, shared Variable", &hex(shared));
    // an Array of node 0, which it is itself
    let own = "01 00  05 00 00 00 01 00  01 00  00 00 00 00  00 00  00 00";
    show_write("ours, its own target", &hex(own));
    show_write("ours, no nodes", &hex("00 00"));
    // Int, and one byte more
    let more = "01 00  00 00 00 00 00 00  00 00  00 00  00 00  07";
    show_write("ours, leftover byte", &hex(more));
}

fn main() {
    readings();
    fillings();
    to_run();
    stages();
    level_16();
    our_fillings();
    our_tables();
}
