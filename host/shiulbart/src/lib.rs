//! Safe calls to the verified code of the boards.
//!
//! A *shape* is what a message between two ropeway stations looks like: numbers, texts, lists and
//! records, built from one another. Its encoding takes 1 to 2,048 bytes and has at most 16 levels.
//! The functions of this crate call code that is proved to answer exactly what the paper of the
//! shapes says, for every input. Each takes byte slices and plain numbers, and answers a value or
//! a [`Refusal`], which says what is wrong and where.
//!
//! ```
//! use shiulbart::{read, Accepted, RefusalKind};
//!
//! // a Record of `a`, an Int, and `b`, an Array of Bool
//! let record = [0x42, 7, 0, 2, 1, b'a', 0x20, 1, b'b', 0x62];
//! assert_eq!(read(&record), Ok(Accepted { length: 10, depth: 3 }));
//!
//! let refusal = read(&record[..9]).unwrap_err();
//! assert_eq!(refusal.kind(), RefusalKind::CutShort);
//! assert_eq!(refusal.to_string(), "cut short at byte 0");
//! ```
//!
//! [`read`] judges an encoding. [`child`] and [`name`] answer a part of it in place; [`children`]
//! and [`names`] go through all of them:
//!
//! ```
//! # fn main() -> Result<(), shiulbart::Refusal> {
//! # let record = [0x42, 7, 0, 2, 1, b'a', 0x20, 1, b'b', 0x62];
//! for (name, (_, field)) in shiulbart::names(&record)?.zip(shiulbart::children(&record)?) {
//!     println!("{name}: {} levels", shiulbart::read(field)?.depth);
//! }
//! # Ok(())
//! # }
//! ```
//!
//! [`Pieces`] judges an encoding that comes in parts, as over a serial line, and answers at the finish:
//!
//! ```
//! let mut pieces = shiulbart::Pieces::new();
//! pieces.feed(&[0x42, 7, 0, 2, 1]);
//! pieces.feed(&[b'a', 0x20, 1, b'b', 0x62]);
//! assert_eq!(pieces.finish(), shiulbart::read(&[0x42, 7, 0, 2, 1, b'a', 0x20, 1, b'b', 0x62]));
//! ```
//!
//! A *sheet* says which shapes are to be put for the blanks of another one: [`sheet`](sheet()) checks
//! it, [`fill`](fill()) puts them, and [`join`](join()) makes one sheet of two:
//!
//! ```
//! # fn main() -> Result<(), shiulbart::Refusal> {
//! // an Array of blank 0, and a sheet that has an Int for it
//! let template = [0x40, 1, 0, 0];
//! let sheet = [1, 0, 0, 0, 1, 0, 1, 0, 0x20];
//! assert_eq!(shiulbart::fill_to_vec(&template, &sheet)?, [0x60]);
//! # Ok(())
//! # }
//! ```
//!
//! A *table* says node by node what a shape is built from: [`write`](write()) makes the encoding of it,
//! and so does [`write_records`] where the nodes are a slice of records; [`table`](table()) makes a table
//! of an encoding, and [`Table`] is a table as a Rust value, to be built and taken apart:
//!
//! ```
//! # fn main() -> Result<(), Box<dyn std::error::Error>> {
//! use shiulbart::{Primitive, Table};
//!
//! // a Function of an Int and blank 0 that returns an Array of the same blank
//! let mut table = Table::new();
//! let int = table.push_primitive(Primitive::Int)?;
//! let blank = table.push_blank(0)?;
//! let array = table.push_array(blank)?;
//! table.push_function([int, blank], array)?;
//! assert_eq!(table.encode()?, [0x43, 7, 0, 2, 0x20, 0, 0x40, 1, 0, 0]);
//! # Ok(())
//! # }
//! ```
//!
//! # Memory
//!
//! Inputs are only read, and no call keeps a reference once it has returned. A call that writes its
//! answer is lent a `&mut [u8]`. The proved code relies on that buffer overlapping nothing else that
//! is lent to the call, and Rust's borrow rules rule such an overlap out, so that no function here
//! is `unsafe`. A refusal leaves that buffer as it was; an answer of n bytes writes the first n and no
//! other. Nothing is allocated but the answers of [`fill_to_vec`], [`join_to_vec`], [`write_to_vec`],
//! [`write_records_to_vec`] and [`table_to_vec`], and what a [`Table`] holds. The calls have no state: any
//! number of threads may make them at once. What has been read in parts stands in its own [`Pieces`].
//!
//! # Linking
//!
//! The crate links `libboard.a`, which `host/archive` proves and writes to `target/staticlib`
//! at the repository's top. To link one from another folder, set `SHIULBART_ARCHIVE_DIR` to its
//! absolute path when building. The archive is for Linux on x86-64.

#![deny(unsafe_code)]
#![deny(unsafe_op_in_unsafe_fn)]
#![warn(missing_docs)]

mod fill;
mod nodes;
mod parts;
mod pieces;
mod refusal;
mod sheet;
#[allow(unsafe_code)]
mod sys;
mod table;

pub use fill::{fill, fill_to_vec, join, join_to_vec};
pub use nodes::{Fields, Link, Node, NodeId, NodeRecord, Parameters, Table, TableError, Texts};
pub use parts::{child, children, name, names, Child, Children, Name, Names, Primitive};
pub use pieces::Pieces;
pub use refusal::{Refusal, RefusalKind};
pub use sheet::{sheet, SheetSize};
pub use table::{table, table_to_vec, write, write_records, write_records_to_vec, write_to_vec};

/// The length and depth of an accepted encoding, as [`read`] and [`Pieces::finish`] answer them.
#[derive(Clone, Copy, Debug, PartialEq, Eq, PartialOrd, Ord, Hash)]
pub struct Accepted {
    /// The bytes of the encoding, 1 to 2,048: all that were given.
    pub length: usize,
    /// The levels of the shape, 1 to 16: 1 for a shape without children, otherwise 1 more than its
    /// deepest child.
    pub depth: u32,
}

/// Judges an encoding.
///
/// The bytes are accepted if they are exactly one shape, in the one form that it has.
///
/// # Errors
///
/// One of [`CutShort`] to [`InputTooLong`], numbers 1 to 8. Over 2,048 bytes it is 8, whatever they
/// are. Otherwise the bytes are read from the left, and the first fault met is the answer.
///
/// # Examples
///
/// ```
/// use shiulbart::{read, Accepted};
///
/// // an Array of Int is one byte, and has two levels
/// assert_eq!(read(&[0x60]), Ok(Accepted { length: 1, depth: 2 }));
///
/// // so its long form is refused
/// let refusal = read(&[0x40, 1, 0, 0x20]).unwrap_err();
/// assert_eq!((refusal.number(), refusal.place()), (6, 0));
/// assert_eq!(refusal.to_string(), "long form where a short one exists at byte 0");
/// ```
///
/// A refusal is an error like any other:
///
/// ```
/// fn depth_of(bytes: &[u8]) -> Result<u32, Box<dyn std::error::Error>> {
///     Ok(shiulbart::read(bytes)?.depth)
/// }
///
/// assert_eq!(depth_of(&[0x20]).unwrap(), 1);
/// assert_eq!(depth_of(&[]).unwrap_err().to_string(), "cut short at byte 0");
/// ```
///
/// [`CutShort`]: RefusalKind::CutShort
/// [`InputTooLong`]: RefusalKind::InputTooLong
#[inline]
pub fn read(bytes: &[u8]) -> Result<Accepted, Refusal> {
    judged(sys::read(bytes))
}

/// What a reader says of all bytes.
#[inline]
fn judged(answer: sys::Answer) -> Result<Accepted, Refusal> {
    if answer.number != 0 {
        return Err(Refusal::told(answer));
    }
    Ok(Accepted {
        length: answer.length as usize,
        depth: answer.extra,
    })
}
