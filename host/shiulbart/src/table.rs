use crate::fill::{to_vec, written};
use crate::{sys, NodeRecord, Refusal};

/// The bytes of the longest encoding.
const LONGEST: usize = 2048;

/// Writes the encoding of the shape that a node table means.
///
/// A table has four sections, each a count and so many entries, with all numbers two bytes, low first:
///
/// - 1 to 6,144 *nodes* of 6 bytes: kind, a byte of 0, a, b. The last one is the root;
/// - up to 6,144 *links* of 4 bytes: target and name;
/// - up to 2,048 *names* of 4 bytes: start and length in the text;
/// - up to 2,048 bytes of *text*.
///
/// | kind | shape | a | b |
/// |---|---|---|---|
/// | 0 to 4 | the [primitive](crate::Primitive) of that number | 0 | 0 |
/// | 5 | Array | its first link | 1 |
/// | 6 | Map | its first link, to the key | 2 |
/// | 7 | Record | its first link | how many fields |
/// | 8 | Function | its first link | at least 1: the parameters and then the return |
/// | 9 | Symbol | its first link | how many texts |
/// | 10 | blank | its number | 0 |
///
/// All links of a node are there: a + b is at most their count. A target is a node before the one
/// whose link it is; a Symbol's targets are 0. The name of a link is one of the names in a Record and
/// in a Symbol, and else 0. Nodes may share children and links. [`Table`](crate::Table) keeps these
/// rules, and makes such bytes.
///
/// The answer is how many bytes of `out` the encoding of the root's shape takes, 1 to 2,048. They are
/// its first ones, and no other byte of `out` has changed.
///
/// # Errors
///
/// The first of these that applies. `out` is then as it was.
///
/// | what is wrong | number | place |
/// |---|---|---|
/// | section by section: its count is missing or outside its limits, or its entries pass the end | [9](crate::RefusalKind::SectionBroken) | the byte where that count is or should be |
/// | bytes are left over | [9](crate::RefusalKind::SectionBroken) | the first of them |
/// | a node breaks one of the rules, whether it is reached from the root or not | [10](crate::RefusalKind::NodeBroken) | the node |
/// | a name passes the text or is not UTF-8, whether a link has it or not | [11](crate::RefusalKind::NameBroken) | the name |
/// | the root's shape is deeper than 16 | [15](crate::RefusalKind::MadeTooDeep) | 0 |
/// | it is over 2,048 bytes | [16](crate::RefusalKind::MadeTooLong) | 0 |
/// | `out` is shorter than it | [12](crate::RefusalKind::BufferShort) | the length needed |
///
/// Links that no node has, and text that no name covers, are not looked at.
///
/// # Examples
///
/// ```
/// use shiulbart::write;
///
/// // node 0 is a Bool, node 1 an Array with link 0, whose target is node 0
/// let table = [2, 0, 2, 0, 0, 0, 0, 0, 5, 0, 0, 0, 1, 0, 1, 0, 0, 0, 0, 0, 0, 0, 0, 0];
/// let mut out = [0xFF; 3];
/// assert_eq!(write(&table, &mut out)?, 1);
/// assert_eq!(out, [0x62, 0xFF, 0xFF]);
///
/// // an Array of itself
/// let mut broken = table;
/// broken[16] = 1;
/// let refusal = write(&broken, &mut out).unwrap_err();
/// assert_eq!((refusal.number(), refusal.place()), (10, 1));
/// assert_eq!(refusal.to_string(), "table node 1 broken");
/// # Ok::<(), shiulbart::Refusal>(())
/// ```
#[inline]
pub fn write(table: &[u8], out: &mut [u8]) -> Result<usize, Refusal> {
    written(sys::write(table, out))
}

/// As [`write`](write()), into a `Vec` of the encoding's length.
///
/// # Errors
///
/// As for [`write`](write()), but for 12.
///
/// # Examples
///
/// ```
/// use shiulbart::{table_to_vec, write_to_vec};
///
/// // from bytes to a table and back
/// let record = [0x42, 7, 0, 2, 1, b'a', 0x20, 1, b'b', 0x62];
/// assert_eq!(write_to_vec(&table_to_vec(&record)?)?, record);
/// # Ok::<(), shiulbart::Refusal>(())
/// ```
pub fn write_to_vec(table: &[u8]) -> Result<Vec<u8>, Refusal> {
    encoding(|out| write(table, out))
}

/// The encoding that a call writes. It is not asked for the length first: the checks of a large table
/// can take long.
fn encoding(call: impl FnOnce(&mut [u8]) -> Result<usize, Refusal>) -> Result<Vec<u8>, Refusal> {
    let mut answer = vec![0; LONGEST];
    let length = call(&mut answer)?;
    answer.truncate(length);
    answer.shrink_to_fit();
    Ok(answer)
}

/// As [`write`](write()), of a table whose nodes are records.
///
/// `nodes` are its nodes, and `rest` is the rest of it in bytes, from the count of links on. So an
/// editor that keeps its nodes as [`NodeRecord`]s need not make bytes of them. [`Table`](crate::Table)
/// is one: it lends its [records](crate::Table::node_records), and makes the
/// [rest](crate::Table::rest).
///
/// The answer and `out` are those of [`write`](write()) on the same table in bytes: the count of nodes,
/// each node with its byte of 0, and the rest.
///
/// # Errors
///
/// As for [`write`](write()) on that table. A place in the rest is counted from the start of the table,
/// and the rest starts at byte 2 + 6 x nodes. No nodes, or more than 6,144, are
/// [9](crate::RefusalKind::SectionBroken) at 0, however many there are.
///
/// # Examples
///
/// ```
/// use shiulbart::{write_records, NodeRecord};
///
/// // node 0 is a Bool, node 1 an Array with link 0, whose target is node 0
/// let nodes = [NodeRecord::new(2, 0, 0), NodeRecord::new(5, 0, 1)];
/// let rest = [1, 0, 0, 0, 0, 0, 0, 0, 0, 0];
/// let mut out = [0xFF; 3];
/// assert_eq!(write_records(&nodes, &rest, &mut out)?, 1);
/// assert_eq!(out, [0x62, 0xFF, 0xFF]);
///
/// // the rest starts at byte 14 of the table, and the count of names, at byte 20, is missing
/// let refusal = write_records(&nodes, &rest[..6], &mut out).unwrap_err();
/// assert_eq!((refusal.number(), refusal.place()), (9, 20));
/// # Ok::<(), shiulbart::Refusal>(())
/// ```
#[inline]
pub fn write_records(nodes: &[NodeRecord], rest: &[u8], out: &mut [u8]) -> Result<usize, Refusal> {
    written(sys::write_records(nodes, rest, out))
}

/// As [`write_records`], into a `Vec` of the encoding's length.
///
/// # Errors
///
/// As for [`write_records`], but for 12.
///
/// # Examples
///
/// ```
/// use shiulbart::{write_records_to_vec, NodeRecord};
///
/// // blank 7: one node, and three sections of nothing
/// assert_eq!(write_records_to_vec(&[NodeRecord::new(10, 7, 0)], &[0; 6])?, [7]);
///
/// let refusal = write_records_to_vec(&[], &[0; 6]).unwrap_err();
/// assert_eq!(refusal.to_string(), "table section broken at byte 0");
/// # Ok::<(), shiulbart::Refusal>(())
/// ```
pub fn write_records_to_vec(nodes: &[NodeRecord], rest: &[u8]) -> Result<Vec<u8>, Refusal> {
    encoding(|out| write_records(nodes, rest, out))
}

/// The node table of an encoded shape, in the form that [`write`](write()) takes.
///
/// Nothing is shared in it: the children of a node come first, in order, and then the node, and with
/// each node its links, names and texts, in order. A Record or a Symbol without links has the number
/// of links so far as its a. [`write`](write()) makes the same encoding of it again.
///
/// The answer is how many bytes of `out` the table takes, at most 61,448. They are its first ones, and
/// no other byte of `out` has changed.
///
/// # Errors
///
/// A bad encoding is refused as by [`read`](crate::read), with numbers 1 to 8. Then it is
/// [`BufferShort`](crate::RefusalKind::BufferShort), number 12, if `out` is shorter than the table; its place
/// is the length needed. `out` is as it was.
///
/// # Examples
///
/// ```
/// use shiulbart::table;
///
/// // an Array of Bool: node 0 is the Bool, node 1 the Array, and link 0 goes from it to node 0
/// let mut out = [0xFF; 25];
/// assert_eq!(table(&[0x62], &mut out)?, 24);
/// assert_eq!(out[..14], [2, 0, 2, 0, 0, 0, 0, 0, 5, 0, 0, 0, 1, 0]);
/// assert_eq!(out[14..], [1, 0, 0, 0, 0, 0, 0, 0, 0, 0, 0xFF]);
///
/// let refusal = table(&[0x62], &mut out[..23]).unwrap_err();
/// assert_eq!((refusal.number(), refusal.place()), (12, 24));
/// # Ok::<(), shiulbart::Refusal>(())
/// ```
#[inline]
pub fn table(bytes: &[u8], out: &mut [u8]) -> Result<usize, Refusal> {
    written(sys::table(bytes, out))
}

/// As [`table`](table()), into a `Vec` of the table's length.
///
/// # Errors
///
/// As for [`table`](table()), but for 12.
///
/// # Examples
///
/// ```
/// use shiulbart::table_to_vec;
///
/// // an Int: one node, and three sections of nothing
/// assert_eq!(table_to_vec(&[0x20])?, [1, 0, 0, 0, 0, 0, 0, 0, 0, 0, 0, 0, 0, 0]);
/// # Ok::<(), shiulbart::Refusal>(())
/// ```
pub fn table_to_vec(bytes: &[u8]) -> Result<Vec<u8>, Refusal> {
    to_vec(|out| table(bytes, out))
}
