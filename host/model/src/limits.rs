//! The sizes of 01-scope.md, "Sizes":
//!
//! > Encoding 1 to 2,048 bytes; depth 1 to 16. Table: 1 to 6,144 nodes, up to 6,144 links,
//! > 2,048 names, 2,048 bytes of text. Every accepted encoding has a table within these, of at
//! > most 61,448 bytes. Sheet: up to 32 entries, up to 16,384 bytes of encodings.

/// "Encoding 1 to 2,048 bytes".
pub const ENCODING: usize = 2_048;
/// "depth 1 to 16".
pub const DEPTH: u64 = 16;
/// "Table: 1 to 6,144 nodes": the fewest.
pub const NODES_LEAST: usize = 1;
/// "Table: 1 to 6,144 nodes": the most.
pub const NODES: usize = 6_144;
/// "up to 6,144 links".
pub const LINKS: usize = 6_144;
/// "2,048 names".
pub const NAMES: usize = 2_048;
/// "2,048 bytes of text".
pub const TEXT: usize = 2_048;
/// "Every accepted encoding has a table within these, of at most 61,448 bytes."
pub const TABLE_OF_AN_ENCODING: usize = 61_448;
/// "Sheet: up to 32 entries".
pub const ENTRIES: usize = 32;
/// "up to 16,384 bytes of encodings".
pub const ENCODINGS: usize = 16_384;
