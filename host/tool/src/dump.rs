//! A hex dump of the bytes around a place, with a caret under the byte there.

use crate::hex::{self, ROW};

/// The row that a place is in, the one before and the one after, as far as they are there. The caret
/// stands below the place's row. Where the input ends at the place, it stands where a byte would.
pub fn around(bytes: &[u8], place: usize) -> String {
    let own = place / ROW;
    let mut dump = String::new();
    for row in own.saturating_sub(1)..=own + 1 {
        let start = row * ROW;
        if start < bytes.len() || row == own {
            let end = bytes.len().min(start + ROW);
            dump += &line(start, bytes.get(start..end).unwrap_or_default());
        }
        if row == own {
            dump += &caret(place, bytes.len());
        }
    }
    dump
}

/// How many first bytes of an input make the same dump for a place as all of them do.
pub const fn reach(place: usize) -> usize {
    (place / ROW + 2) * ROW
}

/// Place, bytes and, where they are ASCII, letters.
fn line(place: usize, bytes: &[u8]) -> String {
    let letter = |byte: &u8| match byte {
        0x20..=0x7E => char::from(*byte),
        _ => '.',
    };
    let letters: String = bytes.iter().map(letter).collect();
    let width = 3 * ROW - 1;
    let line = format!("{place:>6}  {:<width$}  {letters}", hex::row(bytes));
    line.trim_end().to_string() + "\n"
}

fn caret(place: usize, length: usize) -> String {
    let note = if place >= length { " the end" } else { "" };
    format!("{:>6}  {}^^{note}\n", "", "   ".repeat(place % ROW))
}

#[cfg(test)]
mod tests {
    use super::*;

    /// The column of the first byte of a row.
    const FIRST: usize = 8;

    /// What stands above the caret, and the place that the row's start and the column say.
    fn marked(dump: &str) -> (String, usize) {
        let lines: Vec<&str> = dump.lines().collect();
        let caret = lines.iter().position(|line| line.contains("^^")).unwrap();
        let column = lines[caret].find('^').unwrap();
        let row = format!("{:<60}", lines[caret - 1]);
        let start: usize = row[..6].trim().parse().unwrap();
        (
            row[column..column + 2].to_string(),
            start + (column - FIRST) / 3,
        )
    }

    #[test]
    fn the_caret_is_under_its_byte() {
        let bytes: Vec<u8> = (0..=255).collect();
        for place in 0..256 {
            let dump = around(&bytes, place);
            assert_eq!(marked(&dump), (format!("{place:02X}"), place));
            let rows = if (16..240).contains(&place) { 3 } else { 2 };
            assert_eq!(dump.lines().count(), rows + 1);
            assert!(!dump.contains("end"));
        }
    }

    #[test]
    fn what_is_out_of_reach_is_not_shown() {
        let bytes: Vec<u8> = (0..=255).collect();
        for place in 0..256 {
            for length in place..=256 {
                let within = &bytes[..length.min(reach(place))];
                assert_eq!(around(within, place), around(&bytes[..length], place));
            }
        }
    }

    #[test]
    fn at_the_end_no_byte_is_above_it() {
        for length in 0..50 {
            let dump = around(&vec![0x55; length], length);
            assert_eq!(marked(&dump), ("  ".to_string(), length));
            assert!(dump.contains("^^ the end\n"));
        }
        assert_eq!(around(&[], 0), "     0\n        ^^ the end\n");
    }

    #[test]
    fn rows_before_and_after() {
        let text = b"lift A, lift B, lift C, lift D, lift E, lift F.\n";
        let dump = "     0  6C 69 66 74 20 41 2C 20 6C 69 66 74 20 42 2C 20  lift A, lift B,
    16  6C 69 66 74 20 43 2C 20 6C 69 66 74 20 44 2C 20  lift C, lift D,
                                                     ^^
    32  6C 69 66 74 20 45 2C 20 6C 69 66 74 20 46 2E 0A  lift E, lift F..
";
        assert_eq!(around(text, 31), dump);
    }
}
