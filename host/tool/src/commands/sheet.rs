//! `sheet`: a sheet from shapes in files.

use crate::input::Input;
use crate::refused::Refused;
use crate::words;

/// The entries are in the order of their blanks.
pub fn run(entries: &[(u16, Input)]) -> Result<Vec<u8>, Refused> {
    // the check of a sheet says which entry is bad, but not why
    for (_, file) in entries {
        shiulbart::read(&file.bytes).map_err(|refusal| Refused::file("read", file, refusal))?;
    }
    let sheet = put_together(entries);
    match shiulbart::sheet(&sheet) {
        Ok(_) => Ok(sheet),
        Err(refusal) => {
            let all = entries.iter().map(|(_, file)| file.bytes.len()).sum();
            let about = format!("a sheet with {} of shapes", words::count(all, "byte"));
            Err(Refused::made("sheet", about, refusal))
        }
    }
}

/// The bytes of a sheet, as `shiulbart::sheet` has them: how many entries, the entries, how many bytes
/// of shapes, and the shapes. A sum that does not fit its two bytes becomes one that is not the sum, so
/// that the check refuses it in its place.
fn put_together(entries: &[(u16, Input)]) -> Vec<u8> {
    let two = |number: usize| u16::try_from(number).unwrap_or(u16::MAX).to_le_bytes();
    let mut sheet = two(entries.len()).to_vec();
    let mut shapes: Vec<u8> = Vec::new();
    for (number, file) in entries {
        sheet.extend(number.to_le_bytes());
        sheet.extend(two(file.bytes.len()));
        shapes.extend(&file.bytes);
    }
    sheet.extend(two(shapes.len()));
    sheet.extend(shapes);
    sheet
}

#[cfg(test)]
mod tests {
    use super::*;

    fn sheet_of(entries: &[(u16, &[u8])]) -> Vec<u8> {
        let entry = |&(number, bytes): &(u16, &[u8])| {
            let file = Input {
                name: String::new(),
                bytes: bytes.to_vec(),
                no_hex: None,
            };
            (number, file)
        };
        put_together(&entries.iter().map(entry).collect::<Vec<_>>())
    }

    #[test]
    fn the_sheets_of_the_bench_card() {
        assert_eq!(sheet_of(&[(0, &[0x20])]), [1, 0, 0, 0, 1, 0, 1, 0, 0x20]);
        assert_eq!(
            sheet_of(&[(0, &[1]), (1, &[0])]),
            [2, 0, 0, 0, 1, 0, 1, 0, 1, 0, 2, 0, 1, 0]
        );
        assert_eq!(sheet_of(&[]), [0; 4]);
        assert_eq!(
            sheet_of(&[(0x1234, &[7; 0x0567])])[..8],
            [1, 0, 0x34, 0x12, 0x67, 5, 0x67, 5]
        );
    }

    #[test]
    fn a_sum_over_two_bytes_is_refused_at_its_place() {
        let entries: Vec<(u16, &[u8])> = (0..32).map(|k| (k, &[0; 2048][..])).collect();
        let refusal = shiulbart::sheet(&sheet_of(&entries)).unwrap_err();
        assert_eq!((refusal.number(), refusal.place()), (13, 2 + 4 * 32));
    }
}
