use crate::{sys, Refusal};

/// What a sound sheet holds, as [`sheet`](crate::sheet()) answers it.
#[derive(Clone, Copy, Debug, PartialEq, Eq, PartialOrd, Ord, Hash)]
pub struct SheetSize {
    /// The entries, 0 to 32: each is for one blank.
    pub entries: usize,
    /// The bytes of all entries' encodings, 0 to 16,384. They are the last of the sheet.
    pub encodings: usize,
}

/// Checks a fill sheet.
///
/// A sheet has an entry for each blank that it names, and the shape to be put for it. These are its
/// bytes, with all numbers two bytes, low first:
///
/// - how many entries there are, up to 32;
/// - for each entry the blank's number and the length of its encoding, 1 to 2,048. The numbers rise:
///   each is larger than the one before it;
/// - how many bytes the encodings are, up to 16,384: the sum of the lengths;
/// - the encodings, one after the other. [`read`](crate::read) accepts each of them.
///
/// # Errors
///
/// [`SheetBroken`](crate::RefusalKind::SheetBroken), number 13, at the place of the first of these
/// that applies:
///
/// | what is wrong | place |
/// |---|---|
/// | the first count is missing or over 32, or the entries pass the end | 0 |
/// | an entry's number does not rise, or its length is not 1 to 2,048 | the entry |
/// | the second count is missing, over 16,384 or not the sum, or the encodings pass the end | the byte where that count is or should be |
/// | bytes are left over | the first of them |
/// | an encoding is refused | its entry |
///
/// Entries are counted from 0, and checked one by one.
///
/// # Examples
///
/// ```
/// use shiulbart::{sheet, SheetSize};
///
/// // one entry: for blank 0, an Int
/// let mut int = [1, 0, 0, 0, 1, 0, 1, 0, 0x20];
/// assert_eq!(sheet(&int), Ok(SheetSize { entries: 1, encodings: 1 }));
///
/// // the empty sheet
/// assert_eq!(sheet(&[0, 0, 0, 0]), Ok(SheetSize { entries: 0, encodings: 0 }));
///
/// // two bytes of encodings are promised, in byte 6, and there is one
/// int[6] = 2;
/// let refusal = sheet(&int).unwrap_err();
/// assert_eq!((refusal.number(), refusal.place()), (13, 6));
/// assert_eq!(refusal.to_string(), "sheet broken at entry or byte 6");
/// ```
#[inline]
pub fn sheet(sheet: &[u8]) -> Result<SheetSize, Refusal> {
    let answer = sys::sheet(sheet);
    if answer.number != 0 {
        return Err(Refusal::told(answer));
    }
    Ok(SheetSize {
        entries: answer.extra as usize,
        encodings: answer.length as usize,
    })
}
