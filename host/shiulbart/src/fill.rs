use crate::sys::{self, Answer};
use crate::{Refusal, RefusalKind};

/// Fills a template: puts the shapes of a sheet for the blanks that it names.
///
/// They are replaced together, once: nothing is replaced in what was put in, and other blanks stay.
/// The answer is how many bytes of `out` the filled shape's encoding takes, 1 to 2,048. They are its
/// first ones, and no other byte of `out` has changed.
///
/// # Errors
///
/// The first of these that applies. `out` is then as it was.
///
/// | what is wrong | number | place |
/// |---|---|---|
/// | [`read`](crate::read) refuses the template | 1 to 8 | as there |
/// | [`sheet`](crate::sheet()) refuses the sheet | [13](RefusalKind::SheetBroken) | as there |
/// | the filled shape is deeper than 16 | [15](RefusalKind::MadeTooDeep) | 0 |
/// | it is over 2,048 bytes | [16](RefusalKind::MadeTooLong) | 0 |
/// | `out` is shorter than it | [12](RefusalKind::BufferShort) | the length needed |
///
/// # Examples
///
/// ```
/// use shiulbart::fill;
///
/// // a Map of blank 0 to blank 1, and a sheet that puts each for the other
/// let template = [0x41, 2, 0, 0, 1];
/// let sheet = [2, 0, 0, 0, 1, 0, 1, 0, 1, 0, 2, 0, 1, 0];
/// let mut out = [0xFF; 8];
/// assert_eq!(fill(&template, &sheet, &mut out)?, 5);
/// assert_eq!(out, [0x41, 2, 0, 1, 0, 0xFF, 0xFF, 0xFF]);
///
/// let refusal = fill(&template, &sheet, &mut out[..4]).unwrap_err();
/// assert_eq!((refusal.number(), refusal.place()), (12, 5));
/// # Ok::<(), shiulbart::Refusal>(())
/// ```
#[inline]
pub fn fill(template: &[u8], sheet: &[u8], out: &mut [u8]) -> Result<usize, Refusal> {
    written(sys::fill(template, sheet, out))
}

/// As [`fill`](fill()), into a `Vec` of the filled shape's length.
///
/// # Errors
///
/// As for [`fill`](fill()), but for 12.
///
/// # Examples
///
/// ```
/// use shiulbart::fill_to_vec;
///
/// // an Array of blank 0, and a sheet that has an Int for it: an Array of Int is one byte
/// let (template, int) = ([0x40, 1, 0, 0], [1, 0, 0, 0, 1, 0, 1, 0, 0x20]);
/// assert_eq!(fill_to_vec(&template, &int)?, [0x60]);
///
/// // the sheet has nothing for blank 1: it stays
/// assert_eq!(fill_to_vec(&[0x01], &int)?, [0x01]);
/// # Ok::<(), shiulbart::Refusal>(())
/// ```
pub fn fill_to_vec(template: &[u8], sheet: &[u8]) -> Result<Vec<u8>, Refusal> {
    to_vec(|out| fill(template, sheet, out))
}

/// Joins two sheets, so that filling with the joined one is filling with the first and then with the
/// second.
///
/// The joined sheet has each blank of the first, with its shape filled by the second, and each blank
/// that only the second names, as it is there. The answer is how many bytes of `out` it takes, 4 to
/// 16,516. They are its first ones, and no other byte of `out` has changed.
///
/// # Errors
///
/// The first of these that applies. `out` is then as it was.
///
/// | what is wrong | number | place |
/// |---|---|---|
/// | [`sheet`](crate::sheet()) refuses the first | [13](RefusalKind::SheetBroken) | as there |
/// | it refuses the second | [14](RefusalKind::SecondBroken) | as there |
/// | there would be over 32 entries | [17](RefusalKind::JoinedTooLarge) | how many |
/// | blank by blank, in rising order: its filled shape is deeper than 16 | [15](RefusalKind::MadeTooDeep) | the blank's number |
/// | or over 2,048 bytes | [16](RefusalKind::MadeTooLong) | the blank's number |
/// | all encodings would be over 16,384 bytes | [17](RefusalKind::JoinedTooLarge) | how many |
/// | `out` is shorter than the joined sheet | [12](RefusalKind::BufferShort) | the length needed |
///
/// # Examples
///
/// ```
/// use shiulbart::{fill_to_vec, join};
///
/// // blank 1 for blank 0, and an Int for blank 1
/// let (first, second) = ([1, 0, 0, 0, 1, 0, 1, 0, 1], [1, 0, 1, 0, 1, 0, 1, 0, 0x20]);
/// let mut out = [0; 16];
/// let joined = join(&first, &second, &mut out)?;
/// let joined = &out[..joined];
/// // an Int for each of them
/// assert_eq!(joined, [2, 0, 0, 0, 1, 0, 1, 0, 1, 0, 2, 0, 0x20, 0x20]);
///
/// // one filling or two: the shape is the same
/// let template = [0x40, 1, 0, 0];
/// let twice = fill_to_vec(&fill_to_vec(&template, &first)?, &second)?;
/// assert_eq!(fill_to_vec(&template, joined)?, twice);
/// # Ok::<(), shiulbart::Refusal>(())
/// ```
#[inline]
pub fn join(first: &[u8], second: &[u8], out: &mut [u8]) -> Result<usize, Refusal> {
    written(sys::join(first, second, out))
}

/// As [`join`](join()), into a `Vec` of the joined sheet's length.
///
/// # Errors
///
/// As for [`join`](join()), but for 12.
///
/// # Examples
///
/// ```
/// use shiulbart::join_to_vec;
///
/// // joined with the empty sheet, a sheet is what it was
/// let sheet = [1, 0, 0, 0, 1, 0, 1, 0, 0x20];
/// assert_eq!(join_to_vec(&sheet, &[0; 4])?, sheet);
/// assert_eq!(join_to_vec(&[0; 4], &sheet)?, sheet);
/// # Ok::<(), shiulbart::Refusal>(())
/// ```
pub fn join_to_vec(first: &[u8], second: &[u8]) -> Result<Vec<u8>, Refusal> {
    to_vec(|out| join(first, second, out))
}

/// How many bytes were written, or the refusal.
#[inline]
pub(crate) fn written(answer: Answer) -> Result<usize, Refusal> {
    match answer.number {
        0 => Ok(answer.length as usize),
        _ => Err(Refusal::told(answer)),
    }
}

/// The answer of a call that is asked for its length with an empty buffer first. No answer is empty,
/// so what that gives is a refusal.
pub(crate) fn to_vec(
    call: impl Fn(&mut [u8]) -> Result<usize, Refusal>,
) -> Result<Vec<u8>, Refusal> {
    let needed = match call(&mut []) {
        Err(refusal) if refusal.kind() == RefusalKind::BufferShort => refusal.place() as usize,
        other => return other.map(|_| Vec::new()),
    };
    let mut answer = vec![0; needed];
    let length = call(&mut answer)?;
    answer.truncate(length);
    Ok(answer)
}
