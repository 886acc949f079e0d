use crate::sys::Answer;
use std::error::Error;
use std::fmt;

/// What is wrong, as a refusal's number says it.
///
/// The numbers are those of the paper and of `include/shiulbart.h`, which has the same names:
/// [`CutShort`](Self::CutShort) is `SHIULBART_CUT_SHORT`.
///
/// ```
/// use shiulbart::RefusalKind;
///
/// assert_eq!(RefusalKind::CutShort.number(), 1);
/// assert_eq!(RefusalKind::from_number(18), Some(RefusalKind::NoSuchPart));
/// assert_eq!(RefusalKind::from_number(0), None);
/// ```
#[derive(Clone, Copy, Debug, PartialEq, Eq, PartialOrd, Ord, Hash)]
#[repr(u32)]
pub enum RefusalKind {
    /// Cut short. The place is that of a missing shape, the first byte of a shape that does not
    /// fit, or the place of the length of a text that does not fit.
    CutShort = 1,
    /// First byte not assigned. The place is that byte.
    NotAssigned = 2,
    /// Size does not match. The place is the shape's first byte; at the end, the first byte left
    /// over.
    SizeWrong = 3,
    /// LEB128 unfinished, over two bytes, or not shortest. The place is its first byte; if it is
    /// missing, where it should start.
    Leb128Wrong = 4,
    /// Text is not UTF-8. The place is the first byte of the text.
    NotUtf8 = 5,
    /// Long form where a short one exists. The place is the shape's first byte.
    LongForm = 6,
    /// Deeper than 16. The place is the shape's first byte.
    TooDeep = 7,
    /// Input over 2,048 bytes. The place is 2,048.
    InputTooLong = 8,
    /// Table section broken. The place is that of its count; for leftover bytes, the first.
    SectionBroken = 9,
    /// Table node broken. The place is the node.
    NodeBroken = 10,
    /// Table name broken. The place is the name's entry.
    NameBroken = 11,
    /// Lent buffer shorter than the answer. The place is the length needed.
    BufferShort = 12,
    /// Sheet broken (when joining: the first). The place is the entry, or the byte where a count or
    /// what is left over starts.
    SheetBroken = 13,
    /// Second sheet broken. The place is as for [`SheetBroken`](Self::SheetBroken).
    SecondBroken = 14,
    /// Made shape deeper than 16. The place is 0; when joining, the blank's number.
    MadeTooDeep = 15,
    /// Made shape over 2,048 bytes. The place is 0; when joining, the blank's number.
    MadeTooLong = 16,
    /// Joined sheet over 32 entries or 16,384 bytes. The place is how many there would be.
    JoinedTooLarge = 17,
    /// No such child or name. The place is how many there are.
    NoSuchPart = 18,
}

use RefusalKind::*;

impl RefusalKind {
    /// All kinds, in the order of their numbers.
    pub const ALL: [RefusalKind; 18] = [
        CutShort,
        NotAssigned,
        SizeWrong,
        Leb128Wrong,
        NotUtf8,
        LongForm,
        TooDeep,
        InputTooLong,
        SectionBroken,
        NodeBroken,
        NameBroken,
        BufferShort,
        SheetBroken,
        SecondBroken,
        MadeTooDeep,
        MadeTooLong,
        JoinedTooLarge,
        NoSuchPart,
    ];

    /// The number, 1 to 18.
    #[inline]
    pub const fn number(self) -> u32 {
        self as u32
    }

    /// The kind of a number, if it is 1 to 18.
    #[inline]
    pub fn from_number(number: u32) -> Option<RefusalKind> {
        let index = number.checked_sub(1)?;
        RefusalKind::ALL.get(index as usize).copied()
    }
}

/// Why a call gave no answer: what is wrong, and where.
///
/// It names itself in words. A place of [`MadeTooDeep`](RefusalKind::MadeTooDeep) and
/// [`MadeTooLong`](RefusalKind::MadeTooLong) is named only if it is not 0, because 0 may mean that
/// there is no blank to name.
///
/// ```
/// use shiulbart::{Refusal, RefusalKind};
///
/// let refusal = shiulbart::read(&[0x44, 2, 0, 1, 5]).unwrap_err();
/// assert_eq!(refusal, Refusal::new(RefusalKind::CutShort, 4));
/// assert_eq!(refusal.to_string(), "cut short at byte 4");
/// ```
#[derive(Clone, Copy, Debug, PartialEq, Eq, PartialOrd, Ord, Hash)]
pub struct Refusal {
    kind: RefusalKind,
    place: u32,
}

impl Refusal {
    /// A refusal of this kind at this place, as for what stands in for a call in a test.
    #[inline]
    pub const fn new(kind: RefusalKind, place: u32) -> Refusal {
        Refusal { kind, place }
    }

    /// The refusal that a call told.
    ///
    /// # Panics
    ///
    /// If the number is not 1 to 18: then the archive is not the one that this crate was written for.
    #[inline]
    pub(crate) fn told(answer: Answer) -> Refusal {
        match RefusalKind::from_number(answer.number) {
            Some(kind) => Refusal {
                kind,
                place: answer.place,
            },
            None => panic!("libboard.a gave the unknown number {}", answer.number),
        }
    }

    /// What is wrong.
    #[inline]
    pub const fn kind(&self) -> RefusalKind {
        self.kind
    }

    /// What is wrong, as a number, 1 to 18.
    #[inline]
    pub const fn number(&self) -> u32 {
        self.kind.number()
    }

    /// Where: a byte, a node, a name, an entry, a blank or a count, as the kind says. Bytes, nodes,
    /// names and entries are counted from 0.
    #[inline]
    pub const fn place(&self) -> u32 {
        self.place
    }
}

impl fmt::Display for Refusal {
    fn fmt(&self, f: &mut fmt::Formatter<'_>) -> fmt::Result {
        let place = self.place;
        match self.kind {
            CutShort => write!(f, "cut short at byte {place}"),
            NotAssigned => write!(f, "first byte not assigned at byte {place}"),
            SizeWrong => write!(f, "size does not match at byte {place}"),
            Leb128Wrong => {
                write!(
                    f,
                    "LEB128 unfinished, over two bytes or not shortest at byte {place}"
                )
            }
            NotUtf8 => write!(f, "text is not UTF-8 at byte {place}"),
            LongForm => write!(f, "long form where a short one exists at byte {place}"),
            TooDeep => write!(f, "deeper than 16 at byte {place}"),
            InputTooLong => write!(f, "input over 2,048 bytes"),
            SectionBroken => write!(f, "table section broken at byte {place}"),
            NodeBroken => write!(f, "table node {place} broken"),
            NameBroken => write!(f, "table name {place} broken"),
            BufferShort => {
                write!(
                    f,
                    "lent buffer shorter than the answer: the length needed is {place}"
                )
            }
            SheetBroken => write!(f, "sheet broken at entry or byte {place}"),
            SecondBroken => write!(f, "second sheet broken at entry or byte {place}"),
            MadeTooDeep => write!(f, "made shape deeper than 16{}", Blank(place)),
            MadeTooLong => write!(f, "made shape over 2,048 bytes{}", Blank(place)),
            JoinedTooLarge => {
                write!(
                    f,
                    "joined sheet over 32 entries or 16,384 bytes: there would be {place}"
                )
            }
            NoSuchPart => write!(f, "no such child or name: the count is {place}"),
        }
    }
}

impl Error for Refusal {}

/// ` at blank 40`, or nothing for 0.
struct Blank(u32);

impl fmt::Display for Blank {
    fn fmt(&self, f: &mut fmt::Formatter<'_>) -> fmt::Result {
        match self.0 {
            0 => Ok(()),
            number => write!(f, " at blank {number}"),
        }
    }
}
