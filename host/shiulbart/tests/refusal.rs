//! The refusal as a Rust value: its numbers, its words and its traits.

use shiulbart::{Refusal, RefusalKind};
use std::error::Error;
use RefusalKind::*;

/// Every kind, its number, and its words at a place.
const WORDS: [(RefusalKind, u32, u32, &str); 18] = [
    (CutShort, 1, 4, "cut short at byte 4"),
    (NotAssigned, 2, 0, "first byte not assigned at byte 0"),
    (SizeWrong, 3, 1, "size does not match at byte 1"),
    (
        Leb128Wrong,
        4,
        3,
        "LEB128 unfinished, over two bytes or not shortest at byte 3",
    ),
    (NotUtf8, 5, 5, "text is not UTF-8 at byte 5"),
    (
        LongForm,
        6,
        0,
        "long form where a short one exists at byte 0",
    ),
    (TooDeep, 7, 45, "deeper than 16 at byte 45"),
    (InputTooLong, 8, 2048, "input over 2,048 bytes"),
    (SectionBroken, 9, 26, "table section broken at byte 26"),
    (NodeBroken, 10, 3, "table node 3 broken"),
    (NameBroken, 11, 1, "table name 1 broken"),
    (
        BufferShort,
        12,
        54,
        "lent buffer shorter than the answer: the length needed is 54",
    ),
    (SheetBroken, 13, 6, "sheet broken at entry or byte 6"),
    (
        SecondBroken,
        14,
        0,
        "second sheet broken at entry or byte 0",
    ),
    (MadeTooDeep, 15, 40, "made shape deeper than 16 at blank 40"),
    (
        MadeTooLong,
        16,
        40,
        "made shape over 2,048 bytes at blank 40",
    ),
    (
        JoinedTooLarge,
        17,
        33,
        "joined sheet over 32 entries or 16,384 bytes: there would be 33",
    ),
    (NoSuchPart, 18, 2, "no such child or name: the count is 2"),
];

#[test]
fn each_number_is_named_once() {
    for (index, (kind, number, ..)) in WORDS.into_iter().enumerate() {
        assert_eq!(RefusalKind::ALL[index], kind);
        assert_eq!(kind.number(), number);
        assert_eq!(number as usize, index + 1);
        assert_eq!(RefusalKind::from_number(number), Some(kind));
    }
    assert_eq!(RefusalKind::from_number(0), None);
    assert_eq!(RefusalKind::from_number(19), None);
    assert_eq!(RefusalKind::from_number(u32::MAX), None);
}

#[test]
fn each_refusal_names_itself_in_words() {
    for (kind, number, place, words) in WORDS {
        let refusal = Refusal::new(kind, place);
        assert_eq!(
            (refusal.kind(), refusal.number(), refusal.place()),
            (kind, number, place)
        );
        assert_eq!(refusal.to_string(), words);
    }
}

#[test]
fn no_blank_is_named_at_place_0() {
    assert_eq!(
        Refusal::new(MadeTooDeep, 0).to_string(),
        "made shape deeper than 16"
    );
    assert_eq!(
        Refusal::new(MadeTooLong, 0).to_string(),
        "made shape over 2,048 bytes"
    );
}

#[test]
fn the_reader_refuses_in_words() {
    let said = |bytes: &[u8]| shiulbart::read(bytes).unwrap_err().to_string();
    assert_eq!(said(&[0x44, 2, 0, 1, 5]), "cut short at byte 4");
    assert_eq!(said(&[0; 5000]), "input over 2,048 bytes");
}

#[test]
fn a_refusal_is_an_error_that_threads_can_share() {
    fn is_shared_error<T: Error + Send + Sync + 'static>() {}
    is_shared_error::<Refusal>();

    let boxed: Box<dyn Error + Send + Sync> = Refusal::new(SizeWrong, 1).into();
    assert_eq!(boxed.to_string(), "size does not match at byte 1");
    assert!(boxed.source().is_none());
    assert_eq!(boxed.downcast_ref(), Some(&Refusal::new(SizeWrong, 1)));
}
