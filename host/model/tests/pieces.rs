//! The reader that is fed with parts.

mod common;

use common::{hex, no, Random};
use model::pieces::{read_parts, Accepted, Pieces};
use model::read::read;
use model::shape::encode;
use model::Refusal;

fn ok(length: usize, depth: u64) -> Result<Accepted, Refusal> {
    Ok(Accepted { length, depth })
}

/// The parts in hex, with `/` between them.
fn fed(text: &str) -> Result<Accepted, Refusal> {
    let parts: Vec<Vec<u8>> = text.split('/').map(hex).collect();
    let parts: Vec<&[u8]> = parts.iter().map(|part| &part[..]).collect();
    read_parts(&parts)
}

/// What the whole reader says, by its own function.
fn by_read(bytes: &[u8]) -> Result<Accepted, Refusal> {
    read(bytes).map(|shape| Accepted {
        length: bytes.len(),
        depth: shape.depth(),
    })
}

/// The bench card's encodings, cut somewhere.
#[test]
fn card() {
    let cases: &[(&str, Result<Accepted, Refusal>)] = &[
        ("20", ok(1, 1)),
        ("76", ok(1, 2)),
        ("40 01 / 00 20", no(6, 0)),
        ("42 07 00 02 01 / 61 20 / 01 62 62", ok(10, 3)),
        ("45 02 / 00 20 / 00", ok(5, 1)),
        ("45 / 02 00 1F 00", no(6, 0)),
        ("", no(1, 0)),
        ("20 / 20", no(3, 1)),
        ("43 02 00 / 00 20", ok(5, 2)),
        ("44 03 00 81 / 00 00", no(4, 3)),
        ("A0", no(2, 0)),
        ("44 02 00 / 01 05", no(1, 4)),
    ];
    for (parts, right) in cases {
        assert_eq!(fed(parts), *right, "{parts}");
    }
}

/// "parts of whatever length, also of none"
#[test]
fn parts_of_none() {
    assert_eq!(read_parts(&[]), no(1, 0));
    assert_eq!(read_parts(&[&[]]), no(1, 0));
    assert_eq!(fed("/ /"), no(1, 0));
    assert_eq!(fed("/ 20"), ok(1, 1));
    assert_eq!(fed("20 /"), ok(1, 1));
    assert_eq!(fed("/ 40 / / 01 00 / 00 / / /"), ok(4, 2));
}

/// What a part ends in the middle of goes on with the next: a size, a count, a character.
#[test]
fn cut_in_the_middle() {
    assert_eq!(fed("44 / 05 / 00 / 01 / 03 / E2 / 82 / AC"), ok(8, 1));
    assert_eq!(fed("44 05 00 01 03 E2 / 28 AC"), no(5, 5));
    assert_eq!(fed("44 05 00 01 03 ED / A0 80"), no(5, 5));
    let mut bytes = hex("44 83 00 01 80 01");
    bytes.extend([b'x'; 128]);
    assert_eq!(read_parts(&[&bytes[..5], &bytes[5..]]), ok(134, 1));
}

/// The reader's places, though the bytes that would decide them come after a part's end, or never.
#[test]
fn places_of_the_whole() {
    // "1 at the first byte if the size bytes or the payload pass the window"
    assert_eq!(fed("40"), no(1, 0));
    assert_eq!(fed("40 / 01"), no(1, 0));
    assert_eq!(fed("40 01 00 / "), no(1, 0));
    assert_eq!(fed("41 08 00 / 40 04 00 / 40"), no(1, 0));
    // and that comes before what the payload holds
    assert_eq!(fed("40 02 00 / FF"), no(1, 0));
    assert_eq!(fed("40 02 00 / FF / 00"), no(2, 3));
    assert_eq!(fed("44 05 00 / 81 00"), no(1, 0));
    // "8 comes first", "for the parts joined"
    let long = [0x20; 2_048];
    assert_eq!(read_parts(&[&long]), no(3, 1));
    assert_eq!(read_parts(&[&long, &[]]), no(3, 1));
    assert_eq!(read_parts(&[&long, &[0x20]]), no(8, 2_048));
    assert_eq!(read_parts(&[&[0xFF], &long]), no(8, 2_048));
    assert_eq!(read_parts(&[&long[..]; 40]), no(8, 2_048));
    assert_eq!(read_parts(&[&[0x20][..]; 65_537]), no(8, 2_048));
}

/// > A part given after the finish changes nothing and the finish repeats its answer.
#[test]
fn after_the_finish() {
    for (before, after) in [
        ("20", "20"),
        ("20", ""),
        ("", "20"),
        ("40 01 00", "00"),
        ("FF", "20"),
    ] {
        let mut pieces = Pieces::start();
        pieces.part(&hex(before));
        let right = by_read(&hex(before));
        assert_eq!(pieces.finish(), right);
        let finished = pieces.clone();
        assert_eq!(pieces.finish(), right);
        pieces.part(&hex(after));
        pieces.part(&[0; 3_000]);
        assert_eq!(pieces, finished);
        assert_eq!(pieces.finish(), right);
        assert_eq!(pieces, finished);
    }
}

/// Cut anywhere, "exactly as the whole reader does for the parts joined".
#[test]
fn random_parts() {
    let mut random = Random(203);
    for _ in 0..3_000 {
        let mut bytes = encode(&random.any_shape());
        if random.below(2) == 0 {
            bytes = random.spoiled(&bytes);
        }
        let right = by_read(&bytes);
        let mut parts = Vec::new();
        let mut rest = &bytes[..];
        while !rest.is_empty() || random.below(2) == 0 {
            let most = if random.below(2) == 0 { 4 } else { rest.len() };
            let (part, after) = rest.split_at(random.below(most.min(rest.len()) + 1));
            parts.push(part);
            rest = after;
        }
        assert_eq!(read_parts(&parts), right, "{parts:02X?}");
        let single: Vec<&[u8]> = bytes.chunks(1).collect();
        assert_eq!(read_parts(&single), right, "{bytes:02X?}");
    }
}
