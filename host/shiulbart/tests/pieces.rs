//! Reading in parts through the safe crate: always what `read` says of the parts joined, on the examples
//! and on every fault, however they are cut; and what comes before, between and after.

use shiulbart::{read, Accepted, Pieces, Refusal, RefusalKind};
use std::fs;
use std::io::{self, Read, Write};
use std::mem::size_of;
use std::path::Path;

/// M4 of the bench card: a Record of `a`, an Int, and `b`, an Array of Bool.
const M4: [u8; 10] = [0x42, 0x07, 0x00, 0x02, 0x01, 0x61, 0x20, 0x01, 0x62, 0x62];

/// A shape with a payload.
fn long(first: u8, payload: &[u8]) -> Vec<u8> {
    let size = (payload.len() as u16).to_le_bytes();
    [&[first], &size[..], payload].concat()
}

/// So many Arrays round a shape.
fn arrays(count: usize, inner: &[u8]) -> Vec<u8> {
    (0..count).fold(inner.to_vec(), |inner, _| long(0x40, &inner))
}

/// A Symbol of one text.
fn symbol(text: &[u8]) -> Vec<u8> {
    let length = text.len();
    let length = match length {
        0..=127 => vec![length as u8],
        _ => vec![length as u8 | 128, (length >> 7) as u8],
    };
    long(0x44, &[&[1], &length[..], text].concat())
}

/// The examples: for each the line that was written by hand from the rules, and its bytes.
fn examples() -> Vec<(String, Vec<u8>)> {
    let folder = Path::new(env!("CARGO_MANIFEST_DIR")).join("../../examples");
    let expected = fs::read_to_string(folder.join("expected")).unwrap();
    let bytes = |line: &str| fs::read(folder.join(file_of(line))).unwrap();
    expected
        .lines()
        .map(|line| (line.to_string(), bytes(line)))
        .collect()
}

fn file_of(line: &str) -> &str {
    line.split(' ').next().unwrap()
}

/// Inputs that are no example: a shape of every kind, a character of every length, and each fault deep
/// inside and at the end.
fn others() -> Vec<Vec<u8>> {
    let texts: [&[u8]; 9] = [
        "ü€🚡".as_bytes(),
        "ü€🚡".as_bytes().split_last().unwrap().1,
        &[0xC0, 0x80],
        &[0xC3, 0x28],
        &[0xE0, 0x80, 0x80],
        &[0xED, 0xA0, 0x80],
        &[0xF0, 0x80, 0x80, 0x80],
        &[0xF4, 0x90, 0x80, 0x80],
        &[0x80],
    ];
    let mut inputs: Vec<Vec<u8>> = texts.into_iter().map(symbol).collect();
    let record = long(
        0x42,
        &[&[2, 0][..], &symbol(b"up"), &[1, b'm', 0x76]].concat(),
    );
    let map = long(0x41, &[&record[..], &[0x45, 2, 0, 0xFF, 0xFF]].concat());
    let function = long(0x43, &[&[2, 0x1F][..], &map, &M4].concat());
    for place in 0..function.len() {
        for byte in [0x00, 0x20, 0x40, 0x44, 0x7E, 0x80, 0xFF] {
            let mut changed = function.clone();
            changed[place] = byte;
            inputs.push(changed);
        }
        inputs.push(function[..place].to_vec());
    }
    inputs.push([&function[..], &[0x20]].concat());
    inputs.push(function);
    inputs.push(long(
        0x43,
        &[&[0xC8, 0x01][..], &[5; 200], &[0x20]].concat(),
    ));
    inputs.push(long(0x43, &[&[0x80, 0x80, 0x01][..], &[5; 200]].concat()));
    inputs.push(arrays(16, &[0x00]));
    inputs
}

/// All of them, each with a name.
fn all() -> Vec<(String, Vec<u8>)> {
    let others = others().into_iter();
    let others = others.map(|bytes| (format!("{bytes:02X?}"), bytes));
    examples().into_iter().chain(others).collect()
}

/// A reader that was fed these parts.
fn fed<'a>(parts: impl IntoIterator<Item = &'a [u8]>) -> Pieces {
    let mut pieces = Pieces::new();
    parts.into_iter().for_each(|part| pieces.feed(part));
    pieces
}

#[test]
fn the_examples_as_they_are_expected() {
    let examples = examples();
    assert!(examples.len() >= 20);
    for (line, bytes) in examples {
        let file = file_of(&line);
        let told = match fed(bytes.chunks(3)).finish() {
            Ok(Accepted { length, depth }) => format!("{file} ok {length} {depth}"),
            Err(refusal) => format!("{file} no {} {}", refusal.number(), refusal.place()),
        };
        assert_eq!(told, line);
    }
}

#[test]
fn byte_by_byte_and_in_parts_of_each_length() {
    for (name, bytes) in all() {
        let whole = read(&bytes);
        for length in (1..=64).chain([100, 1000, 2047, 2048, 2049, 5000]) {
            let mut pieces = fed(bytes.chunks(length));
            assert_eq!(pieces.count(), bytes.len(), "{name}");
            assert_eq!(pieces.finish(), whole, "{name} in parts of {length}");
        }
    }
}

/// In two parts, one of which may be empty. The same bytes lead to the same state.
#[test]
fn every_cut_in_two() {
    for (name, bytes) in all() {
        let whole = read(&bytes);
        let at_once = fed([&bytes[..]]);
        for cut in 0..=bytes.len() {
            let (before, after) = bytes.split_at(cut);
            let mut pieces = fed([before, after]);
            assert_eq!(pieces, at_once, "{name} cut at {cut}");
            assert_eq!(pieces.finish(), whole, "{name} cut at {cut}");
        }
    }
}

/// A fault may be known long before the finish. Only the bytes up to it count.
#[test]
fn every_start_of_an_input() {
    for (name, bytes) in all() {
        let mut pieces = Pieces::new();
        for (length, byte) in bytes.iter().enumerate() {
            let start = pieces.clone().finish();
            assert_eq!(start, read(&bytes[..length]), "{name} up to {length}");
            pieces.feed(&[*byte]);
        }
        assert_eq!(pieces.finish(), read(&bytes), "{name}");
    }
}

#[test]
fn empty_parts_change_nothing() {
    let none: &[u8] = &[];
    for (name, bytes) in all() {
        let mut pieces = Pieces::new();
        for part in bytes.chunks(1) {
            let before = pieces.clone();
            pieces.feed(none);
            pieces.feed(&bytes[bytes.len()..]);
            assert_eq!(pieces, before, "{name}");
            pieces.feed(part);
            assert_ne!(pieces, before, "{name}");
        }
        pieces.feed(none);
        assert_eq!(pieces.finish(), read(&bytes), "{name}");
    }
}

#[test]
fn without_a_byte_it_is_cut_short() {
    let none = Err(Refusal::new(RefusalKind::CutShort, 0));
    assert_eq!(Pieces::new().finish(), none);
    assert_eq!(Pieces::default().finish(), none);
    assert_eq!(fed([&[][..], &[], &[]]).finish(), none);
    assert_eq!(Pieces::new(), Pieces::default());
}

#[test]
fn after_the_finish_nothing_changes() {
    for (name, bytes) in all() {
        let mut pieces = fed([&bytes[..]]);
        let answer = pieces.finish();
        let finished = pieces.clone();
        for part in [&[][..], &[0x20], &[0xA0], &M4, &[0; 5000]] {
            pieces.feed(part);
            assert_eq!(pieces, finished, "{name}");
            assert_eq!(pieces.finish(), answer, "{name}");
            assert_eq!(pieces, finished, "{name}");
        }
        assert_eq!(pieces.count(), bytes.len(), "{name}");
    }
    // from the very start
    let mut pieces = Pieces::new();
    let answer = pieces.finish();
    pieces.feed(&[0x20]);
    assert_eq!((pieces.finish(), pieces.count()), (answer, 0));
}

#[test]
fn a_copy_goes_its_own_way() {
    let (before, after) = M4.split_at(6);
    let mut pieces = fed([before]);
    let mut other = pieces.clone();
    assert_eq!(pieces, other);
    pieces.feed(after);
    other.feed(&[0xA0]);
    assert_ne!(pieces, other);
    other.feed(&after[1..]);
    assert_eq!(
        pieces.finish(),
        Ok(Accepted {
            length: 10,
            depth: 3
        })
    );
    assert_eq!(
        other.finish(),
        Err(Refusal::new(RefusalKind::NotAssigned, 6))
    );
}

#[test]
fn up_to_2048_bytes_and_over() {
    let longest = symbol(&[b'a'; 2042]);
    let mut pieces = fed([&longest[..]]);
    assert_eq!(pieces.count(), 2048);
    assert_eq!(pieces.clone().finish().unwrap().length, 2048);
    let too_long = Err(Refusal::new(RefusalKind::InputTooLong, 2048));
    for part in [&[0x20][..], &[0x20], &[0; 1 << 16], &[0; (1 << 16) - 1]] {
        pieces.feed(part);
        assert_eq!(pieces.count(), 2049);
        assert_eq!(pieces.clone().finish(), too_long);
    }
    assert_eq!(fed([&[0xA0; 2049][..]]).finish(), too_long);
    assert_eq!(fed([&vec![0; 1 << 20][..]]).finish(), too_long);
}

#[test]
fn bytes_and_levels_so_far() {
    let mut pieces = Pieces::new();
    assert_eq!((pieces.count(), pieces.levels()), (0, 0));
    let mut levels = Vec::new();
    for byte in M4 {
        pieces.feed(&[byte]);
        levels.push(pieces.levels());
    }
    assert_eq!(levels, [0, 0, 1, 1, 1, 1, 1, 1, 1, 0]);

    let deepest = arrays(16, &[0x00]);
    for open in 0..=16 {
        let pieces = fed([&deepest[..3 * open]]);
        assert_eq!((pieces.count(), pieces.levels()), (3 * open, open));
    }
    assert_eq!(fed([&deepest[..]]).levels(), 16);
}

/// A line that gives what it likes at a time, and breaks off now and then.
struct Line<'a> {
    rest: &'a [u8],
    turn: usize,
}

impl Read for Line<'_> {
    fn read(&mut self, part: &mut [u8]) -> io::Result<usize> {
        self.turn += 1;
        if self.turn % 3 == 2 {
            return Err(io::ErrorKind::Interrupted.into());
        }
        let length = self.rest.len().min(part.len()).min(self.turn % 5 + 1);
        let (now, later) = self.rest.split_at(length);
        part[..length].copy_from_slice(now);
        self.rest = later;
        Ok(length)
    }
}

#[test]
fn copied_from_a_line() {
    for (name, bytes) in all() {
        let mut line = Line {
            rest: &bytes,
            turn: 0,
        };
        let mut pieces = Pieces::new();
        let copied = io::copy(&mut line, &mut pieces).unwrap();
        assert_eq!(copied, bytes.len() as u64, "{name}");
        assert_eq!(pieces.count(), bytes.len(), "{name}");
        assert_eq!(pieces.finish(), read(&bytes), "{name}");
    }
}

#[test]
fn writes_take_all_and_never_fail() {
    let mut pieces = Pieces::new();
    assert_eq!(pieces.write(&M4[..4]).unwrap(), 4);
    assert_eq!(pieces.write(&[]).unwrap(), 0);
    pieces.flush().unwrap();
    pieces.write_all(&M4[4..]).unwrap();
    assert_eq!(pieces, fed([&M4[..]]));
    let answer = pieces.finish();
    assert_eq!(pieces.write(&[0; 5000]).unwrap(), 5000);
    write!(pieces, "too late").unwrap();
    assert_eq!(pieces.finish(), answer);
}

#[test]
fn at_most_512_bytes() {
    assert!(size_of::<Pieces>() <= 512);
}

#[test]
fn many_threads_at_once() {
    let longest = symbol(&[b'a'; 2042]);
    let started = fed([&longest[..1000]]);
    std::thread::scope(|scope| {
        for _ in 0..4 {
            let mut pieces = started.clone();
            let rest = &longest[1000..];
            scope.spawn(move || {
                rest.chunks(7).for_each(|part| pieces.feed(part));
                assert_eq!(pieces.finish().unwrap().length, 2048);
            });
        }
    });
}
