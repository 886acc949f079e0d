//! Sheets through the safe crate: sound ones, and each rule of 13 in its order.

use shiulbart::{sheet, Refusal, RefusalKind, SheetSize};

/// M13's sheet: blank 0 as Int.
const M13: [u8; 9] = [0x01, 0x00, 0x00, 0x00, 0x01, 0x00, 0x01, 0x00, 0x20];

const INT: [u8; 1] = [0x20];
const RECORD: [u8; 10] = [0x42, 7, 0, 2, 1, b'a', 0x20, 1, b'b', 0x62];
const LONG_FORM: [u8; 4] = [0x40, 1, 0, 0x20];

/// A sheet before it is bytes. Each part of it may be wrong.
#[derive(Clone)]
struct Sheet {
    count: usize,
    entries: Vec<(usize, usize)>,
    total: usize,
    encodings: Vec<u8>,
}

impl Sheet {
    /// The sheet that has these encodings for these blanks.
    fn of(blanks: &[(usize, &[u8])]) -> Sheet {
        let encodings = blanks.iter().map(|(_, own)| *own).collect::<Vec<_>>();
        let encodings = encodings.concat();
        Sheet {
            count: blanks.len(),
            entries: blanks
                .iter()
                .map(|(blank, own)| (*blank, own.len()))
                .collect(),
            total: encodings.len(),
            encodings,
        }
    }

    /// So many entries of Int, for the blanks from 0 on.
    fn ints(count: usize) -> Sheet {
        let blanks: Vec<(usize, &[u8])> = (0..count).map(|blank| (blank, &INT[..])).collect();
        Sheet::of(&blanks)
    }

    fn bytes(&self) -> Vec<u8> {
        let entries = self
            .entries
            .iter()
            .flat_map(|&(blank, length)| [blank, length]);
        let head = [self.count].into_iter().chain(entries).chain([self.total]);
        let mut bytes: Vec<u8> = head
            .flat_map(|number| (number as u16).to_le_bytes())
            .collect();
        bytes.extend(&self.encodings);
        bytes
    }

    fn changed(mut self, change: impl Fn(&mut Sheet)) -> Sheet {
        change(&mut self);
        self
    }

    #[track_caller]
    fn is_sound(&self) {
        let size = SheetSize {
            entries: self.count,
            encodings: self.total,
        };
        assert_eq!(sheet(&self.bytes()), Ok(size));
    }

    #[track_caller]
    fn is_broken(&self, place: usize) {
        broken(&self.bytes(), place);
    }
}

#[track_caller]
fn broken(bytes: &[u8], place: usize) {
    let refusal = Refusal::new(RefusalKind::SheetBroken, place as u32);
    assert_eq!(sheet(bytes), Err(refusal));
}

/// A Symbol of one text that takes so many bytes, at least 134.
fn symbol(bytes: usize) -> Vec<u8> {
    let letters = bytes - 6;
    let mut symbol = vec![0x44, (bytes - 3) as u8, ((bytes - 3) >> 8) as u8, 1];
    symbol.extend([letters as u8 | 128, (letters >> 7) as u8]);
    symbol.resize(bytes, b'a');
    symbol
}

/// Three entries, of 1, 10 and 1 bytes: the second count is at 14.
fn three() -> Sheet {
    Sheet::of(&[(2, &INT), (40, &RECORD), (65_535, &INT)])
}

#[test]
fn m13_and_m14() {
    assert_eq!(Sheet::of(&[(0, &INT)]).bytes(), M13);
    Sheet::of(&[(0, &INT)]).is_sound();
    Sheet::of(&[(0, &[0x01])]).is_sound();
    Sheet::of(&[(1, &INT)]).is_sound();
    Sheet::ints(2).is_sound();
}

#[test]
fn the_empty_sheet() {
    assert_eq!(Sheet::ints(0).bytes(), [0, 0, 0, 0]);
    Sheet::ints(0).is_sound();
    for cut in 0..2 {
        broken(&[0; 4][..cut], 0);
    }
    for cut in 2..4 {
        broken(&[0; 4][..cut], 2);
    }
    broken(&[0; 5], 4);
    broken(&[0, 0, 1, 0], 2);
    broken(&[0, 0, 1, 0, 0x20], 2);
}

#[test]
fn sound_sheets() {
    three().is_sound();
    let size = SheetSize {
        entries: 3,
        encodings: 12,
    };
    assert_eq!(sheet(&three().bytes()), Ok(size));
    for count in 0..=32 {
        Sheet::ints(count).is_sound();
    }
}

#[test]
fn up_to_32_entries() {
    Sheet::ints(32).is_sound();
    Sheet::ints(33).is_broken(0);
    for count in [256, 257, 32 * 256, 65_535] {
        Sheet::ints(0)
            .changed(|sheet| sheet.count = count)
            .is_broken(0);
        Sheet::ints(32)
            .changed(|sheet| sheet.count = count)
            .is_broken(0);
    }
    // over 32 is wrong even where all is there
    let many = vec![0; 65_536 * 5];
    let mut many = [vec![33, 0], many].concat();
    broken(&many, 0);
    many[0] = 32;
    // entry 0 has the length 0
    broken(&many, 0);
}

#[test]
fn entries_past_the_end() {
    let bytes = Sheet::ints(32).bytes();
    for cut in 0..2 + 4 * 32 {
        broken(&bytes[..cut], 0);
    }
    // where the entries themselves are wrong as well
    let falling = three().changed(|sheet| sheet.entries[1].0 = 1).bytes();
    broken(&falling[..13], 0);
    broken(&falling[..14], 1);
}

#[test]
fn equal_and_falling_numbers() {
    three().changed(|sheet| sheet.entries[1].0 = 2).is_broken(1);
    three().changed(|sheet| sheet.entries[1].0 = 1).is_broken(1);
    three().changed(|sheet| sheet.entries[1].0 = 3).is_sound();
    three()
        .changed(|sheet| sheet.entries[1].0 = 65_535)
        .is_broken(2);
    three()
        .changed(|sheet| sheet.entries[2].0 = 40)
        .is_broken(2);
    three().changed(|sheet| sheet.entries[2].0 = 41).is_sound();
    // the high byte counts more
    three()
        .changed(|sheet| sheet.entries[2].0 = 0x0100)
        .is_sound();
    Sheet::of(&[(0x00FF, &INT), (0x0100, &INT)]).is_sound();
    Sheet::of(&[(0x0100, &INT), (0x00FF, &INT)]).is_broken(1);
    // the first may be any, and each is compared with the one before it
    Sheet::of(&[(65_535, &INT)]).is_sound();
    Sheet::of(&[(65_535, &INT), (0, &INT)]).is_broken(1);
    for entry in 1..32 {
        Sheet::ints(32)
            .changed(|sheet| sheet.entries[entry].0 -= 1)
            .is_broken(entry);
    }
}

#[test]
fn lengths_from_1_to_2048() {
    let longest = symbol(2048);
    Sheet::of(&[(0, &longest)]).is_sound();
    Sheet::of(&[(0, &INT), (1, &longest)]).is_sound();
    Sheet::of(&[(0, &symbol(2049))]).is_broken(0);
    Sheet::of(&[(0, &INT), (1, &symbol(2049))]).is_broken(1);
    Sheet::of(&[(0, &[])]).is_broken(0);
    Sheet::of(&[(0, &INT), (1, &[]), (2, &INT)]).is_broken(1);
    for length in [0, 2049, 2050, 4096, 32_768, 65_535] {
        // the second count is wrong, too
        three()
            .changed(|sheet| sheet.entries[2].1 = length)
            .is_broken(2);
    }
}

#[test]
fn entries_are_checked_one_by_one() {
    // a bad length before a number that does not rise, and the other way round
    let sheet = three().changed(|sheet| sheet.entries[0].1 = 0);
    sheet.changed(|sheet| sheet.entries[1].0 = 2).is_broken(0);
    let sheet = three().changed(|sheet| sheet.entries[1].0 = 2);
    sheet.changed(|sheet| sheet.entries[2].1 = 0).is_broken(1);
}

#[test]
fn the_second_count_is_the_sum() {
    for total in [0, 11, 13, 12 + 256, 16_384, 16_385, 65_535] {
        three().changed(|sheet| sheet.total = total).is_broken(14);
    }
    // as many bytes as the second count says
    let longer = three().changed(|sheet| sheet.encodings.push(0x20));
    longer.changed(|sheet| sheet.total = 13).is_broken(14);
    // as many bytes as the lengths say
    let longer = three().changed(|sheet| sheet.entries[0].1 = 2);
    longer
        .changed(|sheet| sheet.encodings.push(0x20))
        .is_broken(14);
    // 32 times 2,048 is 65,536, whose low two bytes are 0
    let longest = symbol(2048);
    let blanks: Vec<(usize, &[u8])> = (0..32).map(|blank| (blank, &longest[..])).collect();
    let sheet = Sheet::of(&blanks);
    assert_eq!(sheet.bytes()[130..132], [0, 0]);
    sheet.is_broken(130);
    sheet
        .changed(|sheet| sheet.encodings.clear())
        .is_broken(130);
}

#[test]
fn up_to_16384_bytes() {
    let (half, longest) = (symbol(1024), symbol(2048));
    let mut blanks: Vec<(usize, &[u8])> = (0..8).map(|blank| (blank, &longest[..])).collect();
    Sheet::of(&blanks).is_sound();
    assert_eq!(
        sheet(&Sheet::of(&blanks).bytes()).unwrap().encodings,
        16_384
    );
    blanks.push((8, &INT));
    assert_eq!(Sheet::of(&blanks).total, 16_385);
    Sheet::of(&blanks).is_broken(2 + 4 * 9);
    blanks[0].1 = &half;
    Sheet::of(&blanks).is_sound();
    let eighth = symbol(512);
    let blanks: Vec<(usize, &[u8])> = (0..32).map(|blank| (blank, &eighth[..])).collect();
    Sheet::of(&blanks).is_sound();
}

#[test]
fn leftover_bytes() {
    for more in [1, 2, 1000, 70_000] {
        let longer = three().changed(|sheet| sheet.encodings.resize(12 + more, 0x20));
        longer.is_broken(16 + 12);
        broken(&[&M13[..], &vec![0; more]].concat(), 9);
    }
    // before an encoding that is bad
    let sheet = Sheet::of(&[(0, &[0xFF])]);
    sheet.changed(|sheet| sheet.encodings.push(0)).is_broken(9);
}

#[test]
fn a_bad_encoding() {
    let deep: Vec<u8> = (0..15).fold(vec![0x60], |inner, _| {
        [&[0x40, inner.len() as u8, 0][..], &inner].concat()
    });
    for bad in [
        &[0xFF][..],
        &[0x40, 1, 0],
        &[0x20, 0x20],
        &[0x44, 3, 0, 0x81, 0, 0],
        &[0x44, 3, 0, 1, 1, 0xFF],
        &LONG_FORM,
        &deep,
    ] {
        Sheet::of(&[(0, bad)]).is_broken(0);
        Sheet::of(&[(0, bad), (1, &INT)]).is_broken(0);
        Sheet::of(&[(0, &INT), (1, bad)]).is_broken(1);
        Sheet::of(&[(0, &INT), (1, &RECORD), (2, bad), (3, bad)]).is_broken(2);
    }
    for entry in 0..32 {
        Sheet::ints(32)
            .changed(|sheet| sheet.encodings[entry] = 0xA0)
            .is_broken(entry);
    }
}

/// Together the encodings are as long as they should be, but each is read in its own bytes.
#[test]
fn an_encoding_ends_where_its_length_says() {
    three()
        .changed(|sheet| (sheet.entries[0].1, sheet.entries[1].1) = (2, 9))
        .is_broken(0);
    three()
        .changed(|sheet| (sheet.entries[1].1, sheet.entries[2].1) = (9, 2))
        .is_broken(1);
}

#[test]
fn cut_at_every_offset() {
    for sheet in [Sheet::of(&[(0, &INT)]), three(), Sheet::ints(32)] {
        let second_count = 2 + 4 * sheet.count;
        let bytes = sheet.bytes();
        for cut in 0..bytes.len() {
            let place = if cut < second_count { 0 } else { second_count };
            broken(&bytes[..cut], place);
        }
    }
}

#[test]
fn empty_slices_of_every_origin() {
    broken(&[], 0);
    broken(&Vec::new(), 0);
    broken(&M13[9..], 0);
    broken(Default::default(), 0);
}

#[test]
fn a_part_of_a_slice_is_checked_alone() {
    let bytes = [&[0xFF][..], &M13, &[0xFF]].concat();
    assert_eq!(sheet(&bytes[1..10]), sheet(&M13));
    assert!(sheet(&M13).is_ok());
}

#[test]
fn many_threads_at_once() {
    let bytes = Sheet::ints(32).bytes();
    std::thread::scope(|scope| {
        for _ in 0..4 {
            scope.spawn(|| {
                for _ in 0..1000 {
                    assert!(sheet(&bytes).is_ok());
                    broken(&bytes[..131], 130);
                }
            });
        }
    });
}
