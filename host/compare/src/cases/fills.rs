//! Inputs for `fill` and `join`: templates and sheets that share blanks, so that something is put in;
//! made shapes and sheets at the limits and over them; and inputs in which something is broken.

use super::sheets::{
    blanks, equal, several_broken, sound, symbol_of, Sheet, SheetInputs, MAX_ENCODINGS, MAX_ENTRIES,
};
use super::{
    any_tree, changed, encode, function, in_levels, leb128, long, nested, short, Inputs, Slip,
    Tree, ARRAY, MAP, MAX_BYTES, RECORD, VARIABLE,
};
use crate::fast::{self, fill::measured};
use crate::random::Random;

/// Two inputs: a template and a sheet, or two sheets.
type Two = (Vec<u8>, Vec<u8>);

// -------------------------------------------------------------------------------------------------
// Shapes and sheets that share blanks

/// Numbers of blanks, rising. Many have the low byte of another, or are next to one.
fn shared_blanks(random: &mut Random, most: usize) -> Vec<u16> {
    const TELLING: [u16; 16] = [
        0, 1, 2, 30, 31, 32, 33, 34, 255, 256, 257, 287, 288, 512, 65_534, 65_535,
    ];
    let count = random.between(1, most);
    match random.below(4) {
        0 => (0..count as u16).collect(),
        1 => blanks(random, count),
        _ => {
            let mut some: Vec<u16> = (0..count).map(|_| random.pick(&TELLING)).collect();
            some.sort();
            some.dedup();
            some
        }
    }
}

/// The encoding of a blank.
fn blank(number: u16) -> Vec<u8> {
    match number {
        0..=31 => vec![number as u8],
        _ => long(VARIABLE, &number.to_le_bytes()),
    }
}

/// Puts other numbers for the blanks of a shape: mostly of the shared ones.
fn renumber(random: &mut Random, tree: &mut Tree, shared: &[u16]) {
    match tree {
        Tree::Variable(number) if !random.once_in(5) => *number = random.pick(shared),
        Tree::Array(element) => renumber(random, element, shared),
        Tree::Map(pair) => pair
            .iter_mut()
            .for_each(|tree| renumber(random, tree, shared)),
        Tree::Record(fields) => fields
            .iter_mut()
            .for_each(|(_, tree)| renumber(random, tree, shared)),
        Tree::Function(list) => list
            .iter_mut()
            .for_each(|tree| renumber(random, tree, shared)),
        _ => (),
    }
}

/// A shape of up to about so many bytes, with shared blanks. It may be too long or too deep.
fn shape(random: &mut Random, most: usize, shared: &[u16]) -> Vec<u8> {
    let mut tree = any_tree(random, most);
    renumber(random, &mut tree, shared);
    encode(&tree, Slip::None, random)
}

/// An accepted shape for an entry: often of one byte, or a blank.
fn own(random: &mut Random, most: usize, shared: &[u16]) -> Vec<u8> {
    match random.below(8) {
        0..=2 => {
            let tree = short(random, 2);
            encode(&tree, Slip::None, random)
        }
        3 if most >= 5 => blank(random.pick(shared)),
        _ => loop {
            let bytes = shape(random, most, shared);
            if bytes.len() <= most && fast::read::<0>(&bytes).is_ok() {
                return bytes;
            }
        },
    }
}

/// A sound sheet that names most of the shared blanks, with shapes of up to so many bytes.
fn sheet(random: &mut Random, most: usize, shared: &[u16]) -> Vec<u8> {
    let mut blanks: Vec<u16> = shared.to_vec();
    blanks.retain(|_| !random.once_in(4));
    blanks.truncate(MAX_ENTRIES);
    let mut left = MAX_ENCODINGS;
    let mut owns = Vec::new();
    for others in (0..blanks.len()).rev() {
        let own = own(random, most.min(left - others), shared);
        left -= own.len();
        owns.push(own);
    }
    sheet_of(&blanks, &owns)
}

fn sheet_of(blanks: &[u16], owns: &[Vec<u8>]) -> Vec<u8> {
    let owns = owns.iter().map(|own| &own[..]);
    Sheet::of(blanks.iter().copied().zip(owns)).bytes()
}

/// A size for the shapes of a sheet.
fn size(random: &mut Random) -> usize {
    random.pick(&[1, 5, 5, 20, 20, 100, 500, MAX_BYTES])
}

/// An accepted shape of which something too deep or too long is made, or nearly, once two blanks are
/// filled: one with a few levels, and one with many bytes.
fn hard(random: &mut Random, deep: u16, wide: u16) -> Vec<u8> {
    loop {
        let levels = random.between(11, 14);
        let only_arrays = random.once_in(2);
        let count = random.pick(&[1, 2, 20, 200]);
        let function = function(count, &blank(wide).repeat(count), &[0x20]);
        let bytes = match random.below(6) {
            0 => in_levels(random, &blank(deep), levels + 1, only_arrays),
            1 => function,
            2 => blank(wide),
            3 => vec![0x20],
            _ => {
                let deep = in_levels(random, &blank(deep), levels, only_arrays);
                long(MAP, &[deep, function].concat())
            }
        };
        if fast::read::<0>(&bytes).is_ok() {
            return bytes;
        }
    }
}

/// What is put for the two blanks of `hard`.
fn for_hard(random: &mut Random) -> [Vec<u8>; 2] {
    let levels = random.below(4);
    let deep = nested(
        levels,
        &[random.pick(&[0x20, 0x60, 0x05])],
        |inner| match inner {
            [byte @ 32..=36] => vec![byte + 64],
            _ => long(ARRAY, inner),
        },
    );
    let bytes = random.pick(&[5, 9, 80, 130, 700, MAX_BYTES]);
    [deep, symbol_of(bytes)]
}

// -------------------------------------------------------------------------------------------------
// Inputs for fill

/// Generated inputs for `fill`, without end.
pub struct FillInputs {
    random: Random,
    templates: Inputs,
    sheets: SheetInputs,
}

impl FillInputs {
    pub fn new(seed: u64) -> FillInputs {
        FillInputs {
            random: Random::new(seed),
            templates: Inputs::new(seed.wrapping_add(1)),
            sheets: SheetInputs::new(seed.wrapping_add(2)),
        }
    }
}

impl Iterator for FillInputs {
    type Item = Two;

    fn next(&mut self) -> Option<Two> {
        let random = &mut self.random;
        let shared = shared_blanks(random, 12);
        let size = size(random);
        Some(match random.below(32) {
            0..=12 => (
                shape(random, MAX_BYTES, &shared),
                sheet(random, size, &shared),
            ),
            13..=15 => at_the_last_level(random, &shared),
            16 | 17 => at_the_last_byte(random, &shared),
            18..=20 => {
                let (deep, wide) = (1, random.pick(&[2, 31, 32, 288]));
                let owns = for_hard(random);
                (hard(random, deep, wide), sheet_of(&[deep, wide], &owns))
            }
            21..=25 => (self.templates.next()?, sheet(random, size, &shared)),
            26 => {
                let template = shape(random, 100, &shared);
                (changed(random, &template), sheet(random, size, &shared))
            }
            27 | 28 => (shape(random, 100, &shared), several_broken(random)),
            29 => (shape(random, 100, &shared), self.sheets.next()?),
            30 => (shape(random, MAX_BYTES, &shared), sound(random).bytes()),
            _ => (self.templates.next()?, several_broken(random)),
        })
    }
}

/// Levels round a blank that is filled with more levels, 14 to 17 of them in all.
fn at_the_last_level(random: &mut Random, shared: &[u16]) -> Two {
    let number = random.pick(shared);
    let levels = random.between(0, 15);
    let more = (random.between(14, 17) - levels.min(14)).min(14);
    let only_arrays = random.once_in(2);
    let template = in_levels(random, &blank(number), levels, only_arrays);
    let only_arrays = random.once_in(2);
    let inner = random.pick(&[&[0x20][..], &[0x60], &[0x05], &[0x42, 1, 0, 0]]);
    let mut own = in_levels(random, inner, more, only_arrays);
    if fast::read::<0>(&own).is_err() {
        own = nested(more, &[0x05], |inner| long(ARRAY, inner));
    }
    let others = [0x20, 0x60, 0x05].map(|byte| vec![byte]);
    let mut sheet = vec![(number, own)];
    if number != 1 && random.once_in(2) {
        sheet.push((
            1,
            random.pick(&[&others[0], &others[1], &others[2]]).clone(),
        ));
    }
    sheet.sort();
    let (blanks, owns): (Vec<u16>, Vec<Vec<u8>>) = sheet.into_iter().unzip();
    (template, sheet_of(&blanks, &owns))
}

/// A template with a long name, so that 2,046 to 2,050 bytes are made of it.
fn at_the_last_byte(random: &mut Random, shared: &[u16]) -> Two {
    loop {
        let size = size(random);
        let (inner, sheet) = (shape(random, 500, shared), sheet(random, size, shared));
        let made = match measured(&inner, &sheet) {
            Some((length, depth)) if length <= 1800 && depth < 16 => length,
            _ => continue,
        };
        let length = random.pick(&[2046, 2047, 2048, 2048, 2048, 2049, 2049, 2050]);
        let name = vec![b'n'; length - 6 - made];
        let payload = [vec![1], leb128(name.len()), name, inner].concat();
        return (long(RECORD, &payload), sheet);
    }
}

// -------------------------------------------------------------------------------------------------
// Inputs for join

/// Generated inputs for `join`, without end.
pub struct JoinInputs {
    random: Random,
    sheets: SheetInputs,
}

impl JoinInputs {
    pub fn new(seed: u64) -> JoinInputs {
        JoinInputs {
            random: Random::new(seed),
            sheets: SheetInputs::new(seed.wrapping_add(2)),
        }
    }
}

impl Iterator for JoinInputs {
    type Item = Two;

    fn next(&mut self) -> Option<Two> {
        let random = &mut self.random;
        let shared = shared_blanks(random, 20);
        let any = |random: &mut Random| {
            let size = size(random);
            sheet(random, size, &shared)
        };
        Some(match random.below(32) {
            0..=11 => (any(random), any(random)),
            12 => last_byte_of_an_entry(random, &shared),
            13..=15 => many_entries(random),
            16..=18 => many_bytes(random),
            19..=22 => hard_entries(random),
            23 | 24 => (several_broken(random), any(random)),
            25 | 26 => (any(random), several_broken(random)),
            27 => (several_broken(random), several_broken(random)),
            28 => (self.sheets.next()?, any(random)),
            29 => (any(random), self.sheets.next()?),
            30 => (sound(random).bytes(), any(random)),
            _ => (sound(random).bytes(), sound(random).bytes()),
        })
    }
}

/// A first sheet with a shape of which 2,046 to 2,050 bytes are made.
fn last_byte_of_an_entry(random: &mut Random, shared: &[u16]) -> Two {
    let (template, second) = at_the_last_byte(random, shared);
    let first = Sheet::of([(random.pick(shared), &template[..])]);
    (first.bytes(), second)
}

/// Two sheets that name about 32 blanks together, some of them both.
fn many_entries(random: &mut Random) -> Two {
    let wanted = random.pick(&[30, 31, 32, 32, 32, 33, 33, 34, 48, 64]);
    let mut all = blanks(random, wanted.min(MAX_ENTRIES));
    all.extend(blanks(random, wanted.saturating_sub(MAX_ENTRIES)));
    all.sort();
    all.dedup();
    let least = all.len().saturating_sub(MAX_ENTRIES);
    let firsts = random.between(least, all.len().min(MAX_ENTRIES));
    let mut of_first: Vec<bool> = (0..all.len()).map(|i| i < firsts).collect();
    if random.once_in(2) {
        (0..all.len()).for_each(|i| of_first.swap(i, random.below(i + 1)));
    }
    let [first, mut second] = [true, false].map(|wanted| {
        let of = all.iter().zip(&of_first);
        of.filter(|(_, of)| **of == wanted)
            .map(|(blank, _)| *blank)
            .collect::<Vec<u16>>()
    });
    // both name these
    for &blank in &first {
        if second.len() < MAX_ENTRIES && random.once_in(3) {
            second.push(blank);
        }
    }
    second.sort();
    let most = random.pick(&[1, 5, 5, 100]);
    let [first, second] = [first, second].map(|blanks| {
        let owns: Vec<Vec<u8>> = blanks.iter().map(|_| own(random, most, &all)).collect();
        sheet_of(&blanks, &owns)
    });
    (first, second)
}

/// Two sheets that make 16,383 to 16,385 bytes together, or more.
fn many_bytes(random: &mut Random) -> Two {
    let total = match random.below(8) {
        0..=5 => random.pick(&[16_383, 16_384, 16_384, 16_384, 16_385, 16_385]),
        _ => random.between(MAX_ENCODINGS, 40_000),
    };
    // the second has one long shape, and the first has its blank several times
    let length = random.between(900, MAX_BYTES);
    let times = random.between(1, (total / length - 2).min(20));
    let mut left = total - (times + 1) * length;
    let number = random.pick(&[31, 40, 1000]);
    let mut firsts: Vec<(u16, Vec<u8>)> =
        (0..times as u16).map(|i| (2 * i, blank(number))).collect();
    let mut seconds = vec![(number, symbol_of(length))];
    let mut next = 2000;
    while left > 0 {
        let own = match left {
            0..=4 => left.min(1),
            5..=MAX_BYTES => left,
            _ => (left - 5).min(MAX_BYTES),
        };
        let shape = if own < 5 { vec![0x20] } else { symbol_of(own) };
        let in_second = firsts.iter().map(|(_, own)| own.len()).sum::<usize>() > 12_000;
        let to = if in_second { &mut seconds } else { &mut firsts };
        to.push((next, shape));
        left -= own;
        next += 1;
    }
    let [first, second] = [firsts, seconds].map(|mut entries| {
        entries.sort();
        entries.truncate(MAX_ENTRIES);
        let (blanks, owns): (Vec<u16>, Vec<Vec<u8>>) = entries.into_iter().unzip();
        sheet_of(&blanks, &owns)
    });
    (first, second)
}

/// A first sheet whose shapes get too deep or too long when they are filled, some of them.
fn hard_entries(random: &mut Random) -> Two {
    let (deep, wide) = random.pick(&[(1, 2), (1, 40), (0, 300), (40, 41)]);
    let count = random.pick(&[1, 2, 2, 3, 3, 8]);
    let firsts = blanks(random, count);
    let owns: Vec<Vec<u8>> = firsts.iter().map(|_| hard(random, deep, wide)).collect();
    let [for_deep, for_wide] = for_hard(random);
    let mut seconds = vec![(deep, for_deep), (wide, for_wide)];
    // now and then so many that 17 comes first
    if random.once_in(6) {
        let most = MAX_ENTRIES as u16 - 2;
        seconds
            .extend((0..random.between(28, most as usize) as u16).map(|i| (500 + i, vec![0x20])));
    }
    let (blanks, for_them): (Vec<u16>, Vec<Vec<u8>>) = seconds.into_iter().unzip();
    (sheet_of(&firsts, &owns), sheet_of(&blanks, &for_them))
}

// -------------------------------------------------------------------------------------------------
// Chains

/// A template and three sheets that share blanks, without end.
pub struct Chains {
    random: Random,
}

impl Chains {
    pub fn new(seed: u64) -> Chains {
        Chains {
            random: Random::new(seed.wrapping_add(3)),
        }
    }
}

impl Iterator for Chains {
    type Item = [Vec<u8>; 4];

    fn next(&mut self) -> Option<[Vec<u8>; 4]> {
        let random = &mut self.random;
        let shared = shared_blanks(random, 10);
        let sizes = [(); 3].map(|_| random.pick(&[1, 5, 8, 20, 40, 200]));
        let [a, b, c] = sizes.map(|size| sheet(random, size, &shared));
        let most = random.pick(&[20, 100, 500]);
        Some([shape(random, most, &shared), a, b, c])
    }
}

// -------------------------------------------------------------------------------------------------
// Fixed ones

const INT: &[u8] = &[0x20];
const EMPTY: [u8; 4] = [0; 4];

/// The inputs for `fill` that are always among the cases.
pub fn always_fill() -> Vec<Two> {
    let sheet = |blanks: &[(u16, &[u8])]| Sheet::of(blanks.iter().copied()).bytes();
    let arrays = function(500, &[0x40, 1, 0, 0].repeat(500), INT);
    let forty: &[u8] = &[VARIABLE, 2, 0, 40, 0];
    let swap = sheet(&[(0, &[1]), (1, &[0])]);
    let mut inputs = vec![
        // M12 and M13, and the slip of the 500 Arrays
        (vec![0x41, 2, 0, 0, 1], swap.clone()),
        (vec![0x40, 1, 0, 0], equal(1, INT)),
        (arrays.clone(), sheet(&[(0, forty)])),
        (arrays.clone(), sheet(&[(0, INT), (40, INT)])),
        (arrays.clone(), sheet(&[(40, INT)])),
        (arrays, EMPTY.to_vec()),
    ];
    // each short shape and each list of two of them
    for first in (0..=36).chain(96..=125) {
        inputs.push((vec![first], swap.clone()));
        inputs.push((long(ARRAY, &[first]), sheet(&[(0, &[first]), (1, &[0])])));
        for second in [0, 1, 2, 0x20, 0x24, 0x60] {
            inputs.push((long(MAP, &[first, second]), swap.clone()));
            inputs.push((long(MAP, &[0, 1]), sheet(&[(0, &[first]), (1, &[second])])));
        }
    }
    // limits of the made shape
    for bytes in [2043, 2044, 2045, 2048] {
        let long_one = sheet(&[(0, &symbol_of(bytes)), (1, INT)]);
        inputs.push((vec![0x41, 2, 0, 0, 1], long_one.clone()));
        inputs.push((vec![0], long_one));
    }
    for levels in 0..=15 {
        for more in 0..=15 {
            let round = |levels, inner: &[u8]| nested(levels, inner, |inner| long(ARRAY, inner));
            inputs.push((round(levels, &[0]), sheet(&[(0, &round(more, &[1]))])));
        }
    }
    // neither is good
    for bad in [&[][..], &[0xA0], &[0x40, 1, 0, 0x20], &[0; 2049]] {
        for broken in [&[][..], &[33, 0], &[0, 0, 1, 0], &[0; 5]] {
            inputs.push((bad.to_vec(), broken.to_vec()));
            inputs.push((bad.to_vec(), EMPTY.to_vec()));
            inputs.push((vec![0], broken.to_vec()));
        }
    }
    let worst = crate::stack::worst_for_fill();
    inputs.extend(worst.into_iter().map(|(_, first, second)| (first, second)));
    inputs
}

/// The inputs for `join` that are always among the cases.
pub fn always_join() -> Vec<Two> {
    let from = |from: u16, count: u16, own: &[u8]| {
        Sheet::of((from..from + count).map(|blank| (blank, own))).bytes()
    };
    let mut inputs = vec![
        // M14
        (from(0, 1, &[1]), from(1, 1, INT)),
        (EMPTY.to_vec(), EMPTY.to_vec()),
        // the first wins, with what the second makes of it
        (from(3, 1, &[3]), from(3, 1, &[4])),
        (from(255, 3, &[3]), from(0, 8, INT)),
    ];
    for (first, second) in [
        (0, 0),
        (0, 1),
        (1, 32),
        (16, 16),
        (16, 17),
        (32, 0),
        (32, 1),
        (32, 32),
    ] {
        for start in [0, 1, 16, 32, 40] {
            inputs.push((from(0, first, INT), from(start, second, &[0x21])));
            inputs.push((from(start, first, &[40]), from(0, second, &[0x60])));
        }
    }
    for last in [2047, 2048] {
        let most = from(0, 7, &symbol_of(2048));
        inputs.push((most.clone(), from(7, 1, &symbol_of(last))));
        inputs.push((most.clone(), from(6, 2, &symbol_of(last))));
        inputs.push((from(7, 2, &symbol_of(last)), most));
    }
    let sound = from(0, 2, INT);
    for broken in [&[][..], &[33, 0], &[0, 0, 1, 0], &[0; 5], &sound[..13]] {
        inputs.push((broken.to_vec(), sound.clone()));
        inputs.push((sound.clone(), broken.to_vec()));
        inputs.push((broken.to_vec(), vec![0xFF]));
    }
    let worst = crate::stack::worst_for_join();
    inputs.extend(worst.into_iter().map(|(_, first, second)| (first, second)));
    inputs
}
