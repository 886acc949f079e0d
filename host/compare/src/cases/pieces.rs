//! Inputs for the piece reader, which are inputs for `read` and longer ones, and how they are cut.

use super::{any_tree, changed, encode, leb128, long, random_bytes, symbol};
use super::{Inputs, Slip, MAX_BYTES, SLIPS, SYMBOL, TELLING};
use crate::question::{Cuts, Fed};
use crate::random::Random;

/// Of the inputs for `read` over so many bytes one in so many is taken. An input is cut at each of its places
/// and read whole each time: these, one in six, would take ten times as long as all the others.
pub const LONG: usize = 256;
const ONE_LONG_IN: usize = 16;

/// After so many inputs for `read` comes one that is too long. It takes as long as some fifty others.
pub const BETWEEN: usize = 200;

/// Of those that are too long one in so many has 65,535 bytes or more: as many places as some thousand
/// others together.
const ONE_FAR_IN: usize = 16;

/// Two bytes cannot count so many.
const WRAPS: usize = 65_536;

/// Generated inputs for the piece reader, without end. Of those for `read` with the same seed all that are
/// not long are among them, in their order.
pub struct PieceInputs {
    inputs: Inputs,
    random: Random,
    before: usize,
}

impl PieceInputs {
    pub fn new(seed: u64) -> PieceInputs {
        PieceInputs {
            inputs: Inputs::new(seed),
            random: Random::new(!seed),
            before: 0,
        }
    }
}

impl Iterator for PieceInputs {
    type Item = Vec<u8>;

    fn next(&mut self) -> Option<Vec<u8>> {
        let random = &mut self.random;
        if self.before == BETWEEN {
            self.before = 0;
            return Some(too_long(random));
        }
        self.before += 1;
        self.inputs
            .find(|bytes| bytes.len() <= LONG || random.once_in(ONE_LONG_IN))
    }
}

/// An input over 2,048 bytes, by one or by many. In front is a shape that would be accepted, or one
/// with a fault; a few are as long as two bytes count, or longer by as much as the shape is long.
pub fn too_long(random: &mut Random) -> Vec<u8> {
    if random.once_in(6) {
        return one_text(random.between(MAX_BYTES - 5, 2 * MAX_BYTES));
    }
    let tree = any_tree(random, MAX_BYTES);
    let slip = random.pick(&SLIPS);
    let mut bytes = match random.below(5) {
        0 | 1 => encode(&tree, Slip::None, random),
        2 => encode(&tree, slip, random),
        3 => {
            let bytes = encode(&tree, Slip::None, random);
            changed(random, &bytes)
        }
        _ => random_bytes(random),
    };
    let length = match (random.once_in(ONE_FAR_IN), random.below(12)) {
        (false, 0..=5) => MAX_BYTES + 1,
        (false, 6) => MAX_BYTES + 2,
        (false, _) => random.between(MAX_BYTES + 1, 2 * MAX_BYTES),
        (true, 0..=2) => random.pick(&[WRAPS - 1, WRAPS, WRAPS + 1]),
        (true, 3) => WRAPS + MAX_BYTES,
        (true, 4 | 5) => random.between(WRAPS, WRAPS + MAX_BYTES),
        (true, _) => WRAPS + bytes.len(),
    };
    let filler = random.pick(&[0x00, 0x20, 0x61, 0xFF]);
    bytes.resize(length.max(MAX_BYTES + 1), filler);
    bytes
}

/// A Symbol of one text, of as many letters as a length can tell.
fn one_text(letters: usize) -> Vec<u8> {
    symbol(&vec![b'a'; letters])
}

/// The inputs for the piece reader that are always among the cases, besides those for `read`.
pub fn always_pieces() -> Vec<Vec<u8>> {
    let filled = |front: &[u8], length: usize| {
        let mut bytes = front.to_vec();
        bytes.resize(length, 0x20);
        bytes
    };
    let mut inputs = Vec::new();
    // accepted, refused at once, refused inside, cut short: and then too long
    let fronts: [&[u8]; 8] = [
        &[0x20],
        &[0x60],
        &[0xFF],
        &[0x40, 0x01, 0x00, 0x20],
        &[0x42, 0x07, 0x00, 0x02, 0x01, 0x61, 0x20, 0x01, 0x62, 0x62],
        &[0x44, 0x03, 0x00, 0x01, 0x01, 0xFF],
        &[0x43, 0xFF, 0xFF, 0x00, 0xFF],
        &[0x44, 0x03, 0x00, 0x81, 0x00, 0x00],
    ];
    for (i, front) in fronts.into_iter().enumerate() {
        for length in [MAX_BYTES, MAX_BYTES + 1, MAX_BYTES + 2, 5000] {
            inputs.push(filled(front, length));
        }
        // these have very many places to be cut at: each front has one of them
        let far = [WRAPS + front.len(), WRAPS, WRAPS - 1, WRAPS + MAX_BYTES + 1];
        inputs.push(filled(front, far[i % far.len()]));
    }
    inputs.extend([16_383, 2044].map(one_text));
    // a text that ends with the last byte that may be there, and one in which it ends
    let characters = "\u{1F6A1}".repeat(520);
    for start in 0..4 {
        let text = &characters.as_bytes()[..2042 - 4 + start];
        inputs.push(symbol(text));
    }
    let texts = [leb128(1), leb128(2042), vec![b'a'; 2042]].concat();
    inputs.push([long(SYMBOL, &texts), vec![0]].concat());
    inputs
}

/// How inputs are cut.
pub struct Cutter {
    random: Random,
}

impl Cutter {
    pub fn new(seed: u64) -> Cutter {
        Cutter {
            random: Random::new(seed.wrapping_add(203)),
        }
    }

    /// An input in one part, cut at several places, in two at each of its places, and into bytes.
    pub fn cut(&mut self, bytes: Vec<u8>) -> Fed {
        let cuttings = vec![self.several(bytes.len()), Cuts::At(vec![])];
        let after = self.after(&bytes);
        Fed::new(bytes, cuttings, after).everywhere()
    }

    /// Two to nine cuts at any places, one of them now and then at an end or twice: there is an empty part.
    fn several(&mut self, length: usize) -> Cuts {
        let random = &mut self.random;
        let mut places: Vec<usize> = (0..random.between(2, 6))
            .map(|_| random.below(length + 1))
            .collect();
        if random.once_in(2) {
            places.push(random.pick(&places));
        }
        if random.once_in(4) {
            places.extend([0, length]);
        }
        places.sort();
        Cuts::At(places)
    }

    /// A part that comes after the finish.
    fn after(&mut self, bytes: &[u8]) -> Vec<u8> {
        let random = &mut self.random;
        match random.below(16) {
            0..=3 => vec![],
            4..=9 => vec![random.pick(&TELLING)],
            10 | 11 => random_bytes(random),
            12..=14 => bytes[..bytes.len().min(64)].to_vec(),
            _ => vec![random.pick(&TELLING); MAX_BYTES + 1],
        }
    }
}
