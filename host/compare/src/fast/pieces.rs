//! The piece reader written in Rust for speed: it takes byte by byte what a shape is made of, the
//! text of a part at once, and keeps the shapes that are open. Bytes after a fault or after the root
//! are only counted. What the finish says is decided there: a root that is cut short comes before
//! whatever was met inside it.
//!
//! A reader that starts with 0 is right. Any other number puts one fault in (see `fault`). It is no constant, as it is in `fast`: nothing is
//! measured here but the stack, and 28 copies of it took the compiler long.

use super::{past_ascii, Accepted, Refusal};
use super::{ARRAY, FUNCTION, MAP, MAX_BYTES, MAX_LEVELS, RECORD, SYMBOL, VARIABLE};
use super::{
    BAD_LEB128, CUT_SHORT, INPUT_TOO_LONG, LONG_FORM, NOT_ASSIGNED, NOT_UTF8, SIZE_WRONG, TOO_DEEP,
};

/// The faults of the wrong models, one each.
pub mod fault {
    pub const NONE: u8 = 0;
    pub const REFUSES_EVERYTHING: u8 = 1;
    pub const ONE_FIXED_ANSWER: u8 = 2;
    pub const CUT_AT_THE_END: u8 = 3;
    pub const CUT_AT_THE_INNERMOST: u8 = 4;
    pub const EIGHT_LAST: u8 = 5;
    pub const INSIDE_FIRST: u8 = 6;
    pub const COUNTED_AFTER: u8 = 7;
    pub const EIGHT_BY_PART: u8 = 8;
    pub const FIRST_2048: u8 = 9;
    pub const COUNT_OF_16_BITS: u8 = 10;
    pub const SIZE_FORGOTTEN: u8 = 11;
    pub const NUMBER_FORGOTTEN: u8 = 12;
    pub const CHARACTER_REFUSED: u8 = 13;
    pub const BOUNDS_FORGOTTEN: u8 = 14;
    pub const DEEPEST_FORGOTTEN: u8 = 15;
    pub const KEY_FORGOTTEN: u8 = 16;
    pub const FIFTEEN_ENTRIES: u8 = 17;
    pub const PLACES_IN_PART: u8 = 18;
    pub const LENGTH_OF_LAST: u8 = 19;
    pub const LAST_ALONE: u8 = 20;
    pub const EMPTY_FINISHES: u8 = 21;
    pub const EMPTY_COUNTED: u8 = 22;
    pub const STARTS_ANEW: u8 = 23;
    pub const CUT_NOTED: u8 = 24;
    pub const EMPTY_NOTED: u8 = 25;
    pub const AFTER_NOTED: u8 = 26;
    pub const FINISH_NOTED: u8 = 27;
}

use fault::*;

/// What the finish says.
type Answer = Result<Accepted, Refusal>;

/// A shape with a payload that has not ended.
#[derive(Clone, Copy, Default, PartialEq, Eq)]
struct Level {
    kind: u8,
    /// whether all children so far are primitives
    primitives: bool,
    /// its first byte, and where its payload ends
    at: usize,
    stop: usize,
    /// the children or texts that have not ended
    due: usize,
}

/// What a text still asks for.
#[derive(Clone, Copy, PartialEq, Eq)]
struct Text {
    from: usize,
    stop: usize,
    /// the bytes that the character still asks for, and the bounds of the next
    more: u8,
    low: u8,
    high: u8,
}

/// What the next byte is.
#[derive(Clone, Copy, PartialEq, Eq)]
enum Next {
    First,
    Low,
    High(u8),
    Count,
    Length,
    /// the second byte of a count or of a length, and the first
    SecondOfCount(u8),
    SecondOfLength(u8),
    Text(Text),
    VariableLow,
    VariableHigh(u8),
    /// nothing that matters: there is a fault, the root has ended, or there are too many bytes
    Counted,
}

#[derive(Clone, PartialEq, Eq)]
pub struct Reader {
    /// 0, or the fault of a wrong model
    wrong: u8,
    next: Next,
    /// the bytes that were taken, and all that were there
    place: usize,
    count: usize,
    /// where the root ends, once it is known
    whole: Option<usize>,
    deepest: u32,
    open: usize,
    levels: [Level; MAX_LEVELS as usize],
    fault: Option<Refusal>,
    answer: Option<Answer>,
    /// of a wrong model: what its state tells, and what it does not
    noted: usize,
    aside: Aside,
}

/// A number in which two states may differ.
#[derive(Clone, Copy, Default)]
struct Aside(usize);

impl PartialEq for Aside {
    fn eq(&self, _: &Aside) -> bool {
        true
    }
}

impl Eq for Aside {}

impl Reader {
    pub fn start(wrong: u8) -> Self {
        Reader {
            wrong,
            next: Next::First,
            place: 0,
            count: 0,
            whole: None,
            deepest: 0,
            open: 0,
            levels: [Level::default(); MAX_LEVELS as usize],
            fault: None,
            answer: None,
            noted: 0,
            aside: Aside(0),
        }
    }

    pub fn part(&mut self, part: &[u8]) {
        if self.answer.is_some() && self.wrong != COUNTED_AFTER {
            if self.wrong == AFTER_NOTED {
                self.noted += part.len();
            }
            return;
        }
        self.cut(part);
        let part = match self.wrong {
            FIRST_2048 => &part[..part.len().min(MAX_BYTES - self.count)],
            _ => part,
        };
        let before = (self.count, self.fault);
        self.count = self.count.saturating_add(part.len());
        if self.count > MAX_BYTES {
            match self.wrong {
                EIGHT_LAST | EIGHT_BY_PART => (),
                COUNT_OF_16_BITS => self.count %= 65_536,
                _ => return self.too_long(),
            }
        }
        let mut rest = match self.wrong {
            EIGHT_LAST => &part[..part.len().min(MAX_BYTES.saturating_sub(before.0))],
            _ => part,
        };
        while let [first, after @ ..] = rest {
            match self.next {
                Next::Counted => break,
                Next::Text(text) => rest = self.text(text, rest),
                _ => {
                    self.byte(*first);
                    rest = after;
                }
            }
        }
        match (self.wrong, self.next, &mut self.fault) {
            (PLACES_IN_PART, _, Some(fault)) if before.1.is_none() => {
                fault.place = fault.place.saturating_sub(before.0 as u32)
            }
            (CHARACTER_REFUSED, Next::Text(text), _) if text.more > 0 => {
                self.refuse(NOT_UTF8, text.from)
            }
            _ => (),
        }
    }

    /// Of such an input nothing else matters.
    fn too_long(&mut self) {
        *self = Reader {
            next: Next::Counted,
            count: MAX_BYTES + 1,
            noted: self.noted,
            aside: self.aside,
            ..Self::start(self.wrong)
        };
    }

    /// What a wrong model does where a part starts.
    #[inline(always)]
    fn cut(&mut self, part: &[u8]) {
        if part.is_empty() {
            match self.wrong {
                EMPTY_FINISHES => _ = self.finish(),
                EMPTY_COUNTED => self.count += 1,
                EMPTY_NOTED => self.noted = 1,
                _ => (),
            }
            return;
        }
        match (self.wrong, &mut self.next) {
            (EIGHT_BY_PART, _) => self.aside.0 |= (part.len() > MAX_BYTES) as usize,
            (SIZE_FORGOTTEN, Next::High(low)) => *low = 0,
            (NUMBER_FORGOTTEN, next @ Next::SecondOfCount(_)) => *next = Next::Count,
            (NUMBER_FORGOTTEN, next @ Next::SecondOfLength(_)) => *next = Next::Length,
            (BOUNDS_FORGOTTEN, Next::Text(text)) if text.more > 0 => {
                (text.low, text.high) = (0x80, 0xBF)
            }
            (DEEPEST_FORGOTTEN, _) => self.deepest = self.deepest.min(1),
            (KEY_FORGOTTEN, Next::First) if self.open > 0 => {
                self.levels[self.open - 1].primitives = true
            }
            (LENGTH_OF_LAST, _) => self.aside.0 = part.len(),
            (LAST_ALONE, _) => *self = Self::start(self.wrong),
            (CUT_NOTED, _) => self.noted = self.count,
            _ => (),
        }
    }

    /// A byte that is not of a text.
    #[inline(always)]
    fn byte(&mut self, byte: u8) {
        match self.next {
            Next::First => return self.first(byte),
            Next::Low => self.next = Next::High(byte),
            Next::High(low) => {
                self.place += 1;
                return self.payload(u16::from_le_bytes([low, byte]) as usize);
            }
            Next::Count if byte < 128 => return self.counted(byte as usize),
            Next::Count => self.second(Next::SecondOfCount(byte)),
            Next::SecondOfCount(low) => match self.number(low, byte) {
                Some(count) => return self.counted(count),
                None => return,
            },
            Next::Length if byte < 128 => return self.measured(byte as usize, 1),
            Next::Length => self.second(Next::SecondOfLength(byte)),
            Next::SecondOfLength(low) => match self.number(low, byte) {
                Some(length) => return self.measured(length, 2),
                None => return,
            },
            Next::VariableLow => self.next = Next::VariableHigh(byte),
            Next::VariableHigh(low) => {
                self.place += 1;
                let own = self.levels[self.open - 1];
                return match byte == 0 && low < 32 {
                    true => self.refuse(LONG_FORM, own.at),
                    false => self.close(),
                };
            }
            Next::Text(_) | Next::Counted => (),
        }
        self.place += 1;
    }

    /// The first byte of a shape.
    #[inline(always)]
    fn first(&mut self, byte: u8) {
        let at = self.place;
        let level = self.open as u32 + 1;
        let packed = matches!(byte, 96..=125);
        let levels = MAX_LEVELS - (self.wrong == FIFTEEN_ENTRIES && byte >= 64 && !packed) as u32;
        if !matches!(byte, 0..=36 | ARRAY..=VARIABLE | 96..=125) {
            return self.refuse(NOT_ASSIGNED, at);
        }
        if level + packed as u32 > levels {
            return self.refuse(TOO_DEEP, at);
        }
        self.deepest = self.deepest.max(level + packed as u32);
        self.place += 1;
        if !(ARRAY..=VARIABLE).contains(&byte) {
            return self.ended(matches!(byte, 32..=36));
        }
        if at + 3 > self.window() {
            return self.refuse(CUT_SHORT, at);
        }
        self.levels[self.open] = Level {
            kind: byte,
            primitives: true,
            at,
            ..Level::default()
        };
        self.open += 1;
        self.next = Next::Low;
    }

    /// Where the innermost payload ends. That of the input is known at the finish only.
    #[inline(always)]
    fn window(&self) -> usize {
        match self.open {
            0 => usize::MAX,
            open => self.levels[open - 1].stop,
        }
    }

    /// The size of the innermost shape.
    #[inline(always)]
    fn payload(&mut self, size: usize) {
        let own = self.open - 1;
        let Level { kind, at, .. } = self.levels[own];
        let stop = self.place + size;
        match own {
            0 => self.whole = Some(stop),
            _ if stop > self.levels[own - 1].stop => return self.refuse(CUT_SHORT, at),
            _ => (),
        }
        self.levels[own].stop = stop;
        match kind {
            ARRAY | MAP => {
                self.levels[own].due = (kind - ARRAY) as usize + 1;
                self.child();
            }
            VARIABLE if size != 2 => self.refuse(SIZE_WRONG, at),
            VARIABLE => self.next = Next::VariableLow,
            _ if size == 0 => self.refuse(BAD_LEB128, self.place),
            _ => self.next = Next::Count,
        }
    }

    /// The first byte of a count or of a length asks for another.
    #[inline(always)]
    fn second(&mut self, next: Next) {
        match self.place + 1 == self.window() {
            true => self.refuse(BAD_LEB128, self.place),
            false => self.next = next,
        }
    }

    /// The number of two bytes, or none with a refusal.
    #[inline(always)]
    fn number(&mut self, low: u8, high: u8) -> Option<usize> {
        match high {
            1..=127 => Some((low & 127) as usize + 128 * high as usize),
            _ => {
                self.refuse(BAD_LEB128, self.place - 1);
                None
            }
        }
    }

    /// The count of the innermost shape, whose last byte this is.
    #[inline(always)]
    fn counted(&mut self, count: usize) {
        self.place += 1;
        let own = &mut self.levels[self.open - 1];
        own.due = count + (own.kind == FUNCTION) as usize;
        self.settle();
    }

    /// The length of a text, of so many bytes, the last of which this is.
    #[inline(always)]
    fn measured(&mut self, length: usize, bytes: usize) {
        self.place += 1;
        let (from, stop) = (self.place, self.place + length);
        if stop > self.window() {
            return self.refuse(CUT_SHORT, from - bytes);
        }
        if length == 0 {
            return self.after_text();
        }
        self.next = Next::Text(Text {
            from,
            stop,
            more: 0,
            low: 0,
            high: 0,
        });
    }

    /// The bytes of a text that are in a part, and what is left of the part.
    #[inline(always)]
    fn text<'a>(&mut self, mut text: Text, part: &'a [u8]) -> &'a [u8] {
        let (own, rest) = part.split_at(part.len().min(text.stop - self.place));
        let mut at = 0;
        while at < own.len() {
            let byte = own[at];
            let asked = match text.more {
                0 if byte < 128 => {
                    at = past_ascii::<0>(own, at + 1);
                    continue;
                }
                0 => asked_by(byte),
                more if (text.low..=text.high).contains(&byte) => Some((more - 1, 0x80, 0xBF)),
                _ => None,
            };
            let Some(asked) = asked else {
                self.refuse(NOT_UTF8, text.from);
                return rest;
            };
            (text.more, text.low, text.high) = asked;
            at += 1;
        }
        self.place += own.len();
        if self.place < text.stop {
            self.next = Next::Text(text);
        } else if text.more > 0 {
            self.refuse(NOT_UTF8, text.from);
        } else {
            self.after_text();
        }
        rest
    }

    /// A text has ended: a field's shape follows, or the next text.
    #[inline(always)]
    fn after_text(&mut self) {
        let own = &mut self.levels[self.open - 1];
        if own.kind == SYMBOL {
            own.due -= 1;
            return self.settle();
        }
        self.child();
    }

    /// A child follows.
    #[inline(always)]
    fn child(&mut self) {
        match self.place == self.window() {
            true => self.refuse(CUT_SHORT, self.place),
            false => self.next = Next::First,
        }
    }

    /// The innermost shape has ended.
    #[inline(always)]
    fn close(&mut self) {
        self.open -= 1;
        self.levels[self.open] = Level::default();
        self.ended(false);
    }

    /// A shape has ended.
    #[inline(always)]
    fn ended(&mut self, primitive: bool) {
        if self.open == 0 {
            self.whole = Some(self.place);
            self.next = Next::Counted;
            return;
        }
        let parent = &mut self.levels[self.open - 1];
        parent.due -= 1;
        parent.primitives &= primitive;
        self.settle();
    }

    /// What follows in the innermost shape, or that it has ended.
    fn settle(&mut self) {
        let own = self.levels[self.open - 1];
        let lists_texts = matches!(own.kind, RECORD | SYMBOL);
        if own.due > 0 && !lists_texts {
            self.child();
        } else if own.due > 0 {
            match self.place == own.stop {
                true => self.refuse(BAD_LEB128, self.place),
                false => self.next = Next::Length,
            }
        } else if self.place < own.stop {
            self.refuse(SIZE_WRONG, own.at);
        } else if own.primitives && matches!(own.kind, ARRAY | MAP) {
            self.refuse(LONG_FORM, own.at);
        } else {
            self.close();
        }
    }

    /// What was taken of the input does not matter any more.
    fn refuse(&mut self, number: u32, place: usize) {
        self.fault = Some(Refusal {
            number,
            place: place as u32,
        });
        self.place = place;
        self.next = Next::Counted;
    }

    pub fn finish(&mut self) -> Answer {
        if self.wrong == FINISH_NOTED {
            self.noted += 1;
        }
        match self.answer {
            Some(answer) if self.wrong != COUNTED_AFTER => answer,
            _ => {
                let answer = self.judged();
                if self.wrong == STARTS_ANEW {
                    *self = Self::start(self.wrong);
                } else {
                    self.answer = Some(answer);
                }
                answer
            }
        }
    }

    /// What is said of the parts so far.
    fn judged(&self) -> Answer {
        let refused = |number, place: usize| {
            Err(Refusal {
                number,
                place: place as u32,
            })
        };
        match self.wrong {
            REFUSES_EVERYTHING => return refused(CUT_SHORT, 0),
            ONE_FIXED_ANSWER => {
                return Ok(Accepted {
                    length: 1,
                    depth: 1,
                })
            }
            _ => (),
        }
        let too_long = match self.wrong {
            EIGHT_BY_PART => self.aside.0 > 0,
            _ => self.count > MAX_BYTES,
        };
        if too_long && self.wrong != EIGHT_LAST {
            return refused(INPUT_TOO_LONG, MAX_BYTES);
        }
        // a first byte that is refused has no payload that could be cut
        let refused_at_once = self.fault.is_some() && self.open == 0;
        let ends = self.whole.is_some_and(|whole| whole <= self.count);
        let cut = !refused_at_once && !ends;
        match self.fault {
            Some(fault) if self.wrong == INSIDE_FIRST => return Err(fault),
            Some(fault) if !cut => return Err(fault),
            _ => (),
        }
        if cut {
            let place = match self.wrong {
                CUT_AT_THE_END => self.count,
                CUT_AT_THE_INNERMOST if self.open > 0 => self.levels[self.open - 1].at,
                _ => 0,
            };
            return refused(CUT_SHORT, place);
        }
        match self.whole {
            Some(whole) if whole < self.count => return refused(SIZE_WRONG, whole),
            _ => (),
        }
        if too_long {
            return refused(INPUT_TOO_LONG, MAX_BYTES);
        }
        let length = match self.wrong {
            LENGTH_OF_LAST => self.aside.0,
            _ => self.count,
        };
        Ok(Accepted {
            length,
            depth: self.deepest,
        })
    }
}

/// What the first byte of a character of more than one asks for: how many more, and the bounds of the
/// next.
#[inline(always)]
fn asked_by(byte: u8) -> Option<(u8, u8, u8)> {
    match byte {
        0xC2..=0xDF => Some((1, 0x80, 0xBF)),
        0xE0 => Some((2, 0xA0, 0xBF)),
        0xED => Some((2, 0x80, 0x9F)),
        0xE1..=0xEF => Some((2, 0x80, 0xBF)),
        0xF0 => Some((3, 0x90, 0xBF)),
        0xF1..=0xF3 => Some((3, 0x80, 0xBF)),
        0xF4 => Some((3, 0x80, 0x8F)),
        _ => None,
    }
}
