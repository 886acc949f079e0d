//! What a call is asked: bytes, a part of them, one or two inputs and lent buffers, or bytes in parts.
//! Programs are asked, what they say is compared, and a question on which they differ can be made
//! smaller.

use crate::cases::table::RecordTable;
use crate::shrink::{drop_entries, shrink, shrink_records, shrink_sheet};
use crate::{hex, pieces, Feeds, Lends, Made, Makes, MakesOfRecords, Outcome, Parts};
use crate::{Whole, WholeOf, WholeOfRecords};
use std::cell::Cell;
use std::fmt;
use std::slice::from_ref;
use std::sync::OnceLock;

pub trait Question: fmt::Display + Sized {
    /// a function that stands for the call
    type Program: Copy + 'static;
    /// all that it says
    type Said: PartialEq + fmt::Display;

    fn ask(&self, program: Self::Program) -> Self::Said;

    /// The outcomes in what was said: one, or one for each lent buffer.
    fn outcomes(said: &Self::Said) -> Vec<Outcome>;
}

/// Bytes alone, for `read` and `sheet`.
pub struct Bytes(pub Vec<u8>);

impl Question for Bytes {
    type Program = fn(&[u8]) -> Outcome;
    type Said = Outcome;

    fn ask(&self, program: Self::Program) -> Outcome {
        program(&self.0)
    }

    fn outcomes(said: &Outcome) -> Vec<Outcome> {
        vec![*said]
    }
}

impl fmt::Display for Bytes {
    fn fmt(&self, out: &mut fmt::Formatter<'_>) -> fmt::Result {
        write!(out, "{}", hex(&self.0))
    }
}

/// Part k of an encoding, for `child` and `name`.
pub struct Part {
    pub bytes: Vec<u8>,
    pub k: u64,
    /// how many parts there are, or nothing if the encoding is bad
    pub parts: Option<u64>,
}

impl Part {
    /// Any k, once it is known how many parts there are.
    pub fn new(bytes: Vec<u8>, model: Parts, k: impl FnOnce(u64) -> u64) -> Part {
        let none = model(&bytes, u64::MAX);
        let parts = (none.number == 18).then_some(none.place.into());
        let k = k(parts.unwrap_or(0));
        Part { bytes, k, parts }
    }

    /// The smallest found that differs, at a k that is near the first part or the last if it can be.
    pub fn smallest(&self, model: Parts, differs: &dyn Fn(&Part) -> bool) -> Part {
        let telling = |bytes: &[u8]| {
            (0..7)
                .map(|i| {
                    Part::new(bytes.to_vec(), model, |parts| {
                        let last = parts.saturating_sub(1);
                        [0, 1, 2, last, parts, parts + 1, self.k][i]
                    })
                })
                .find(|part| differs(part))
        };
        let small = shrink(&self.bytes, |bytes| telling(bytes).is_some());
        telling(&small).expect("it differs")
    }
}

impl Question for Part {
    type Program = Parts;
    type Said = Outcome;

    fn ask(&self, program: Parts) -> Outcome {
        program(&self.bytes, self.k)
    }

    fn outcomes(said: &Outcome) -> Vec<Outcome> {
        vec![*said]
    }
}

impl fmt::Display for Part {
    fn fmt(&self, out: &mut fmt::Formatter<'_>) -> fmt::Result {
        write!(out, "{}, k = {}", hex(&self.bytes), self.k)
    }
}

/// Two inputs and the lengths of the lent buffers, for `fill` and `join`.
pub struct Pair {
    pub first: Vec<u8>,
    pub second: Vec<u8>,
    pub rooms: Vec<usize>,
    /// what the model makes of them
    pub whole: Made,
}

/// One input and the lengths of the lent buffers, for `write` and `table`.
pub struct Single {
    pub bytes: Vec<u8>,
    pub rooms: Vec<usize>,
    /// what the model makes of it
    pub whole: Made,
}

/// A table whose nodes are records and the lengths of the lent buffers, for `write_records`.
pub struct Records {
    pub table: RecordTable,
    pub rooms: Vec<usize>,
    /// what the model makes of it
    pub whole: Made,
}

/// An outcome, and the buffer afterwards.
#[derive(PartialEq)]
pub struct Lent {
    pub outcome: Outcome,
    pub buffer: Vec<u8>,
}

/// What a program says with each lent buffer.
#[derive(PartialEq)]
pub struct AllLent(pub Vec<Lent>);

/// The first bytes of a pattern that differs by position, as long as every buffer.
fn pattern(length: usize) -> &'static [u8] {
    static PATTERN: OnceLock<Vec<u8>> = OnceLock::new();
    let byte = |place: usize| (7 * place + place / 256 + 3) as u8;
    &PATTERN.get_or_init(|| (0..70_000).map(byte).collect())[..length]
}

/// Lengths of buffers: with room for the answer and without, and if there is none these.
fn rooms(whole: &Made, if_refused: [usize; 4]) -> Vec<usize> {
    let mut rooms = match whole {
        Ok(answer) => {
            let needed = answer.len();
            let far = needed + 100 + needed % 3000;
            vec![0, needed / 2, needed - 1, needed, needed + 1, far]
        }
        Err(_) => if_refused.to_vec(),
    };
    rooms.dedup();
    rooms
}

/// What the model says with each lent buffer. That 12 comes last, and what is done to a buffer, is
/// written here once more; tests hold it to the model's own 12.
fn right(whole: &Made, rooms: &[usize]) -> AllLent {
    lend_each(rooms, |buffer| match whole {
        Err(refusal) => Outcome::refusal(refusal.number, refusal.place),
        Ok(answer) if buffer.len() < answer.len() => Outcome::refusal(12, answer.len() as u32),
        Ok(answer) => {
            buffer[..answer.len()].copy_from_slice(answer);
            Outcome::answer(answer.len(), 0)
        }
    })
}

/// Makes a call with each lent buffer.
fn lend_each(rooms: &[usize], call: impl Fn(&mut [u8]) -> Outcome) -> AllLent {
    let with = |&room: &usize| {
        let mut buffer = pattern(room).to_vec();
        let outcome = call(&mut buffer);
        Lent { outcome, buffer }
    };
    AllLent(rooms.iter().map(with).collect())
}

fn in_words(rooms: &[usize]) -> String {
    let rooms: Vec<String> = rooms.iter().map(usize::to_string).collect();
    format!("{} bytes lent", rooms.join(", "))
}

/// How often a question is tried in another form: long inputs could take very long.
const TRIES: usize = 10_000;

#[derive(Default)]
struct Tries(Cell<usize>);

impl Tries {
    /// Whether there is one left for this question.
    fn one_more(&self) -> bool {
        self.0.set(self.0.get() + 1);
        self.0.get() <= TRIES
    }
}

/// The question with the one buffer that shows a difference.
fn with_one_room<Q>(rooms: &[usize], with: impl Fn(usize) -> Q, differs: &dyn Fn(&Q) -> bool) -> Q {
    let mut each = rooms.iter().map(|&room| with(room));
    let telling = each.find(|question| differs(question));
    telling.expect("it differs with one of the buffers")
}

impl Pair {
    /// With buffers of each length that matters.
    pub fn new(first: Vec<u8>, second: Vec<u8>, whole: Whole) -> Pair {
        let whole = whole(&first, &second);
        Pair {
            first,
            second,
            rooms: rooms(&whole, [0, 5, 2048, 17_000]),
            whole,
        }
    }

    pub fn right(&self) -> AllLent {
        right(&self.whole, &self.rooms)
    }

    /// The smallest found that differs, with the one buffer that shows it.
    pub fn smallest(&self, whole: Whole, differs: &dyn Fn(&Pair) -> bool) -> Pair {
        let tries = Tries::default();
        let telling = |first: &[u8], second: &[u8]| {
            tries.one_more() && differs(&Pair::new(first.to_vec(), second.to_vec(), whole))
        };
        let (mut first, mut second) = (self.first.clone(), self.second.clone());
        // whole entries first, in both, for that is quick (a template has none)
        second = drop_entries(&second, |second| telling(&first, second));
        first = drop_entries(&first, |first| telling(first, &second));
        loop {
            let before = first.len() + second.len();
            first = shrink(&first, |first| telling(first, &second));
            second = shrink_sheet(&second, |second| telling(&first, second));
            if first.len() + second.len() == before {
                break;
            }
        }
        let pair = Pair::new(first, second, whole);
        let with = |room| Pair {
            first: pair.first.clone(),
            second: pair.second.clone(),
            rooms: vec![room],
            whole: pair.whole.clone(),
        };
        with_one_room(&pair.rooms, with, differs)
    }
}

impl Question for Pair {
    type Program = Lends;
    type Said = AllLent;

    fn ask(&self, program: Lends) -> AllLent {
        lend_each(&self.rooms, |out| program(&self.first, &self.second, out))
    }

    fn outcomes(said: &AllLent) -> Vec<Outcome> {
        said.0.iter().map(|lent| lent.outcome).collect()
    }
}

impl fmt::Display for Pair {
    fn fmt(&self, out: &mut fmt::Formatter<'_>) -> fmt::Result {
        let (first, second) = (hex(&self.first), hex(&self.second));
        write!(out, "{first} | {second} | {}", in_words(&self.rooms))
    }
}

/// Lengths of buffers for a table or an encoding that is refused.
const IF_REFUSED: [usize; 4] = [0, 14, 2048, 5000];

/// Makes an input smaller while it differs.
pub type Shrink = fn(&[u8], &dyn Fn(&[u8]) -> bool) -> Vec<u8>;

impl Single {
    /// With buffers of each length that matters.
    pub fn new(bytes: Vec<u8>, whole: WholeOf) -> Single {
        let whole = whole(&bytes);
        Single {
            bytes,
            rooms: rooms(&whole, IF_REFUSED),
            whole,
        }
    }

    pub fn right(&self) -> AllLent {
        right(&self.whole, &self.rooms)
    }

    /// The smallest found that differs, with the one buffer that shows it.
    pub fn smallest(
        &self,
        whole: WholeOf,
        shrink: Shrink,
        differs: &dyn Fn(&Single) -> bool,
    ) -> Single {
        let tries = Tries::default();
        let small = shrink(&self.bytes, &|bytes| {
            tries.one_more() && differs(&Single::new(bytes.to_vec(), whole))
        });
        let small = Single::new(small, whole);
        let with = |room| Single {
            bytes: small.bytes.clone(),
            rooms: vec![room],
            whole: small.whole.clone(),
        };
        with_one_room(&small.rooms, with, differs)
    }
}

impl Question for Single {
    type Program = Makes;
    type Said = AllLent;

    fn ask(&self, program: Makes) -> AllLent {
        lend_each(&self.rooms, |out| program(&self.bytes, out))
    }

    fn outcomes(said: &AllLent) -> Vec<Outcome> {
        said.0.iter().map(|lent| lent.outcome).collect()
    }
}

impl fmt::Display for Single {
    fn fmt(&self, out: &mut fmt::Formatter<'_>) -> fmt::Result {
        write!(out, "{} | {}", hex(&self.bytes), in_words(&self.rooms))
    }
}

impl Records {
    /// With buffers of each length that matters.
    pub fn new(table: RecordTable, whole: WholeOfRecords) -> Records {
        let whole = whole(&table.nodes, &table.rest);
        Records {
            table,
            rooms: rooms(&whole, IF_REFUSED),
            whole,
        }
    }

    pub fn right(&self) -> AllLent {
        right(&self.whole, &self.rooms)
    }

    /// The smallest found that differs, with the one buffer that shows it.
    pub fn smallest(&self, whole: WholeOfRecords, differs: &dyn Fn(&Records) -> bool) -> Records {
        let tries = Tries::default();
        let small = shrink_records(&self.table, |table| {
            tries.one_more() && differs(&Records::new(table.clone(), whole))
        });
        let small = Records::new(small, whole);
        let with = |room| Records {
            table: small.table.clone(),
            rooms: vec![room],
            whole: small.whole.clone(),
        };
        with_one_room(&small.rooms, with, differs)
    }
}

impl Question for Records {
    type Program = MakesOfRecords;
    type Said = AllLent;

    fn ask(&self, program: MakesOfRecords) -> AllLent {
        let RecordTable { nodes, rest } = &self.table;
        lend_each(&self.rooms, |out| program(nodes, rest, out))
    }

    fn outcomes(said: &AllLent) -> Vec<Outcome> {
        said.0.iter().map(|lent| lent.outcome).collect()
    }
}

impl fmt::Display for Records {
    fn fmt(&self, out: &mut fmt::Formatter<'_>) -> fmt::Result {
        let mut left = &self.table.nodes[..];
        write!(out, "{} records", left.len())?;
        while let Some(node) = left.first() {
            let same = left.iter().take_while(|other| *other == node).count();
            write!(out, " ({}, {}, {})", node.kind, node.a, node.b)?;
            if same > 1 {
                write!(out, "x{same}")?;
            }
            left = &left[same..];
        }
        let rest = hex(&self.table.rest);
        write!(out, " | {rest} | {}", in_words(&self.rooms))
    }
}

impl fmt::Display for AllLent {
    fn fmt(&self, out: &mut fmt::Formatter<'_>) -> fmt::Result {
        for (i, Lent { outcome, buffer }) in self.0.iter().enumerate() {
            let comma = if i == 0 { "" } else { ", " };
            write!(out, "{comma}{outcome}")?;
            // what is in a long buffer would not be read
            if (1..=64).contains(&buffer.len()) {
                write!(out, " [{}]", hex(buffer))?;
            }
        }
        Ok(())
    }
}

// -------------------------------------------------------------------------------------------------
// Bytes in parts

/// Where an input is cut into parts.
#[derive(Clone, Debug, PartialEq, Eq)]
pub enum Cuts {
    /// in two, before the byte at this place
    InTwo(usize),
    /// before the bytes at these places, which do not fall: between two equal ones is an empty part
    At(Vec<usize>),
    /// into parts of so many bytes, the last of which can be shorter
    Each(usize),
}

impl Cuts {
    /// The parts of an input, one after the other.
    pub fn each<'a>(&self, bytes: &'a [u8], mut part: impl FnMut(&'a [u8])) {
        match self {
            Cuts::InTwo(place) => {
                let (first, second) = bytes.split_at(*place);
                part(first);
                part(second);
            }
            Cuts::At(places) => {
                let mut from = 0;
                for &place in places {
                    part(&bytes[from..place]);
                    from = place;
                }
                part(&bytes[from..]);
            }
            Cuts::Each(size) => bytes.chunks(*size).for_each(part),
        }
    }

    pub fn parts<'a>(&self, bytes: &'a [u8]) -> Vec<&'a [u8]> {
        let mut parts = Vec::new();
        self.each(bytes, |part| parts.push(part));
        parts
    }

    /// The same cuts of an input of so many bytes, as far as it has those places.
    fn within(&self, length: usize) -> Cuts {
        match self {
            Cuts::InTwo(place) => Cuts::InTwo(length.min(*place)),
            Cuts::At(places) => Cuts::At(places.iter().map(|place| length.min(*place)).collect()),
            Cuts::Each(size) => Cuts::Each(*size),
        }
    }
}

/// A reader that is fed with parts.
pub trait Reader: Clone + PartialEq {
    fn start() -> Self;
    fn part(&mut self, part: &[u8]);
    fn finish(&mut self) -> Outcome;
}

/// An input, several ways to cut it into parts, and a part that comes after the finish, for the piece
/// reader.
pub struct Fed {
    pub bytes: Vec<u8>,
    pub cuttings: Vec<Cuts>,
    /// whether it is cut in two at each of its places, and into bytes, too
    pub everywhere: bool,
    pub after: Vec<u8>,
    /// what the model says of the parts of the first cutting
    pub whole: Outcome,
}

/// What a reader says of the parts of one cutting.
#[derive(Clone, Copy, PartialEq)]
pub struct Finished {
    pub outcome: Outcome,
    /// at the second finish, and at the third, after one more part
    pub again: [Outcome; 2],
    /// what is wrong with its state
    pub state: Option<&'static str>,
}

/// What it says of an input that is cut everywhere.
#[derive(Clone, Copy, PartialEq)]
pub struct Everywhere {
    /// how often the input was cut in two, and how many of its bytes were a part of their own
    pub in_two: usize,
    pub single_bytes: usize,
    /// what it says of the single bytes, and what is wrong with its state at the first place where
    /// something is
    pub finished: Finished,
}

/// What it says of each cutting.
#[derive(PartialEq)]
pub struct AllFinished {
    pub cuttings: Vec<Finished>,
    pub everywhere: Option<Everywhere>,
}

impl Finished {
    /// As it must be: the finish repeats its answer, and the state is as it must be.
    fn steady(outcome: Outcome) -> Finished {
        Finished {
            outcome,
            again: [outcome; 2],
            state: None,
        }
    }
}

impl AllFinished {
    fn each(&self) -> impl Iterator<Item = &Finished> {
        let everywhere = self.everywhere.as_ref();
        let single_bytes = everywhere.map(|everywhere| &everywhere.finished);
        self.cuttings.iter().chain(single_bytes)
    }
}

/// Feeds a reader with the parts of each cutting, and looks at its state. The same bytes must lead to the
/// same one however they are cut; and an empty part, one that comes after the finish, and a finish that is
/// not the first must not change it.
pub fn feed<R: Reader>(fed: &Fed) -> AllFinished {
    let mut whole = R::start();
    whole.part(&fed.bytes);
    let cuttings = fed.cuttings.iter().map(|cuts| {
        let mut reader = R::start();
        let mut state = None;
        cuts.each(&fed.bytes, |part| match part {
            [] => {
                let before = reader.clone();
                reader.part(part);
                if reader != before {
                    state = Some("an empty part changes it");
                }
            }
            _ => reader.part(part),
        });
        if reader != whole {
            state = state.or(Some("in one part it is another"));
        }
        finish(reader, &fed.after, state)
    });
    AllFinished {
        cuttings: cuttings.collect(),
        everywhere: fed.everywhere.then(|| feed_everywhere(fed, &whole)),
    }
}

/// Cuts an input in two at each of its places, and into bytes. The first of two parts must lead to the same
/// state as its single bytes, and both parts to that of the whole. A call looks at nothing but the state and
/// the part, so from equal states on all is equal: only the reader of the single bytes is finished.
fn feed_everywhere<R: Reader>(fed: &Fed, whole: &R) -> Everywhere {
    let start = R::start();
    let mut by_bytes = start.clone();
    let mut state = None;
    let (mut in_two, mut single_bytes) = (0, 0);
    for place in 0..=fed.bytes.len() {
        let (first, second) = fed.bytes.split_at(place);
        let mut reader = start.clone();
        reader.part(first);
        if reader != by_bytes {
            state = state.or(Some("byte by byte it is another"));
        }
        reader.part(second);
        if reader != *whole {
            state = state.or(Some("cut in two it is another"));
        }
        in_two += 1;
        if let Some(byte) = second.first() {
            by_bytes.part(from_ref(byte));
            single_bytes += 1;
        }
    }
    Everywhere {
        in_two,
        single_bytes,
        finished: finish(by_bytes, &fed.after, state),
    }
}

/// Finishes a reader three times, the last time after one more part, and looks at its state.
fn finish<R: Reader>(mut reader: R, after: &[u8], mut state: Option<&'static str>) -> Finished {
    let outcome = reader.finish();
    let closed = reader.clone();
    let mut kept = |reader: &R, what| {
        if *reader != closed {
            state = state.or(Some(what));
        }
    };
    let second = reader.finish();
    kept(&reader, "the second finish changes it");
    reader.part(after);
    kept(&reader, "a part after the finish changes it");
    let third = reader.finish();
    kept(&reader, "the third finish changes it");
    Finished {
        outcome,
        again: [second, third],
        state,
    }
}

/// The bytes without as many at their end as can go while they differ.
fn without_end(bytes: &[u8], differs: impl Fn(&[u8]) -> bool) -> &[u8] {
    let mut bytes = bytes;
    let mut size = bytes.len();
    while size > 0 {
        let shorter = &bytes[..bytes.len().saturating_sub(size)];
        match shorter.len() < bytes.len() && differs(shorter) {
            true => bytes = shorter,
            false => size /= 2,
        }
    }
    bytes
}

impl Fed {
    pub fn new(bytes: Vec<u8>, cuttings: Vec<Cuts>, after: Vec<u8>) -> Fed {
        let whole = pieces::model(&cuttings[0].parts(&bytes));
        Fed {
            bytes,
            cuttings,
            everywhere: false,
            after,
            whole,
        }
    }

    /// Cut in two at each of its places, and into bytes, too.
    pub fn everywhere(self) -> Fed {
        Fed {
            everywhere: true,
            ..self
        }
    }

    /// The same for every cutting: the parts joined are the same bytes. That the finish repeats its
    /// answer is written here once more; tests hold it to the model's own finish.
    pub fn right(&self) -> AllFinished {
        self.steady(self.whole)
    }

    /// What is said if all cuttings must say the same.
    pub fn steady(&self, outcome: Outcome) -> AllFinished {
        let finished = Finished::steady(outcome);
        AllFinished {
            cuttings: vec![finished; self.cuttings.len()],
            everywhere: self.everywhere.then_some(Everywhere {
                in_two: self.bytes.len() + 1,
                single_bytes: self.bytes.len(),
                finished,
            }),
        }
    }

    /// The question with one cutting.
    fn with(&self, cuts: Cuts, after: &[u8]) -> Fed {
        Fed {
            bytes: self.bytes.clone(),
            cuttings: vec![cuts],
            everywhere: false,
            after: after.to_vec(),
            whole: self.whole,
        }
    }

    /// The one cutting that shows a difference, if one does.
    fn one_cutting(&self, differs: &dyn Fn(&Fed) -> bool) -> Option<Fed> {
        let places = 0..=self.bytes.len();
        let everywhere = places.map(Cuts::InTwo).chain([Cuts::Each(1)]);
        let everywhere = everywhere.filter(|_| self.everywhere);
        let mut each = self.cuttings.iter().cloned().chain(everywhere);
        each.find_map(|cuts| Some(self.with(cuts, &self.after)).filter(differs))
    }

    /// The one cutting that shows a difference. It may be one in the state after some of the bytes, which is
    /// gone after the others: then the fewest bytes that differ end where it is.
    fn telling(&self, differs: &dyn Fn(&Fed) -> bool) -> Fed {
        let first_bytes = || {
            let only = |bytes: &[u8]| {
                Fed::new(bytes.to_vec(), vec![Cuts::At(vec![])], self.after.clone()).everywhere()
            };
            let fewest = without_end(&self.bytes, |bytes| differs(&only(bytes)));
            only(fewest).one_cutting(differs)
        };
        self.one_cutting(differs)
            .or_else(first_bytes)
            .expect("it differs with one of the cuttings")
    }

    /// The smallest found that differs, with the fewest cuts that show it.
    pub fn smallest(&self, differs: &dyn Fn(&Fed) -> bool) -> Fed {
        // so many places are tried of an input, and a longer one is only made shorter from its end
        const MOST_PLACES: usize = 64;
        const LONGEST: usize = 4096;
        let own = self.telling(differs);
        let tries = Tries::default();
        // not cut at all, cut in two, with an empty part, as it was, into bytes
        let cut = |bytes: &[u8]| {
            let length = bytes.len();
            let mut cuttings = vec![Cuts::At(vec![])];
            if length <= MOST_PLACES {
                cuttings.extend((0..=length).map(Cuts::InTwo));
                cuttings.extend((0..=length).map(|place| Cuts::At(vec![place, place])));
            }
            cuttings.extend([own.cuttings[0].within(length), Cuts::Each(1)]);
            Fed::new(bytes.to_vec(), cuttings, own.after.clone())
        };
        let telling = |bytes: &[u8]| tries.one_more() && differs(&cut(bytes));
        let mut bytes = without_end(&own.bytes, telling).to_vec();
        if bytes.len() <= LONGEST {
            bytes = shrink(&bytes, telling);
        }
        let mut small = cut(&bytes).telling(differs);
        for after in [&[][..], &[0x20]] {
            let simpler = small.with(small.cuttings[0].clone(), after);
            if after.len() < small.after.len() && differs(&simpler) {
                small = simpler;
                break;
            }
        }
        while let Some(fewer) = small.fewer_cuts().into_iter().find(|fewer| differs(fewer)) {
            small = fewer;
        }
        small
    }

    /// The question without one of its cuts, for each of them.
    fn fewer_cuts(&self) -> Vec<Fed> {
        let without = |places: &[usize], index: usize| {
            let mut places = places.to_vec();
            places.remove(index);
            self.with(Cuts::At(places), &self.after)
        };
        match &self.cuttings[0] {
            Cuts::At(places) => (0..places.len()).map(|i| without(places, i)).collect(),
            _ => vec![],
        }
    }
}

impl Question for Fed {
    type Program = Feeds;
    type Said = AllFinished;

    fn ask(&self, program: Feeds) -> AllFinished {
        program(self)
    }

    fn outcomes(said: &AllFinished) -> Vec<Outcome> {
        said.each().map(|finished| finished.outcome).collect()
    }
}

/// As hex, with equal bytes in a long row written once.
fn in_rows(bytes: &[u8]) -> String {
    const LONG: usize = 16;
    let mut words = Vec::new();
    let mut left = bytes;
    while let Some(byte) = left.first() {
        let same = left.iter().take_while(|other| *other == byte).count();
        let (word, taken) = match same < LONG {
            true => (hex(&[*byte]), 1),
            false => (format!("{byte:02X}x{same}"), same),
        };
        words.push(word);
        left = &left[taken..];
    }
    match &words[..] {
        [] => hex(bytes),
        words => words.join(" "),
    }
}

impl fmt::Display for Fed {
    fn fmt(&self, out: &mut fmt::Formatter<'_>) -> fmt::Result {
        match &self.cuttings[..] {
            [cuts] if !self.everywhere => {
                let parts = cuts.parts(&self.bytes).into_iter().map(in_rows);
                match &parts.collect::<Vec<String>>()[..] {
                    [] => write!(out, "(no part)")?,
                    parts => write!(out, "{}", parts.join(" / "))?,
                }
            }
            all => {
                write!(out, "{} | cut in {} ways", in_rows(&self.bytes), all.len())?;
                if self.everywhere {
                    write!(out, ", and everywhere")?;
                }
            }
        }
        match &self.after[..] {
            [] => Ok(()),
            after => write!(out, " | {} after the finish", in_rows(after)),
        }
    }
}

impl fmt::Display for Finished {
    fn fmt(&self, out: &mut fmt::Formatter<'_>) -> fmt::Result {
        let [second, third] = self.again;
        write!(out, "{}", self.outcome)?;
        if self.again != [self.outcome; 2] {
            write!(out, ", again {second}, after a part {third}")?;
        }
        match self.state {
            Some(state) => write!(out, " (its state: {state})"),
            None => Ok(()),
        }
    }
}

impl fmt::Display for AllFinished {
    fn fmt(&self, out: &mut fmt::Formatter<'_>) -> fmt::Result {
        let mut different: Vec<&Finished> = Vec::new();
        for finished in self.each() {
            if !different.contains(&finished) {
                different.push(finished);
            }
        }
        let words: Vec<String> = different.iter().map(|own| own.to_string()).collect();
        write!(out, "{}", words.join(" or "))
    }
}
