//! The proved calls beside two other programs: the independent model, which says what is right, and
//! one written in Rust for speed, which says what is fast. `bin/compare` compares them case by case,
//! `bin/bench` measures their time and `bin/stack` their stack.
//!
//! A further call is added beside the others in each place: its inputs in `cases`, its outcome of each
//! program here, a `Call` in `bin/compare`, its worst inputs in `stack`.

pub mod cases;
pub mod fast;
pub mod question;
pub mod random;
pub mod shrink;
pub mod stack;
pub mod wrong;

use question::{AllFinished, Fed};
use shiulbart::NodeRecord;

/// What a call says, as the four numbers of the board's answer. Number 0 is an answer; extra is the
/// depth for `read`, 1 for a packed parent's child, and the entries for `sheet`.
#[derive(Clone, Copy, Debug, PartialEq, Eq)]
pub struct Outcome {
    pub number: u32,
    pub place: u32,
    pub length: u32,
    pub extra: u32,
}

impl Outcome {
    pub fn answer(length: usize, extra: usize) -> Outcome {
        Outcome {
            number: 0,
            place: 0,
            length: length as u32,
            extra: extra as u32,
        }
    }

    pub fn part(place: usize, length: usize, extra: u32) -> Outcome {
        Outcome {
            number: 0,
            place: place as u32,
            length: length as u32,
            extra,
        }
    }

    pub fn refusal(number: u32, place: u32) -> Outcome {
        Outcome {
            number,
            place,
            length: 0,
            extra: 0,
        }
    }
}

impl std::fmt::Display for Outcome {
    fn fmt(&self, out: &mut std::fmt::Formatter<'_>) -> std::fmt::Result {
        match self.number {
            0 if self.place == 0 => write!(out, "ok {} {}", self.length, self.extra),
            0 => write!(out, "ok {} {} at {}", self.length, self.extra, self.place),
            number => write!(out, "no {number} {}", self.place),
        }
    }
}

/// `read` of each program.
pub mod read {
    use crate::fast::fault::*;
    use crate::{fast, Outcome};

    pub fn proved(bytes: &[u8]) -> Outcome {
        match shiulbart::read(bytes) {
            Ok(accepted) => Outcome::answer(accepted.length, accepted.depth as usize),
            Err(refusal) => Outcome::refusal(refusal.number(), refusal.place()),
        }
    }

    pub fn model(bytes: &[u8]) -> Outcome {
        match model::read::read(bytes) {
            Ok(shape) => Outcome::answer(bytes.len(), shape.depth() as usize),
            Err(refusal) => Outcome::refusal(refusal.number, refusal.place),
        }
    }

    /// The fast reader: right with fault 0, else a wrong model.
    pub fn fast<const FAULT: u8>(bytes: &[u8]) -> Outcome {
        match fast::read::<FAULT>(bytes) {
            Ok(accepted) => Outcome::answer(accepted.length, accepted.depth as usize),
            Err(refusal) => Outcome::refusal(refusal.number, refusal.place),
        }
    }

    pub type Read = fn(&[u8]) -> Outcome;

    /// A model with one fault, and the fault in words.
    pub type Wrong = (&'static str, Read);

    pub const WRONG: [Wrong; 26] = [
        ("refuses everything", fast::<REFUSES_EVERYTHING>),
        ("gives one fixed answer", fast::<ONE_FIXED_ANSWER>),
        (
            "takes a packed byte at level 16",
            fast::<PACKED_AT_LEVEL_16>,
        ),
        ("takes level 17", fast::<LEVEL_17>),
        ("takes 2,049 bytes", fast::<LONGER_INPUT>),
        ("gives 7 before 2", fast::<SEVEN_BEFORE_TWO>),
        ("drops bit 7 of the first byte", fast::<BIT_7_DROPPED>),
        ("takes byte 126 for a packed one", fast::<BYTE_126>),
        ("takes a long Array of a primitive", fast::<LONG_ARRAY>),
        ("takes a long Map of primitives", fast::<LONG_MAP>),
        ("takes a long Variable under 32", fast::<LONG_VARIABLE>),
        ("gives 6 before 3", fast::<SIX_BEFORE_THREE>),
        ("takes payload bytes left over", fast::<LEFT_OVER>),
        ("places 3 at the end at 0", fast::<PLACE_OF_THREE>),
        ("reads one item less", fast::<ONE_ITEM_LESS>),
        ("takes the last child's depth", fast::<DEPTH_OF_THE_LAST>),
        ("leaves a return's depth out", fast::<DEPTH_OF_RETURN>),
        ("gives 1 for a missing length", fast::<MISSING_LENGTH>),
        ("takes a second LEB128 byte of 0", fast::<SECOND_BYTE_ZERO>),
        ("takes a third LEB128 byte", fast::<THIRD_BYTE>),
        ("places 5 at the text's length", fast::<PLACE_OF_FIVE>),
        ("places a cut text at the text", fast::<PLACE_OF_CUT_TEXT>),
        ("takes surrogates", fast::<SURROGATES>),
        ("takes overlong characters", fast::<OVERLONG>),
        (
            "takes characters past the last",
            fast::<PAST_LAST_CHARACTER>,
        ),
        ("skips the last byte of a block", fast::<LAST_OF_BLOCK>),
    ];
}

/// A program for a call that asks for part k.
pub type Parts = fn(&[u8], u64) -> Outcome;

/// A model with one fault for such a call, and the fault in words.
pub type WrongParts = (&'static str, Parts);

/// `child` of each program.
pub mod child {
    use crate::wrong::child::*;
    use crate::{fast, Outcome, WrongParts};

    pub fn proved(bytes: &[u8], k: u64) -> Outcome {
        match shiulbart::child(bytes, k) {
            Ok(shiulbart::Child::Part { place, length }) => Outcome::part(place, length, 0),
            Ok(shiulbart::Child::Primitive(primitive)) => {
                Outcome::part(primitive.number() as usize, 0, 1)
            }
            Err(refusal) => Outcome::refusal(refusal.number(), refusal.place()),
        }
    }

    pub fn model(bytes: &[u8], k: u64) -> Outcome {
        match model::parts::child(bytes, k) {
            Ok(model::parts::Child::Part { place, length }) => {
                Outcome::part(place as usize, length as usize, 0)
            }
            Ok(model::parts::Child::Primitive(number)) => Outcome::part(number as usize, 0, 1),
            Err(refusal) => Outcome::refusal(refusal.number, refusal.place),
        }
    }

    pub fn fast(bytes: &[u8], k: u64) -> Outcome {
        match fast::parts::child(bytes, k) {
            Ok(fast::parts::Child::Part { place, length }) => Outcome::part(place, length, 0),
            Ok(fast::parts::Child::Primitive(number)) => Outcome::part(number as usize, 0, 1),
            Err(refusal) => Outcome::refusal(refusal.number, refusal.place),
        }
    }

    pub const WRONG: [WrongParts; 16] = [
        ("refuses everything", refuses_everything),
        ("gives the return first", return_first),
        ("does not count the return", no_return),
        ("places a field at its name's length", at_its_name),
        ("swaps a packed Map's children", packed_swapped),
        ("gives packed children as parts", packed_as_parts),
        ("gives a packed shape no children", packed_without),
        ("gives primitive parts as packed", parts_as_packed),
        ("gives a Symbol's texts", texts_too),
        ("gives a length one less", length_one_less),
        ("places a child in the payload", in_the_payload),
        ("takes every count for one byte", count_of_one_byte),
        ("counts one more in 18", one_more_counted),
        ("gives k for the count in 18", k_for_the_count),
        ("takes k modulo 2^32", k_of_32_bits),
        ("gives 18 before 1 to 8", eighteen_first),
    ];
}

/// `name` of each program.
pub mod name {
    use crate::wrong::name::*;
    use crate::{fast, Outcome, WrongParts};

    pub fn proved(bytes: &[u8], k: u64) -> Outcome {
        match shiulbart::name(bytes, k) {
            Ok(name) => Outcome::part(name.place, name.length, 0),
            Err(refusal) => Outcome::refusal(refusal.number(), refusal.place()),
        }
    }

    pub fn model(bytes: &[u8], k: u64) -> Outcome {
        match model::parts::name(bytes, k) {
            Ok((place, length)) => Outcome::part(place as usize, length as usize, 0),
            Err(refusal) => Outcome::refusal(refusal.number, refusal.place),
        }
    }

    pub fn fast(bytes: &[u8], k: u64) -> Outcome {
        match fast::parts::name(bytes, k) {
            Ok((place, length)) => Outcome::part(place, length, 0),
            Err(refusal) => Outcome::refusal(refusal.number, refusal.place),
        }
    }

    pub const WRONG: [WrongParts; 15] = [
        ("refuses everything", refuses_everything),
        ("places a name at its length", at_its_length),
        ("counts a name's length into it", with_its_length),
        ("takes every length for one byte", length_of_one_byte),
        ("takes every count for one byte", count_of_one_byte),
        ("places a name in the payload", in_the_payload),
        ("gives names of a Function", function_too),
        ("gives a Symbol no names", symbol_without),
        ("gives the field for its name", field_for_name),
        ("leaves empty names out", empty_left_out),
        ("gives the first of equal names", first_of_equals),
        ("counts one more in 18", one_more_counted),
        ("gives k for the count in 18", k_for_the_count),
        ("takes k modulo 2^32", k_of_32_bits),
        ("gives 18 before 1 to 8", eighteen_first),
    ];
}

/// `sheet` of each program.
pub mod sheet {
    use crate::fast::sheet::{check, fault::*};
    use crate::read::Wrong;
    use crate::Outcome;

    pub fn proved(bytes: &[u8]) -> Outcome {
        match shiulbart::sheet(bytes) {
            Ok(size) => Outcome::answer(size.encodings, size.entries),
            Err(refusal) => Outcome::refusal(refusal.number(), refusal.place()),
        }
    }

    pub fn model(bytes: &[u8]) -> Outcome {
        match model::sheet::check(bytes, 13) {
            Ok(sheet) => {
                let lengths = sheet
                    .0
                    .iter()
                    .map(|(_, shape)| model::shape::encoded_len(shape));
                Outcome::answer(lengths.sum::<u64>() as usize, sheet.0.len())
            }
            Err(refusal) => Outcome::refusal(refusal.number, refusal.place),
        }
    }

    /// The fast check: right with fault 0, else a wrong model.
    pub fn fast<const FAULT: u8>(bytes: &[u8]) -> Outcome {
        match check::<FAULT>(bytes) {
            Ok(checked) => Outcome::answer(checked.encodings, checked.entries),
            Err(broken) => Outcome::refusal(13, broken.place),
        }
    }

    pub const WRONG: [Wrong; 21] = [
        ("refuses everything", fast::<REFUSES_EVERYTHING>),
        ("gives the whole sheet's length", fast::<WHOLE_LENGTH>),
        ("takes 33 entries", fast::<ENTRIES_33>),
        ("places a missing entry at itself", fast::<MISSING_ENTRY>),
        ("takes equal numbers", fast::<EQUAL_NUMBERS>),
        ("takes falling numbers", fast::<FALLING_NUMBERS>),
        ("compares low bytes of numbers", fast::<LOW_BYTES>),
        ("takes length 0", fast::<LENGTH_0>),
        ("takes lengths over 2,048", fast::<LONGER>),
        ("checks all numbers before lengths", fast::<NUMBERS_FIRST>),
        (
            "places a cut second count at end",
            fast::<SECOND_COUNT_AT_END>,
        ),
        ("takes a second count over 16,384", fast::<MORE_BYTES>),
        ("does not check the sum", fast::<NO_SUM>),
        ("takes the sum modulo 2^16", fast::<SUM_OF_16_BITS>),
        ("takes bytes left over", fast::<LEFT_OVER>),
        (
            "places bytes left over at the count",
            fast::<LEFT_OVER_AT_COUNT>,
        ),
        (
            "reads before it looks for leftovers",
            fast::<ENCODINGS_FIRST>,
        ),
        ("does not read the encodings", fast::<NOT_READ>),
        ("does not read the last encoding", fast::<LAST_NOT_READ>),
        ("gives the reader's place", fast::<PLACE_IN_ENCODING>),
        ("gives the bad byte's place", fast::<PLACE_IN_SHEET>),
    ];
}

/// A program for a call that takes two inputs and is lent a buffer for its answer.
pub type Lends = fn(&[u8], &[u8], &mut [u8]) -> Outcome;

/// A model with one fault for such a call, and the fault in words.
pub type WrongLends = (&'static str, Lends);

/// What the model makes, however long it is.
pub type Made = Result<Vec<u8>, model::Refusal>;

/// What it makes of two inputs.
pub type Whole = fn(&[u8], &[u8]) -> Made;

/// `fill` of each program.
pub mod fill {
    use crate::fast::fill::{fault::*, fill};
    use crate::{Made, Outcome, WrongLends};

    pub fn proved(template: &[u8], sheet: &[u8], out: &mut [u8]) -> Outcome {
        match shiulbart::fill(template, sheet, out) {
            Ok(length) => Outcome::answer(length, 0),
            Err(refusal) => Outcome::refusal(refusal.number(), refusal.place()),
        }
    }

    pub fn whole(template: &[u8], sheet: &[u8]) -> Made {
        model::sheet::fill(template, sheet, usize::MAX)
    }

    /// The fast fill: right with fault 0, else a wrong model.
    pub fn fast<const FAULT: u8>(template: &[u8], sheet: &[u8], out: &mut [u8]) -> Outcome {
        match fill::<FAULT>(template, sheet, out) {
            Ok(length) => Outcome::answer(length, 0),
            Err(refusal) => Outcome::refusal(refusal.number, refusal.place),
        }
    }

    pub const WRONG: [WrongLends; 23] = [
        ("refuses everything", fast::<REFUSES_EVERYTHING>),
        ("copies the template", fast::<COPIES_TEMPLATE>),
        ("fills again in what it put in", fast::<FILLS_AGAIN>),
        ("keeps the long Array", fast::<LONG_ARRAY>),
        ("keeps the long Map", fast::<LONG_MAP>),
        ("packs a Map value first", fast::<PACKED_SWAPPED>),
        ("keeps the template's sizes", fast::<OLD_SIZES>),
        ("looks up blanks under 32 only", fast::<SHORT_BLANKS_ONLY>),
        ("compares low bytes of blanks", fast::<LOW_BYTES>),
        ("takes the next entry if none", fast::<NEXT_ENTRY>),
        ("leaves a Function's return", fast::<NOT_IN_RETURN>),
        ("refuses entry by entry", fast::<STAGE_BY_STAGE>),
        ("adds the deepest entry's depth", fast::<DEPTH_OF_ALL>),
        ("makes level 17", fast::<LEVEL_17>),
        ("makes 2,049 bytes", fast::<LONGER>),
        ("gives 16 before 15", fast::<SIXTEEN_FIRST>),
        ("gives 12 before 15 and 16", fast::<TWELVE_FIRST>),
        ("gives 13 before 1 to 8", fast::<SHEET_FIRST>),
        ("places 16 at the length", fast::<PLACE_OF_SIXTEEN>),
        ("needs one byte more", fast::<NEEDED_ONE_MORE>),
        ("refuses the length needed", fast::<ROOM_TO_SPARE>),
        ("writes one byte more", fast::<ONE_BYTE_MORE>),
        ("refuses, but writes what fits", fast::<WRITES_WHAT_FITS>),
    ];
}

/// `join` of each program.
pub mod join {
    use crate::fast::fill::{fault::*, join};
    use crate::{Made, Outcome, WrongLends};

    pub fn proved(first: &[u8], second: &[u8], out: &mut [u8]) -> Outcome {
        match shiulbart::join(first, second, out) {
            Ok(length) => Outcome::answer(length, 0),
            Err(refusal) => Outcome::refusal(refusal.number(), refusal.place()),
        }
    }

    pub fn whole(first: &[u8], second: &[u8]) -> Made {
        model::sheet::join(first, second, usize::MAX)
    }

    /// The fast join: right with fault 0, else a wrong model.
    pub fn fast<const FAULT: u8>(first: &[u8], second: &[u8], out: &mut [u8]) -> Outcome {
        match join::<FAULT>(first, second, out) {
            Ok(length) => Outcome::answer(length, 0),
            Err(refusal) => Outcome::refusal(refusal.number, refusal.place),
        }
    }

    pub const WRONG: [WrongLends; 34] = [
        ("refuses everything", fast::<REFUSES_EVERYTHING>),
        ("copies the first sheet", fast::<COPIES_FIRST>),
        ("does not fill the first's shapes", fast::<NOT_FILLED>),
        ("fills the second's shapes, too", fast::<SECOND_FILLED>),
        ("fills the first by itself", fast::<FILLED_BY_ITSELF>),
        ("takes the second's where both have", fast::<SECOND_WINS>),
        ("fills again in what it put in", fast::<FILLS_AGAIN>),
        ("keeps the long Array", fast::<LONG_ARRAY>),
        ("keeps the long Map", fast::<LONG_MAP>),
        ("packs a Map value first", fast::<PACKED_SWAPPED>),
        ("keeps the sizes in a shape", fast::<OLD_SIZES>),
        ("keeps the entries' lengths", fast::<OLD_LENGTHS>),
        ("puts the second's own last", fast::<NOT_RISING>),
        ("looks up blanks under 32 only", fast::<SHORT_BLANKS_ONLY>),
        ("compares low bytes of blanks", fast::<LOW_BYTES>),
        ("takes the next entry if none", fast::<NEXT_ENTRY>),
        ("makes level 17", fast::<LEVEL_17>),
        ("makes 2,049 bytes", fast::<LONGER>),
        ("gives 16 before 15 at a blank", fast::<SIXTEEN_FIRST>),
        ("gives every 15 before a 16", fast::<FIFTEENS_FIRST>),
        ("places 15 and 16 at 0", fast::<PLACE_0>),
        ("places 15 and 16 at the entry", fast::<PLACE_OF_ENTRY>),
        ("counts blanks of both twice in 17", fast::<BOTH_COUNTED>),
        ("takes 33 entries", fast::<ENTRIES_33>),
        ("counts entries after 15 and 16", fast::<ENTRIES_LATER>),
        ("counts bytes before 15 and 16", fast::<BYTES_FIRST>),
        ("counts bytes of unfilled shapes", fast::<BYTES_UNFILLED>),
        ("places 17 at the sheet's length", fast::<WHOLE_SHEET>),
        ("takes 16,385 bytes", fast::<MORE_BYTES>),
        ("gives 14 before 13", fast::<SECOND_FIRST>),
        ("gives 13 for the second", fast::<SECOND_AS_13>),
        ("needs one byte more", fast::<NEEDED_ONE_MORE>),
        ("writes one byte more", fast::<ONE_BYTE_MORE>),
        ("refuses, but writes what fits", fast::<WRITES_WHAT_FITS>),
    ];
}

/// A program for a call that takes one input and is lent a buffer for its answer.
pub type Makes = fn(&[u8], &mut [u8]) -> Outcome;

/// A model with one fault for such a call, and the fault in words.
pub type WrongMakes = (&'static str, Makes);

/// What the model makes of one input.
pub type WholeOf = fn(&[u8]) -> Made;

/// `write` of each program.
pub mod write {
    use crate::wrong::write::*;
    use crate::{fast, Made, Outcome, WrongMakes};

    pub fn proved(table: &[u8], out: &mut [u8]) -> Outcome {
        match shiulbart::write(table, out) {
            Ok(length) => Outcome::answer(length, 0),
            Err(refusal) => Outcome::refusal(refusal.number(), refusal.place()),
        }
    }

    pub fn whole(table: &[u8]) -> Made {
        model::table::write(table, usize::MAX)
    }

    pub fn fast(table: &[u8], out: &mut [u8]) -> Outcome {
        match fast::write::write(table, out) {
            Ok(length) => Outcome::answer(length, 0),
            Err(refusal) => Outcome::refusal(refusal.number, refusal.place),
        }
    }

    pub const WRONG: [WrongMakes; 53] = [
        ("refuses everything", refuses_everything),
        ("gives one fixed shape", one_fixed_shape),
        ("takes node 0 for the root", root_first),
        ("takes 6,145 nodes", more_nodes),
        ("takes 6,145 links", more_links),
        ("takes 2,049 names", more_names),
        ("takes 2,049 bytes of text", more_text),
        ("takes bytes left over", left_over),
        ("takes kind 11 for a blank", kind_11),
        ("does not look at the second byte", second_byte),
        ("takes a primitive with a or b", primitive_with_numbers),
        ("takes a blank with b", blank_with_b),
        ("takes an Array of two links", array_of_two),
        ("takes a Function of no links", no_return),
        ("wraps a + b at 16 bits", sum_of_16_bits),
        ("takes an empty list past the links", empty_past_links),
        ("takes a target equal to its node", target_of_itself),
        ("does not check a Symbol's targets", symbol_targets),
        ("takes a name equal to the count", name_at_count),
        ("does not check an Array's names", bare_names),
        ("checks links that no node uses", unused_links),
        ("checks no node that is not reached", unreached_nodes),
        ("checks no name that no link uses", unused_names),
        ("looks at text without a name", all_text),
        ("takes a name that cuts a character", cut_characters),
        ("gives 11 before 10", eleven_before_ten),
        ("checks all ranges before UTF-8", ranges_first),
        ("gives 16 before 15", sixteen_first),
        ("gives 12 before 15 and 16", twelve_first),
        ("makes level 17", level_17),
        ("makes 2,049 bytes", longer),
        ("gives 15 for any node", deepest_node),
        ("gives 16 for any node", longest_node),
        ("takes the length modulo 2^16", length_of_16_bits),
        ("takes the length modulo 2^32", length_of_32_bits),
        ("places bytes left over at a count", left_over_at_count),
        ("places a cut section at the end", cut_at_end),
        ("places half a count after it", half_a_count),
        ("places 10 at the node's byte", place_of_node),
        ("places 10 at the node's link", place_of_link),
        ("places 11 at the name's byte", place_of_name),
        ("places 15 and 16 at the root", place_of_root),
        ("keeps the long Array", long_arrays),
        ("keeps the long Map", long_maps),
        ("packs a Map value first", value_first),
        ("writes every blank long", long_blanks),
        ("writes the return first", return_first),
        ("counts the return", return_counted),
        ("writes what is shared once", shared_once),
        ("needs one byte more", needed_one_more),
        ("refuses the length needed", room_to_spare),
        ("writes one byte more", one_byte_more),
        ("refuses, but writes what fits", writes_what_fits),
    ];
}

/// `table` of each program.
pub mod table {
    use crate::wrong::table::*;
    use crate::{fast, Made, Outcome, WrongMakes};

    pub fn proved(bytes: &[u8], out: &mut [u8]) -> Outcome {
        match shiulbart::table(bytes, out) {
            Ok(length) => Outcome::answer(length, 0),
            Err(refusal) => Outcome::refusal(refusal.number(), refusal.place()),
        }
    }

    pub fn whole(bytes: &[u8]) -> Made {
        model::table::to_table(bytes, usize::MAX)
    }

    pub fn fast(bytes: &[u8], out: &mut [u8]) -> Outcome {
        match fast::table::table(bytes, out) {
            Ok(length) => Outcome::answer(length, 0),
            Err(refusal) => Outcome::refusal(refusal.number, refusal.place),
        }
    }

    pub const WRONG: [WrongMakes; 25] = [
        ("refuses everything", refuses_everything),
        ("gives one fixed table", one_fixed_table),
        ("adds a Record's names first", names_first),
        ("gives an empty Record's a as 0", empty_record_0),
        ("gives an empty Symbol's a as 0", empty_symbol_0),
        ("adds a node before its children", node_first),
        ("adds links before the children's", links_first),
        ("adds the last child first", last_first),
        ("shares equal nodes", nodes_shared),
        ("shares equal names", names_shared),
        ("gives a Symbol's links a target", symbol_targets),
        ("gives packed shapes no children", packed_without),
        ("swaps a packed Map's children", packed_swapped),
        ("adds the return first", return_first),
        ("numbers a Function's links", links_numbered),
        ("starts texts anew at each node", texts_anew),
        ("adds texts with their lengths", lengths_too),
        ("takes the low byte of a blank", low_byte),
        ("gives 12 before 1 to 8", twelve_first),
        ("places 1 to 7 one byte too far", one_too_far),
        ("places 8 at the end", eight_at_the_end),
        ("needs one byte more", needed_one_more),
        ("refuses the length needed", room_to_spare),
        ("writes one byte more", one_byte_more),
        ("refuses, but writes what fits", writes_what_fits),
    ];
}

/// A program for a call that takes nodes as records and the rest of their table, and is lent a buffer.
pub type MakesOfRecords = fn(&[NodeRecord], &[u8], &mut [u8]) -> Outcome;

/// A model with one fault for such a call, and the fault in words.
pub type WrongOfRecords = (&'static str, MakesOfRecords);

/// What the model makes of them.
pub type WholeOfRecords = fn(&[NodeRecord], &[u8]) -> Made;

/// `write_records` of each program.
pub mod write_records {
    use crate::cases::table;
    use crate::wrong::records::*;
    use crate::{fast, write, Made, Outcome, WrongOfRecords};
    use shiulbart::NodeRecord;

    pub fn proved(nodes: &[NodeRecord], rest: &[u8], out: &mut [u8]) -> Outcome {
        match shiulbart::write_records(nodes, rest, out) {
            Ok(length) => Outcome::answer(length, 0),
            Err(refusal) => Outcome::refusal(refusal.number(), refusal.place()),
        }
    }

    /// The proved `write` on the same table in bytes. If two bytes cannot count the nodes there is no
    /// such table, and what must be said is known.
    pub fn in_bytes(nodes: &[NodeRecord], rest: &[u8], out: &mut [u8]) -> Outcome {
        match table::in_bytes(nodes, rest) {
            Some(bytes) => write::proved(&bytes, out),
            None => Outcome::refusal(9, 0),
        }
    }

    pub fn whole(nodes: &[NodeRecord], rest: &[u8]) -> Made {
        model::table::write_records(&of_model(nodes), rest, usize::MAX)
    }

    /// The model's own records.
    pub fn of_model(nodes: &[NodeRecord]) -> Vec<model::table::Record> {
        let record = |&NodeRecord { kind, a, b }: &NodeRecord| model::table::Record { kind, a, b };
        nodes.iter().map(record).collect()
    }

    pub fn fast(nodes: &[NodeRecord], rest: &[u8], out: &mut [u8]) -> Outcome {
        match fast::write::write_records(nodes, rest, out) {
            Ok(length) => Outcome::answer(length, 0),
            Err(refusal) => Outcome::refusal(refusal.number, refusal.place),
        }
    }

    pub const WRONG: [WrongOfRecords; 31] = [
        ("refuses everything", refuses_everything),
        ("gives one fixed shape", one_fixed_shape),
        ("wraps the count at 65,536", count_of_16_bits),
        ("takes 6,145 records", more_nodes),
        ("takes the first 6,144 of more", cut_to_most),
        ("gives 10 for a record too many", ten_for_too_many),
        ("takes no records for an Int", none_taken),
        ("places no records at 2", none_at_2),
        ("places no records at the rest", none_at_rest),
        ("checks the rest before the count", rest_first),
        ("counts places from the rest", from_the_rest),
        ("leaves the count out of places", without_the_count),
        ("counts 5 bytes a record", records_of_5),
        ("wraps places at 65,536", places_of_16_bits),
        ("leaves second bytes as they were", second_bytes),
        ("has a's high byte for the second", high_byte_second),
        ("takes the kind modulo 16", kind_modulo_16),
        ("swaps a and b", swapped),
        ("takes a and b high byte first", high_byte_first),
        ("drops a's high byte", low_byte_of_a),
        ("drops b's high byte", low_byte_of_b),
        ("takes one record too few", one_too_few),
        ("copies one record too few", last_not_copied),
        ("takes the records last first", last_first),
        ("takes record 0 for the root", root_first),
        ("takes bytes left over", left_over),
        ("gives 12 before 15 and 16", twelve_first),
        ("needs one byte more", needed_one_more),
        ("refuses the length needed", room_to_spare),
        ("writes one byte more", one_byte_more),
        ("refuses, but writes what fits", writes_what_fits),
    ];
}

/// A program that is fed with the parts of an input, in each way that it is cut.
pub type Feeds = fn(&Fed) -> AllFinished;

/// A model with one fault for such a call, and the fault in words.
pub type WrongFeeds = (&'static str, Feeds);

/// The piece reader of each program.
pub mod pieces {
    use crate::fast::pieces::{self, fault::*};
    use crate::question::{feed, AllFinished, Fed, Reader};
    use crate::{read, Outcome, WrongFeeds};

    impl Reader for shiulbart::Pieces {
        fn start() -> Self {
            Self::new()
        }

        fn part(&mut self, part: &[u8]) {
            self.feed(part);
        }

        fn finish(&mut self) -> Outcome {
            match self.finish() {
                Ok(accepted) => Outcome::answer(accepted.length, accepted.depth as usize),
                Err(refusal) => Outcome::refusal(refusal.number(), refusal.place()),
            }
        }
    }

    impl Reader for model::pieces::Pieces {
        fn start() -> Self {
            Self::start()
        }

        fn part(&mut self, part: &[u8]) {
            self.part(part);
        }

        fn finish(&mut self) -> Outcome {
            said(self.finish())
        }
    }

    /// The fast reader with one fault, or with none.
    #[derive(Clone, PartialEq, Eq)]
    struct Faulty<const FAULT: u8>(pieces::Reader);

    impl<const FAULT: u8> Reader for Faulty<FAULT> {
        fn start() -> Self {
            Faulty(pieces::Reader::start(FAULT))
        }

        fn part(&mut self, part: &[u8]) {
            self.0.part(part);
        }

        fn finish(&mut self) -> Outcome {
            match self.0.finish() {
                Ok(accepted) => Outcome::answer(accepted.length, accepted.depth as usize),
                Err(refusal) => Outcome::refusal(refusal.number, refusal.place),
            }
        }
    }

    fn said(answer: Result<model::pieces::Accepted, model::Refusal>) -> Outcome {
        match answer {
            Ok(accepted) => Outcome::answer(accepted.length, accepted.depth as usize),
            Err(refusal) => Outcome::refusal(refusal.number, refusal.place),
        }
    }

    /// What the model says of these parts.
    pub fn model(parts: &[&[u8]]) -> Outcome {
        said(model::pieces::read_parts(parts))
    }

    pub fn proved(fed: &Fed) -> AllFinished {
        feed::<shiulbart::Pieces>(fed)
    }

    /// The proved `read` on the parts joined.
    pub fn by_read(fed: &Fed) -> AllFinished {
        fed.steady(read::proved(&fed.bytes))
    }

    /// The fast reader: right with fault 0, else a wrong model.
    pub fn fast<const FAULT: u8>(fed: &Fed) -> AllFinished {
        feed::<Faulty<FAULT>>(fed)
    }

    pub const WRONG: [WrongFeeds; 27] = [
        ("refuses everything", fast::<REFUSES_EVERYTHING>),
        ("gives one fixed answer", fast::<ONE_FIXED_ANSWER>),
        ("places a cut root at the end", fast::<CUT_AT_THE_END>),
        (
            "places it at the innermost shape",
            fast::<CUT_AT_THE_INNERMOST>,
        ),
        ("gives 8 if nothing else is wrong", fast::<EIGHT_LAST>),
        ("gives faults inside a cut root", fast::<INSIDE_FIRST>),
        ("counts a part after the finish", fast::<COUNTED_AFTER>),
        ("gives 8 by single parts", fast::<EIGHT_BY_PART>),
        ("takes the first 2,048 of more", fast::<FIRST_2048>),
        ("wraps the count at 65,536", fast::<COUNT_OF_16_BITS>),
        ("forgets half a size at a cut", fast::<SIZE_FORGOTTEN>),
        ("forgets half a LEB128 at a cut", fast::<NUMBER_FORGOTTEN>),
        ("refuses a character that is cut", fast::<CHARACTER_REFUSED>),
        ("forgets a character's bounds", fast::<BOUNDS_FORGOTTEN>),
        ("forgets the depth at a cut", fast::<DEEPEST_FORGOTTEN>),
        ("forgets a Map's key at a cut", fast::<KEY_FORGOTTEN>),
        ("has entries for 15 levels", fast::<FIFTEEN_ENTRIES>),
        ("counts places from the part", fast::<PLACES_IN_PART>),
        ("gives the last part's length", fast::<LENGTH_OF_LAST>),
        ("reads the last part alone", fast::<LAST_ALONE>),
        ("takes an empty part for the finish", fast::<EMPTY_FINISHES>),
        ("takes an empty part for a byte", fast::<EMPTY_COUNTED>),
        ("starts anew after the finish", fast::<STARTS_ANEW>),
        ("notes where it was cut", fast::<CUT_NOTED>),
        ("notes an empty part", fast::<EMPTY_NOTED>),
        ("notes a part after the finish", fast::<AFTER_NOTED>),
        ("notes how often it finished", fast::<FINISH_NOTED>),
    ];
}

/// Bytes as hex, with a space between them.
pub fn hex(bytes: &[u8]) -> String {
    match bytes {
        [] => "(no bytes)".to_string(),
        _ => bytes
            .iter()
            .map(|byte| format!("{byte:02X}"))
            .collect::<Vec<_>>()
            .join(" "),
    }
}
