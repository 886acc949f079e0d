//! 01-scope.md, "Sheets": checking, filling and joining.

use crate::read::read;
use crate::shape::{encode, measure, Measure, Shape};
use crate::{lend, limits, number_at, put_number, refuse, Refusal};

/// Blank numbers, strictly rising, each with its shape.
#[derive(Clone, Debug, PartialEq, Eq)]
pub struct Sheet(pub Vec<(u16, Shape)>);

impl Sheet {
    /// The shape for a blank, if the sheet names it.
    pub fn get(&self, blank: u16) -> Option<&Shape> {
        let entry = self.0.iter().find(|(number, _)| *number == blank);
        entry.map(|(_, shape)| shape)
    }

    /// > Two sections, each after its count: entries (blank number, length 1 to 2,048; numbers
    /// > strictly rising), then the encodings joined in that order, exactly as long as the lengths
    /// > say.
    pub fn bytes(&self) -> Vec<u8> {
        let mut bytes = Vec::new();
        let mut encodings = Vec::new();
        put_number(&mut bytes, self.0.len());
        for (blank, shape) in &self.0 {
            let encoding = encode(shape);
            put_number(&mut bytes, usize::from(*blank));
            put_number(&mut bytes, encoding.len());
            encodings.extend(encoding);
        }
        put_number(&mut bytes, encodings.len());
        bytes.extend(encodings);
        bytes
    }
}

/// The sheet in the bytes; faults have the given number (13, or 14 for a second sheet):
/// > 13 | sheet broken (when joining: the first) | see sheets
/// > 14 | second sheet broken | as 13
pub fn check(bytes: &[u8], number: u32) -> Result<Sheet, Refusal> {
    // > 13, in order: entry count missing, over 32 or entries past the end (place 0)
    let Some(count) = number_at(bytes, 0) else {
        return refuse(number, 0);
    };
    if count > limits::ENTRIES {
        return refuse(number, 0);
    }
    let second_count = 2 + 4 * count;
    if second_count > bytes.len() {
        return refuse(number, 0);
    }
    // > an entry not rising or of bad length (the entry)
    // decided: "entry by entry, in order"
    let mut entries: Vec<(usize, usize)> = Vec::new();
    for index in 0..count {
        let blank = number_at(bytes, 2 + 4 * index).expect("entries are inside");
        let length = number_at(bytes, 4 + 4 * index).expect("entries are inside");
        let rising = match entries.last() {
            None => true,
            Some((before, _)) => *before < blank,
        };
        let good_length = (1..=limits::ENCODING).contains(&length);
        if !rising || !good_length {
            return refuse(number, index);
        }
        entries.push((blank, length));
    }
    // > second count missing, over 16,384, not the sum, or bytes past the end (that count's place)
    let Some(total) = number_at(bytes, second_count) else {
        return refuse(number, second_count);
    };
    let sum: usize = entries.iter().map(|(_, length)| length).sum();
    let start = second_count + 2;
    if total > limits::ENCODINGS || total != sum || start + total > bytes.len() {
        return refuse(number, second_count);
    }
    // > leftover bytes (the first)
    if start + total < bytes.len() {
        return refuse(number, start + total);
    }
    // > an encoding the reader refuses (its entry)
    let mut sheet = Vec::new();
    let mut place = start;
    for (index, (blank, length)) in entries.iter().enumerate() {
        match read(&bytes[place..place + length]) {
            Ok(shape) => sheet.push((*blank as u16, shape)),
            Err(_) => return refuse(number, index),
        }
        place += length;
    }
    Ok(Sheet(sheet))
}

/// > Fill: blanks named by the sheet are replaced together, once; others stay.
pub fn replace(template: &Shape, sheet: &Sheet) -> Shape {
    match template {
        Shape::Variable(number) => match sheet.get(*number) {
            Some(shape) => shape.clone(),
            None => Shape::Variable(*number),
        },
        Shape::Array(element) => Shape::Array(Box::new(replace(element, sheet))),
        Shape::Map(key, value) => Shape::Map(
            Box::new(replace(key, sheet)),
            Box::new(replace(value, sheet)),
        ),
        Shape::Record(fields) => Shape::Record(
            fields
                .iter()
                .map(|(name, field)| (name.clone(), replace(field, sheet)))
                .collect(),
        ),
        Shape::Function(parameters, result) => Shape::Function(
            parameters
                .iter()
                .map(|parameter| replace(parameter, sheet))
                .collect(),
            Box::new(replace(result, sheet)),
        ),
        Shape::Int | Shape::Float | Shape::Bool | Shape::Str | Shape::Bytes | Shape::Symbol(_) => {
            template.clone()
        }
    }
}

/// The measure of each shape of a sheet.
fn measures(sheet: &Sheet) -> Vec<(u16, Measure)> {
    sheet
        .0
        .iter()
        .map(|(blank, shape)| (*blank, measure(shape, &Measure::variable)))
        .collect()
}

/// The measure of `replace(template, sheet)`, which may be too big to make: a blank that the sheet
/// names measures what the sheet has for it. `measures` is that of the sheet.
fn measure_filled(template: &Shape, measures: &[(u16, Measure)]) -> Measure {
    measure(
        template,
        &|blank| match measures.iter().find(|(number, _)| *number == blank) {
            Some((_, measure)) => *measure,
            None => Measure::variable(blank),
        },
    )
}

/// The filled shape, or 15 or 16 at the given place. `measures` is that of the sheet.
/// > 15 | made shape deeper than 16 | 0; when joining, the blank's number
/// > 16 | made shape over 2,048 bytes | as 15
fn make(
    template: &Shape,
    sheet: &Sheet,
    measures: &[(u16, Measure)],
    place: usize,
) -> Result<Shape, Refusal> {
    let made = measure_filled(template, measures);
    if made.depth > limits::DEPTH {
        return refuse(15, place);
    }
    if made.length > limits::ENCODING as u64 {
        return refuse(16, place);
    }
    Ok(replace(template, sheet))
}

/// > Checks: template (1 to 8), sheet (13), 15, 16, 12. Only the made shape counts for 15 and 16.
pub fn fill(template: &[u8], sheet: &[u8], room: usize) -> Result<Vec<u8>, Refusal> {
    let template = read(template)?;
    let sheet = check(sheet, 13)?;
    let made = make(&template, &sheet, &measures(&sheet), 0)?;
    lend(encode(&made), room)
}

/// > Join of first and second: each blank of the first with its shape filled by the second, and
/// > each blank only in the second as it is there. Checks: 13, 14, 17 (entries), then by rising
/// > number 15 and 16, then 17 (bytes), 12.
pub fn join(first: &[u8], second: &[u8], room: usize) -> Result<Vec<u8>, Refusal> {
    let first = check(first, 13)?;
    let second = check(second, 14)?;
    // All blanks of either, rising, each once.
    let mut blanks: Vec<u16> = Vec::new();
    blanks.extend(first.0.iter().map(|(blank, _)| *blank));
    blanks.extend(second.0.iter().map(|(blank, _)| *blank));
    blanks.sort();
    blanks.dedup();
    // > 17 | joined sheet over 32 entries or 16,384 bytes | how many there would be
    if blanks.len() > limits::ENTRIES {
        return refuse(17, blanks.len());
    }
    // decided: "blank by blank in rising order, for each 15 and then 16"
    let measures = measures(&second);
    let mut joined = Vec::new();
    for blank in blanks {
        let shape = match first.get(blank) {
            Some(shape) => make(shape, &second, &measures, usize::from(blank))?,
            // Only in the second: as it is there. It was read, so it is within the limits.
            None => second.get(blank).expect("it is in one of them").clone(),
        };
        joined.push((blank, shape));
    }
    // decided: "bytes of encodings alone; the place is their sum"
    let bytes: usize = joined.iter().map(|(_, shape)| encode(shape).len()).sum();
    if bytes > limits::ENCODINGS {
        return refuse(17, bytes);
    }
    lend(Sheet(joined).bytes(), room)
}
