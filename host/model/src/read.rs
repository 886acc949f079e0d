//! The reader: 01-scope.md, "Reading order", clause by clause.

use crate::shape::{self, Shape};
use crate::{limits, refuse, two_bytes, Refusal};

/// The shape that the bytes encode, or the first fault. (The length of an accepted encoding is
/// `bytes.len()`, its depth is that of the shape.)
pub fn read(bytes: &[u8]) -> Result<Shape, Refusal> {
    // > 8 comes first.
    // > 8 | input over 2,048 bytes | 2,048
    if bytes.len() > limits::ENCODING {
        return refuse(8, limits::ENCODING);
    }
    // > Then the bytes are read from the left, children in order with the levels left falling by
    // > one, and the first fault met is the answer.
    let (shape, after) = read_shape(bytes, 0, bytes.len(), 1)?;
    // > After the root, bytes left over: 3.
    // > 3 | size does not match | ... at the end, first byte left over
    if after < bytes.len() {
        return refuse(3, after);
    }
    Ok(shape)
}

/// The shape at `place`, in the window that ends before `end`, on the given level (the root's is
/// 1); and the place after it.
fn read_shape(
    bytes: &[u8],
    place: usize,
    end: usize,
    level: u64,
) -> Result<(Shape, usize), Refusal> {
    // > At a shape whose window (the enclosing payload, or the input) ends at its place: 1 there.
    if place == end {
        return refuse(1, place);
    }
    let first = bytes[place];
    // > Then 2.
    // > 2 | first byte not assigned | that byte
    let assigned = matches!(first, 0..=31 | 32..=36 | 64..=69 | 96..=100 | 101..=125);
    if !assigned {
        return refuse(2, place);
    }
    // > Then 7, if its level is over 16, or is 16 and the byte is packed (96 to 125).
    // > 7 | deeper than 16 | the shape's first byte
    let packed = matches!(first, 96..=125);
    if level > limits::DEPTH || (level == limits::DEPTH && packed) {
        return refuse(7, place);
    }
    match first {
        // > 0-31 | Variable of that number
        0..=31 => Ok((Shape::Variable(u16::from(first)), place + 1)),
        // > 32-36 | Int, Float, Bool, Str, Bytes (primitive 0 to 4)
        32..=36 => Ok((shape::primitive(first - 32), place + 1)),
        // > 96-100 | Array of primitive (byte - 96)
        96..=100 => {
            let element = shape::primitive(first - 96);
            Ok((Shape::Array(Box::new(element)), place + 1))
        }
        // > 101-125 | Map: 101 + 5 x key + value, both primitives
        101..=125 => {
            let key = shape::primitive((first - 101) / 5);
            let value = shape::primitive((first - 101) % 5);
            Ok((Shape::Map(Box::new(key), Box::new(value)), place + 1))
        }
        _ => read_long(bytes, place, end, level),
    }
}

/// The rest of `read_shape` for the first bytes 64 to 69:
/// > Bytes 64 to 69 are followed by a payload size, two bytes, low first, then the payload
fn read_long(
    bytes: &[u8],
    place: usize,
    end: usize,
    level: u64,
) -> Result<(Shape, usize), Refusal> {
    // > For 64 to 69: 1 at the first byte if the size bytes or the payload pass the window.
    let payload = place + 3;
    if payload > end {
        return refuse(1, place);
    }
    let size = usize::from(two_bytes(bytes[place + 1], bytes[place + 2]));
    let payload_end = payload + size;
    if payload_end > end {
        return refuse(1, place);
    }
    // > Then the payload
    let (shape, after) = match bytes[place] {
        shape::ARRAY => read_array(bytes, payload, payload_end, level)?,
        shape::MAP => read_map(bytes, payload, payload_end, level)?,
        shape::RECORD => read_record(bytes, payload, payload_end, level)?,
        shape::FUNCTION => read_function(bytes, payload, payload_end, level)?,
        shape::SYMBOL => read_symbol(bytes, payload, payload_end)?,
        _ => {
            // > A long Variable whose size is not 2 is 3.
            // > 3 | size does not match | the shape's first byte
            if size != 2 {
                return refuse(3, place);
            }
            // > Variable: two bytes, low first.
            let number = two_bytes(bytes[payload], bytes[payload + 1]);
            (Shape::Variable(number), payload + 2)
        }
    };
    // > Payload bytes left over: 3.
    // > 3 | size does not match | the shape's first byte
    if after < payload_end {
        return refuse(3, place);
    }
    // > Then 6.
    // > 6 | long form where a short one exists | the shape's first byte
    // > Array of a primitive, Map of two primitives and Variables under 32 have only their
    // > one-byte form.
    let short_form_exists = match &shape {
        Shape::Array(element) => shape::primitive_number(element).is_some(),
        Shape::Map(key, value) => {
            shape::primitive_number(key).is_some() && shape::primitive_number(value).is_some()
        }
        Shape::Variable(number) => *number < 32,
        _ => false,
    };
    if short_form_exists {
        return refuse(6, place);
    }
    Ok((shape, after))
}

// The payloads. `place` is where the payload starts, `end` is where it ends, `level` is that of
// the shape whose payload it is; children are one level further. Each answers the shape, and the
// place after what it needed. A count that promises too much has
// > no fault of its own: the first item that is missing is the fault (a missing shape is 1, a
// > missing length is 4, each at the payload's end)

/// > Array: the element.
fn read_array(
    bytes: &[u8],
    place: usize,
    end: usize,
    level: u64,
) -> Result<(Shape, usize), Refusal> {
    let (element, place) = read_shape(bytes, place, end, level + 1)?;
    Ok((Shape::Array(Box::new(element)), place))
}

/// > Map: key, value.
fn read_map(bytes: &[u8], place: usize, end: usize, level: u64) -> Result<(Shape, usize), Refusal> {
    let (key, place) = read_shape(bytes, place, end, level + 1)?;
    let (value, place) = read_shape(bytes, place, end, level + 1)?;
    Ok((Shape::Map(Box::new(key), Box::new(value)), place))
}

/// > Record: field count, then for each field name length, name, shape.
fn read_record(
    bytes: &[u8],
    place: usize,
    end: usize,
    level: u64,
) -> Result<(Shape, usize), Refusal> {
    let (count, mut place) = read_leb128(bytes, place, end)?;
    let mut fields = Vec::new();
    for _ in 0..count {
        let (name, after_name) = read_text(bytes, place, end)?;
        let (field, after_field) = read_shape(bytes, after_name, end, level + 1)?;
        fields.push((name, field));
        place = after_field;
    }
    Ok((Shape::Record(fields), place))
}

/// > Function: parameter count, the parameters, the return.
fn read_function(
    bytes: &[u8],
    place: usize,
    end: usize,
    level: u64,
) -> Result<(Shape, usize), Refusal> {
    let (count, mut place) = read_leb128(bytes, place, end)?;
    let mut parameters = Vec::new();
    for _ in 0..count {
        let (parameter, after) = read_shape(bytes, place, end, level + 1)?;
        parameters.push(parameter);
        place = after;
    }
    let (result, place) = read_shape(bytes, place, end, level + 1)?;
    Ok((Shape::Function(parameters, Box::new(result)), place))
}

/// > Symbol: part count, then for each part length and text.
fn read_symbol(bytes: &[u8], place: usize, end: usize) -> Result<(Shape, usize), Refusal> {
    let (count, mut place) = read_leb128(bytes, place, end)?;
    let mut parts = Vec::new();
    for _ in 0..count {
        let (part, after) = read_text(bytes, place, end)?;
        parts.push(part);
        place = after;
    }
    Ok((Shape::Symbol(parts), place))
}

/// A length and a text (or name) of that length; answers the text and the place after it.
fn read_text(bytes: &[u8], place: usize, end: usize) -> Result<(Vec<u8>, usize), Refusal> {
    let (length, start) = read_leb128(bytes, place, end)?;
    // > a text that passes the payload is 1 at its length's place
    if start + length > end {
        return refuse(1, place);
    }
    let text = &bytes[start..start + length];
    // > then 5.
    // > 5 | text is not UTF-8 | first byte of the text
    if std::str::from_utf8(text).is_err() {
        return refuse(5, start);
    }
    Ok((text.to_vec(), start + length))
}

/// A count or a length, and the place after it:
/// > Counts and lengths are LEB128 in the fewest bytes and never more than two.
/// > a LEB128 fault is 4, at the byte where it starts or should start
/// > 4 | LEB128 unfinished, over two bytes, or not shortest | its first byte
fn read_leb128(bytes: &[u8], place: usize, end: usize) -> Result<(usize, usize), Refusal> {
    // Missing: it should start here.
    if place == end {
        return refuse(4, place);
    }
    let first = usize::from(bytes[place]);
    if first < 128 {
        return Ok((first, place + 1));
    }
    // "unfinished"
    if place + 1 == end {
        return refuse(4, place);
    }
    let second = usize::from(bytes[place + 1]);
    // "over two bytes"
    if second >= 128 {
        return refuse(4, place);
    }
    // "not shortest"
    if second == 0 {
        return refuse(4, place);
    }
    Ok((first - 128 + 128 * second, place + 2))
}
