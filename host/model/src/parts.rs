//! 01-scope.md, "Children and names". The places are found by laying the read tree out again:
//! an accepted encoding is the only one of its shape.

use crate::read::read;
use crate::shape::{encode, leb128, primitive_number, Shape};
use crate::{refuse, Refusal};

/// > Child k of an accepted shape, counted from 0, is answered as place and length in the parent,
/// > or as a primitive's number when the parent is packed: those children have no bytes.
#[derive(Clone, Copy, Debug, PartialEq, Eq)]
pub enum Child {
    Part { place: u32, length: u32 },
    Primitive(u32),
}

/// First byte and two bytes of size come before the payload.
const PAYLOAD: usize = 3;

/// > A bad encoding gives 1 to 8 first, then 18.
/// > 18 | no such child or name | how many there are
pub fn child(bytes: &[u8], k: u64) -> Result<Child, Refusal> {
    let shape = read(bytes)?;
    let packed = matches!(bytes[0], 96..=125);
    let children = if packed {
        packed_children(&shape)
    } else {
        children_with_bytes(&shape)
    };
    pick(&children, k)
}

/// > Name k: a Record's or Symbol's k-th text as place and length; other shapes have none. A bad
/// > encoding gives 1 to 8 first, then 18.
pub fn name(bytes: &[u8], k: u64) -> Result<(u32, u32), Refusal> {
    let shape = read(bytes)?;
    pick(&names(&shape), k)
}

/// The k-th of them, or 18 at "how many there are". "any unsigned 64-bit number may come; none
/// wraps"
fn pick<T: Copy>(all: &[T], k: u64) -> Result<T, Refusal> {
    if k >= all.len() as u64 {
        return refuse(18, all.len());
    }
    Ok(all[k as usize])
}

/// The primitives in a packed byte, by number.
fn packed_children(shape: &Shape) -> Vec<Child> {
    shape
        .children()
        .iter()
        .map(|child| {
            let number = primitive_number(child).expect("packed children are primitives");
            Child::Primitive(u32::from(number))
        })
        .collect()
}

/// > Array has 1, Map 2, Record its fields, Function its parameters and then its return; all
/// > others none. Children with bytes lie inside the parent's payload, share no byte, and are
/// > accepted encodings.
fn children_with_bytes(shape: &Shape) -> Vec<Child> {
    let mut all = Vec::new();
    // What comes before the first child: a count, or nothing.
    let mut place = PAYLOAD
        + match shape {
            Shape::Record(fields) => leb128(fields.len()).len(),
            Shape::Function(parameters, _) => leb128(parameters.len()).len(),
            _ => 0,
        };
    for (index, child) in shape.children().iter().enumerate() {
        // What comes before this child: its name with its length, or nothing.
        if let Shape::Record(fields) = shape {
            let (name, _) = &fields[index];
            place += leb128(name.len()).len() + name.len();
        }
        let length = encode(child).len();
        all.push(Child::Part {
            place: place as u32,
            length: length as u32,
        });
        place += length;
    }
    all
}

/// > name k, "place and length" | of the text itself: place is the text's first byte (for an empty
/// > text the byte after its length)
fn names(shape: &Shape) -> Vec<(u32, u32)> {
    // Each text, and how many bytes there are between it and the next text's length.
    let texts: Vec<(&Vec<u8>, usize)> = match shape {
        Shape::Record(fields) => fields
            .iter()
            .map(|(name, field)| (name, encode(field).len()))
            .collect(),
        Shape::Symbol(parts) => parts.iter().map(|part| (part, 0)).collect(),
        _ => Vec::new(),
    };
    let mut all = Vec::new();
    let mut place = PAYLOAD + leb128(texts.len()).len();
    for (text, between) in texts {
        place += leb128(text.len()).len();
        all.push((place as u32, text.len() as u32));
        place += text.len() + between;
    }
    all
}
