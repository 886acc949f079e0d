//! Shapes as trees, their depth, their one encoding, and the length of it.

/// > A shape is Int, Float, Bool, Str, Bytes, Array of a shape, Map of key and value, Record (a
/// > list of name and shape), Function (a list of parameters and a return), Symbol (a list of
/// > texts) or Variable (0 to 65,535; the "blank"). Lists keep their order. Record names may come
/// > in any order and may repeat; order is part of the shape. Names and texts may be empty.
#[derive(Clone, Debug, PartialEq, Eq)]
pub enum Shape {
    Int,
    Float,
    Bool,
    Str,
    Bytes,
    Array(Box<Shape>),
    Map(Box<Shape>, Box<Shape>),
    Record(Vec<(Vec<u8>, Shape)>),
    Function(Vec<Shape>, Box<Shape>),
    Symbol(Vec<Vec<u8>>),
    Variable(u16),
}

/// First bytes that a size and a payload follow:
/// > 64-69 | Array, Map, Record, Function, Symbol, Variable from 32 up
pub const ARRAY: u8 = 64;
pub const MAP: u8 = 65;
pub const RECORD: u8 = 66;
pub const FUNCTION: u8 = 67;
pub const SYMBOL: u8 = 68;
pub const VARIABLE: u8 = 69;

/// The number of a primitive shape:
/// > 32-36 | Int, Float, Bool, Str, Bytes (primitive 0 to 4)
pub fn primitive_number(shape: &Shape) -> Option<u8> {
    match shape {
        Shape::Int => Some(0),
        Shape::Float => Some(1),
        Shape::Bool => Some(2),
        Shape::Str => Some(3),
        Shape::Bytes => Some(4),
        _ => None,
    }
}

/// The primitive shape of a number from 0 to 4.
pub fn primitive(number: u8) -> Shape {
    match number {
        0 => Shape::Int,
        1 => Shape::Float,
        2 => Shape::Bool,
        3 => Shape::Str,
        4 => Shape::Bytes,
        _ => panic!("no primitive {number}"),
    }
}

impl Shape {
    /// > Array has 1, Map 2, Record its fields, Function its parameters and then its return; all
    /// > others none.
    pub fn children(&self) -> Vec<&Shape> {
        match self {
            Shape::Array(element) => vec![element],
            Shape::Map(key, value) => vec![key, value],
            Shape::Record(fields) => fields.iter().map(|(_, field)| field).collect(),
            Shape::Function(parameters, result) => {
                let mut all: Vec<&Shape> = parameters.iter().collect();
                all.push(result);
                all
            }
            _ => Vec::new(),
        }
    }

    /// > Depth: a shape without children has depth 1 (an empty Record and every Symbol too), any
    /// > other 1 more than its deepest child. So Array of Int has depth 2, though it is one byte.
    pub fn depth(&self) -> u64 {
        let deepest = self.children().iter().map(|child| child.depth()).max();
        match deepest {
            None => 1,
            Some(deepest) => 1 + deepest,
        }
    }
}

// ---------------------------------------------------------------------------------------------
// The encoding.

/// "LEB128 in the fewest bytes": unsigned, little end first, seven bits to the byte.
pub fn leb128(mut number: usize) -> Vec<u8> {
    let mut bytes = Vec::new();
    while number >= 128 {
        bytes.push((number % 128) as u8 + 128);
        number /= 128;
    }
    bytes.push(number as u8);
    bytes
}

/// > Bytes 64 to 69 are followed by a payload size, two bytes, low first, then the payload
///
/// A payload over 65,535 bytes has no such size. Callers check the length first, so what is
/// written for it does not matter; it is the size modulo 65,536.
fn long(first: u8, payload: Vec<u8>) -> Vec<u8> {
    let size = payload.len();
    let mut bytes = vec![first, (size % 256) as u8, (size / 256 % 256) as u8];
    bytes.extend(payload);
    bytes
}

/// Length, then text (or name).
fn text(text: &[u8]) -> Vec<u8> {
    let mut bytes = leb128(text.len());
    bytes.extend(text);
    bytes
}

/// The one encoding of a shape. (It reads back if it has at most 2,048 bytes, its depth is at
/// most 16 and its names and texts are UTF-8.)
pub fn encode(shape: &Shape) -> Vec<u8> {
    if let Some(number) = primitive_number(shape) {
        // > 32-36 | Int, Float, Bool, Str, Bytes (primitive 0 to 4)
        return vec![32 + number];
    }
    match shape {
        // > 96-100 | Array of primitive (byte - 96)
        // > Array: the element.
        // > Array of a primitive, Map of two primitives and Variables under 32 have only their
        // > one-byte form.
        Shape::Array(element) => match primitive_number(element) {
            Some(number) => vec![96 + number],
            None => long(ARRAY, encode(element)),
        },
        // > 101-125 | Map: 101 + 5 x key + value, both primitives
        // > Map: key, value.
        Shape::Map(key, value) => match (primitive_number(key), primitive_number(value)) {
            (Some(key), Some(value)) => vec![101 + 5 * key + value],
            _ => {
                let mut payload = encode(key);
                payload.extend(encode(value));
                long(MAP, payload)
            }
        },
        // > Record: field count, then for each field name length, name, shape.
        Shape::Record(fields) => {
            let mut payload = leb128(fields.len());
            for (name, field) in fields {
                payload.extend(text(name));
                payload.extend(encode(field));
            }
            long(RECORD, payload)
        }
        // > Function: parameter count, the parameters, the return.
        Shape::Function(parameters, result) => {
            let mut payload = leb128(parameters.len());
            for parameter in parameters {
                payload.extend(encode(parameter));
            }
            payload.extend(encode(result));
            long(FUNCTION, payload)
        }
        // > Symbol: part count, then for each part length and text.
        Shape::Symbol(parts) => {
            let mut payload = leb128(parts.len());
            for part in parts {
                payload.extend(text(part));
            }
            long(SYMBOL, payload)
        }
        // > 0-31 | Variable of that number
        Shape::Variable(number) if *number < 32 => vec![*number as u8],
        // > Variable: two bytes, low first.
        Shape::Variable(number) => {
            long(VARIABLE, vec![(*number % 256) as u8, (*number / 256) as u8])
        }
        _ => unreachable!("primitives are done above"),
    }
}

// ---------------------------------------------------------------------------------------------
// Depth and length without bytes.

/// What must be known of the children to know it of the parent. Made of the children's measures
/// alone, so it can be had for a filled shape without filling, and for a node of a table without
/// walking what nodes share. Sums stop at `u64::MAX`, far above every limit; below it they are
/// exact.
#[derive(Clone, Copy, Debug, PartialEq, Eq)]
pub struct Measure {
    /// Is it one of Int, Float, Bool, Str, Bytes?
    pub primitive: bool,
    /// Its depth.
    pub depth: u64,
    /// The length of its encoding.
    pub length: u64,
}

fn sum(numbers: impl Iterator<Item = u64>) -> u64 {
    numbers.fold(0, u64::saturating_add)
}

/// How many bytes `leb128` makes.
fn leb128_length(number: u64) -> u64 {
    if number < 128 {
        1
    } else {
        1 + leb128_length(number / 128)
    }
}

/// The length of a text or name with its length before it.
fn text_length(length: u64) -> u64 {
    leb128_length(length).saturating_add(length)
}

/// First byte, two bytes of size, payload.
fn long_length(payload: u64) -> u64 {
    payload.saturating_add(3)
}

/// "1 more than its deepest child", or 1 without children.
fn depth_over(children: &[Measure]) -> u64 {
    let deepest = children.iter().map(|child| child.depth).max();
    deepest.unwrap_or(0).saturating_add(1)
}

impl Measure {
    pub fn primitive() -> Measure {
        Measure {
            primitive: true,
            depth: 1,
            length: 1,
        }
    }

    /// One byte under 32, else first byte, size and two bytes.
    pub fn variable(number: u16) -> Measure {
        Measure {
            primitive: false,
            depth: 1,
            length: if number < 32 { 1 } else { long_length(2) },
        }
    }

    /// One byte over a primitive, else long.
    pub fn array(element: Measure) -> Measure {
        Measure {
            primitive: false,
            depth: depth_over(&[element]),
            length: if element.primitive {
                1
            } else {
                long_length(element.length)
            },
        }
    }

    /// One byte over two primitives, else long.
    pub fn map(key: Measure, value: Measure) -> Measure {
        Measure {
            primitive: false,
            depth: depth_over(&[key, value]),
            length: if key.primitive && value.primitive {
                1
            } else {
                long_length(key.length.saturating_add(value.length))
            },
        }
    }

    /// Of the lengths of the names, and the fields in the same order.
    pub fn record(names: &[u64], fields: &[Measure]) -> Measure {
        let count = leb128_length(fields.len() as u64);
        let names = sum(names.iter().map(|name| text_length(*name)));
        let shapes = sum(fields.iter().map(|field| field.length));
        Measure {
            primitive: false,
            depth: depth_over(fields),
            length: long_length(sum([count, names, shapes].into_iter())),
        }
    }

    /// Of the parameters and then the return.
    pub fn function(parameters_and_return: &[Measure]) -> Measure {
        let count = leb128_length(parameters_and_return.len() as u64 - 1);
        let shapes = sum(parameters_and_return.iter().map(|child| child.length));
        Measure {
            primitive: false,
            depth: depth_over(parameters_and_return),
            length: long_length(count.saturating_add(shapes)),
        }
    }

    /// Of the lengths of the texts.
    pub fn symbol(texts: &[u64]) -> Measure {
        let count = leb128_length(texts.len() as u64);
        let texts = sum(texts.iter().map(|text| text_length(*text)));
        Measure {
            primitive: false,
            depth: 1,
            length: long_length(count.saturating_add(texts)),
        }
    }
}

/// The measure of a shape, when each Variable has the measure that `blank` gives.
pub fn measure(shape: &Shape, blank: &dyn Fn(u16) -> Measure) -> Measure {
    let children: Vec<Measure> = shape
        .children()
        .iter()
        .map(|child| measure(child, blank))
        .collect();
    match shape {
        Shape::Int | Shape::Float | Shape::Bool | Shape::Str | Shape::Bytes => Measure::primitive(),
        Shape::Array(_) => Measure::array(children[0]),
        Shape::Map(_, _) => Measure::map(children[0], children[1]),
        Shape::Record(fields) => {
            let names: Vec<u64> = fields.iter().map(|(name, _)| name.len() as u64).collect();
            Measure::record(&names, &children)
        }
        Shape::Function(_, _) => Measure::function(&children),
        Shape::Symbol(parts) => {
            let texts: Vec<u64> = parts.iter().map(|part| part.len() as u64).collect();
            Measure::symbol(&texts)
        }
        Shape::Variable(number) => blank(*number),
    }
}

/// The length of the encoding, without making it.
pub fn encoded_len(shape: &Shape) -> u64 {
    measure(shape, &Measure::variable).length
}
