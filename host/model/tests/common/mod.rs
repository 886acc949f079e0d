//! Helpers for the tests: hex, refusals, a small seeded random generator, random shapes.
#![allow(dead_code)] // each test file uses some of them

use model::shape::{primitive, Shape};
use model::Refusal;

/// Bytes from hex with spaces.
pub fn hex(text: &str) -> Vec<u8> {
    text.split_whitespace()
        .map(|pair| u8::from_str_radix(pair, 16).expect("two hex digits"))
        .collect()
}

/// The refusal as an `Err`.
pub fn no<T>(number: u32, place: u32) -> Result<T, Refusal> {
    Err(Refusal { number, place })
}

pub fn array(element: Shape) -> Shape {
    Shape::Array(Box::new(element))
}

pub fn map(key: Shape, value: Shape) -> Shape {
    Shape::Map(Box::new(key), Box::new(value))
}

pub fn function(parameters: Vec<Shape>, result: Shape) -> Shape {
    Shape::Function(parameters, Box::new(result))
}

pub fn record(fields: &[(&str, Shape)]) -> Shape {
    Shape::Record(
        fields
            .iter()
            .map(|(name, field)| (name.as_bytes().to_vec(), field.clone()))
            .collect(),
    )
}

pub fn symbol(parts: &[&str]) -> Shape {
    Shape::Symbol(parts.iter().map(|part| part.as_bytes().to_vec()).collect())
}

/// `count` Arrays round `inner`.
pub fn arrays(count: usize, inner: Shape) -> Shape {
    (0..count).fold(inner, |shape, _| array(shape))
}

/// splitmix64.
pub struct Random(pub u64);

impl Random {
    pub fn next(&mut self) -> u64 {
        self.0 = self.0.wrapping_add(0x9E37_79B9_7F4A_7C15);
        let mut z = self.0;
        z = (z ^ (z >> 30)).wrapping_mul(0xBF58_476D_1CE4_E5B9);
        z = (z ^ (z >> 27)).wrapping_mul(0x94D0_49BB_1331_11EB);
        z ^ (z >> 31)
    }

    /// A number below `bound`.
    pub fn below(&mut self, bound: usize) -> usize {
        (self.next() % bound as u64) as usize
    }

    pub fn byte(&mut self) -> u8 {
        self.below(256) as u8
    }

    /// Any of them.
    pub fn of<'a, T>(&mut self, all: &'a [T]) -> &'a T {
        &all[self.below(all.len())]
    }

    /// A text: mostly short, now and then over 127 bytes.
    pub fn text(&mut self) -> Vec<u8> {
        let length = match self.below(40) {
            0 => 120 + self.below(20),
            1..=10 => 0,
            _ => self.below(6),
        };
        let mut text = String::new();
        while text.len() < length {
            text.push(*self.of(&['a', 'b', '\u{0}', 'é', '€', '\u{7FF}', '𝄞', '\u{10FFFF}']));
        }
        text.into_bytes()
    }

    /// A blank's number: often small, so that sheets meet it.
    pub fn blank(&mut self) -> u16 {
        match self.below(8) {
            0 => self.next() as u16,
            1 => *self.of(&[31, 32, 33, 255, 256, 65_535]),
            _ => self.below(6) as u16,
        }
    }

    /// A shape of depth at most `levels`, with up to `width` children in a list.
    pub fn shape(&mut self, levels: usize, width: usize) -> Shape {
        let narrower = width.div_ceil(2);
        let choice = if levels <= 1 {
            self.below(8)
        } else {
            self.below(20)
        };
        match choice {
            0..=3 => primitive(self.below(5) as u8),
            4..=5 => Shape::Variable(self.blank()),
            6 => Shape::Record(Vec::new()),
            7 => {
                let count = self.below(width + 1);
                Shape::Symbol((0..count).map(|_| self.text()).collect())
            }
            8..=10 => array(self.shape(levels - 1, width)),
            11..=13 => map(
                self.shape(levels - 1, narrower),
                self.shape(levels - 1, narrower),
            ),
            14..=16 => {
                let count = self.below(width + 1);
                let mut fields = Vec::new();
                for _ in 0..count {
                    fields.push((self.text(), self.shape(levels - 1, narrower)));
                }
                Shape::Record(fields)
            }
            _ => {
                let count = self.below(width + 1);
                let mut parameters = Vec::new();
                for _ in 0..count {
                    parameters.push(self.shape(levels - 1, narrower));
                }
                function(parameters, self.shape(levels - 1, narrower))
            }
        }
    }

    /// A shape of any of several builds: small, wide, deep.
    pub fn any_shape(&mut self) -> Shape {
        match self.below(10) {
            0 => {
                let inner = self.shape(4, 3);
                arrays(self.below(17), inner)
            }
            1 => self.shape(2, 200),
            2 => self.shape(17, 3),
            3..=5 => self.shape(8, 4),
            _ => self.shape(4, 5),
        }
    }

    /// Such a shape within the limits of an encoding.
    pub fn fitting_shape(&mut self) -> Shape {
        loop {
            let shape = self.any_shape();
            if shape.depth() <= 16 && model::shape::encoded_len(&shape) <= 2_048 {
                return shape;
            }
        }
    }

    /// A shape within the limits with blanks in it, for sheets and templates: small, deep, wide.
    pub fn blank_shape(&mut self) -> Shape {
        let blank = Shape::Variable(self.blank());
        match self.below(6) {
            0 => blank,
            1 => arrays(self.below(16), blank),
            2 => function(vec![blank; self.below(120)], Shape::Int),
            3 => map(blank, self.shape(3, 2)),
            4 => self.shape(3, 2),
            _ => self.fitting_shape(),
        }
    }

    /// The bytes with a few small changes.
    pub fn spoiled(&mut self, bytes: &[u8]) -> Vec<u8> {
        let mut bytes = bytes.to_vec();
        for _ in 0..1 + self.below(3) {
            let at = self.below(bytes.len() + 1);
            match self.below(5) {
                0 => bytes.insert(at, self.byte()),
                1 if at < bytes.len() => {
                    bytes.remove(at);
                }
                2 => bytes.truncate(at),
                3 if at < bytes.len() => bytes[at] = self.byte(),
                _ if at < bytes.len() => {
                    let step = self.below(3) as u8;
                    bytes[at] = bytes[at].wrapping_add(step).wrapping_sub(1);
                }
                _ => (),
            }
        }
        bytes
    }
}
