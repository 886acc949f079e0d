//! A shape as a tree, with the place of everything in it.
//!
//! What a shape is built from comes from its node table, and where that stands from the calls that
//! find children and names. Nothing here knows how a shape is laid out.

use shiulbart::{child, name, Child, Node, NodeId, Primitive, Refusal, Table};
use std::ops::Range;

/// A shape, or a text of a Symbol, and what is inside it.
#[derive(Debug)]
pub struct Branch {
    pub role: Role,
    pub what: What,
    /// Where it stands. The children of a packed shape stand nowhere.
    pub at: Option<Range<usize>>,
    /// The bytes of its line: from where those of the line before it end to the first name or child
    /// inside it. So every byte of the root belongs to one line, and they stand in order.
    pub line: Range<usize>,
    pub inside: Vec<Branch>,
}

/// What it is in the shape that it stands in.
#[derive(Debug, PartialEq, Eq)]
pub enum Role {
    Root,
    Element,
    Key,
    Value,
    /// The field of this name; the place is the name's.
    Field {
        name: String,
        place: usize,
    },
    Parameter(usize),
    Return,
    /// A text of a Symbol.
    Text,
}

#[derive(Debug, PartialEq, Eq)]
pub enum What {
    Primitive(Primitive),
    Blank(u16),
    Array,
    Map,
    Record,
    Function,
    Symbol,
    Text(String),
}

impl Branch {
    /// The tree of an encoded shape, or the refusal of bytes that are none.
    pub fn of(bytes: &[u8]) -> Result<Branch, Refusal> {
        let table = Table::decode(bytes)?;
        let root = table.root().expect("the table of a shape has a root");
        let mut walk = Walk {
            table: &table,
            bytes,
            passed: 0,
        };
        walk.shape(root, Role::Root, 0..bytes.len())
    }

    /// Whether what is inside it has no bytes of its own.
    pub fn is_packed(&self) -> bool {
        self.inside.iter().any(|inner| inner.at.is_none())
    }

    /// The numbers of all blanks in it, rising, each once.
    pub fn blanks(&self) -> Vec<u16> {
        let mut blanks: Vec<u16> = self.inside.iter().flat_map(Branch::blanks).collect();
        if let What::Blank(number) = self.what {
            blanks.push(number);
        }
        blanks.sort_unstable();
        blanks.dedup();
        blanks
    }
}

/// What stands inside a shape, where it has a name or is a child.
enum Part {
    Text(String),
    Field(String, NodeId),
    Child(Role, NodeId),
}

fn taken_apart(node: Node) -> (What, Vec<Part>) {
    match node {
        Node::Primitive(primitive) => (What::Primitive(primitive), vec![]),
        Node::Blank(number) => (What::Blank(number), vec![]),
        Node::Array(element) => (What::Array, vec![Part::Child(Role::Element, element)]),
        Node::Map { key, value } => {
            let key = Part::Child(Role::Key, key);
            (What::Map, vec![key, Part::Child(Role::Value, value)])
        }
        Node::Record(fields) => {
            let field = |(name, field): (&str, _)| Part::Field(name.to_string(), field);
            (What::Record, fields.map(field).collect())
        }
        Node::Function { parameters, result } => {
            let parameters = parameters.enumerate();
            let parts = parameters.map(|(k, id)| Part::Child(Role::Parameter(k), id));
            let result = Part::Child(Role::Return, result);
            (What::Function, parts.chain([result]).collect())
        }
        Node::Symbol(texts) => {
            let text = |text: &str| Part::Text(text.to_string());
            (What::Symbol, texts.map(text).collect())
        }
    }
}

/// Where the first name or child stands in a shape; its end, if there is none that has bytes.
fn first_inside(bytes: &[u8], parts: &[Part]) -> Result<usize, Refusal> {
    Ok(match parts.first() {
        Some(Part::Text(_) | Part::Field(..)) => name(bytes, 0)?.place,
        Some(Part::Child(..)) => child(bytes, 0)?
            .range()
            .map_or(bytes.len(), |range| range.start),
        None => bytes.len(),
    })
}

struct Walk<'a> {
    table: &'a Table,
    bytes: &'a [u8],
    /// Where the bytes of the lines so far end.
    passed: usize,
}

impl Walk<'_> {
    /// The shape that a node means and that stands there.
    fn shape(&mut self, id: NodeId, role: Role, at: Range<usize>) -> Result<Branch, Refusal> {
        let node = self.table.node(id).expect("a table has its own nodes");
        let (what, parts) = taken_apart(node);
        let first = first_inside(&self.bytes[at.clone()], &parts)?;
        let line = self.line_to(at.start + first);
        let mut inside = Vec::new();
        for (k, part) in parts.into_iter().enumerate() {
            inside.push(self.part(part, k as u64, &at)?);
        }
        Ok(Branch {
            role,
            what,
            at: Some(at),
            line,
            inside,
        })
    }

    /// Part k of the shape that stands there.
    fn part(&mut self, part: Part, k: u64, at: &Range<usize>) -> Result<Branch, Refusal> {
        let bytes = &self.bytes[at.clone()];
        let from_start = |range: Range<usize>| at.start + range.start..at.start + range.end;
        let name_at = || name(bytes, k).map(|name| from_start(name.range()));
        let (role, id) = match part {
            Part::Text(text) => {
                let at = name_at()?;
                let line = self.line_to(at.end);
                return Ok(leaf(Role::Text, What::Text(text), Some(at), line));
            }
            Part::Field(name, id) => {
                let place = name_at()?.start;
                (Role::Field { name, place }, id)
            }
            Part::Child(role, id) => (role, id),
        };
        match child(bytes, k)? {
            Child::Part { place, length } => {
                self.shape(id, role, from_start(place..place + length))
            }
            Child::Primitive(primitive) => {
                let line = self.line_to(self.passed);
                Ok(leaf(role, What::Primitive(primitive), None, line))
            }
        }
    }

    /// The bytes of the next line, which go up to a place.
    fn line_to(&mut self, end: usize) -> Range<usize> {
        let start = std::mem::replace(&mut self.passed, end);
        start..end
    }
}

fn leaf(role: Role, what: What, at: Option<Range<usize>>, line: Range<usize>) -> Branch {
    Branch {
        role,
        what,
        at,
        line,
        inside: vec![],
    }
}

#[cfg(test)]
mod tests {
    use super::*;

    /// A Record of `a`, an Int, and `b`, an Array of Bool.
    const M4: [u8; 10] = [0x42, 7, 0, 2, 1, b'a', 0x20, 1, b'b', 0x62];

    /// Each line of a tree: where it stands, and its bytes.
    fn lines(branch: &Branch) -> Vec<(Option<Range<usize>>, Range<usize>)> {
        let inside = branch.inside.iter().flat_map(lines);
        let own = (branch.at.clone(), branch.line.clone());
        std::iter::once(own).chain(inside).collect()
    }

    #[test]
    fn a_record_and_a_packed_array() {
        let tree = Branch::of(&M4).unwrap();
        assert_eq!((&tree.role, &tree.what), (&Role::Root, &What::Record));
        assert_eq!(
            lines(&tree),
            [
                (Some(0..10), 0..5),
                (Some(6..7), 5..7),
                (Some(9..10), 7..10),
                (None, 10..10)
            ]
        );
        let name = "b".to_string();
        let b = &tree.inside[1];
        assert_eq!(b.role, Role::Field { name, place: 8 });
        assert!(b.is_packed() && !tree.is_packed());
        let bool = &b.inside[0];
        assert_eq!(bool.what, What::Primitive(Primitive::Bool));
        assert_eq!(bool.role, Role::Element);
    }

    #[test]
    fn blanks_rise_and_come_once() {
        // a Function of blank 300, a Map of blank 7 to blank 300, and an Int, that returns blank 0
        let function = [
            0x43, 16, 0, 3, 0x45, 2, 0, 44, 1, 0x41, 6, 0, 7, 0x45, 2, 0, 44, 1, 0x20, 0,
        ];
        let mut function = function.to_vec();
        function[1] = (function.len() - 3) as u8;
        let tree = Branch::of(&function).unwrap();
        assert_eq!(tree.blanks(), [0, 7, 300]);
        let roles: Vec<&Role> = tree.inside.iter().map(|inner| &inner.role).collect();
        let parameters = [0, 1, 2].map(Role::Parameter);
        let [a, b, c] = &parameters;
        assert_eq!(roles, [a, b, c, &Role::Return]);
        assert_eq!(tree.inside[1].inside[0].role, Role::Key);
        assert_eq!(tree.inside[1].inside[1].role, Role::Value);
    }

    #[test]
    fn every_byte_belongs_to_one_line() {
        let mut shape = vec![0x44, 7, 0, 3, 2, b'u', b'p', 0, 1, b'x'];
        for (first, before) in [
            (0x40, &[][..]),
            (0x43, &[1, 7]),
            (0x42, &[2, 0, 0x20, 1, b'n']),
        ] {
            let size = (before.len() + shape.len()) as u16;
            shape = [&[first], &size.to_le_bytes()[..], before, &shape].concat();
            let tree = Branch::of(&shape).unwrap();
            let mut end = 0;
            for (_, line) in lines(&tree) {
                assert_eq!(line.start, end);
                end = line.end;
            }
            assert_eq!(end, shape.len());
        }
    }

    #[test]
    fn what_is_no_shape_is_refused() {
        let refusal = Branch::of(&M4[..9]).unwrap_err();
        assert_eq!((refusal.number(), refusal.place()), (1, 0));
    }
}
