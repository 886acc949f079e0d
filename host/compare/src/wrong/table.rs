//! Wrong models of `table`: the right answer with something changed, or a table that was made in another
//! way.

use super::{lend, placed, told};
use crate::cases::leb128;
use crate::cases::table::{kind::*, Node, Table};
use crate::table::fast as right;
use crate::Outcome;
use model::shape::Shape;

/// How a table is made: right, or with one of these.
#[derive(Clone, Copy, PartialEq, Eq)]
enum Fault {
    NamesFirst,
    EmptyRecord0,
    EmptySymbol0,
    NodeFirst,
    LinksFirst,
    NodesShared,
    NamesShared,
    SymbolTargets,
    ReturnFirst,
    LinksNumbered,
    TextsAnew,
    LengthsToo,
    LowByte,
    LastFirst,
}

use Fault::*;

struct Maker {
    fault: Fault,
    table: Table,
}

impl Maker {
    fn name(&mut self, text: &[u8], first: usize) -> u16 {
        let table = &mut self.table;
        if self.fault == NamesShared {
            let same = |&(start, length): &(u16, u16)| {
                &table.text[start as usize..][..length as usize] == text
            };
            if let Some(found) = table.names.iter().position(same) {
                return found as u16;
            }
        }
        let name = match self.fault {
            LengthsToo => table.push_name(&[&leb128(text.len())[..], text].concat()),
            _ => table.push_name(text),
        };
        if self.fault == TextsAnew {
            table.names[name as usize].0 -= first as u16;
        }
        name
    }

    fn shape(&mut self, shape: &Shape) -> u16 {
        let (kind, number) = match shape {
            Shape::Int => (0, 0),
            Shape::Float => (1, 0),
            Shape::Bool => (2, 0),
            Shape::Str => (3, 0),
            Shape::Bytes => (4, 0),
            Shape::Variable(number) if self.fault == LowByte => (BLANK, number % 256),
            Shape::Variable(number) => (BLANK, *number),
            Shape::Array(_) => (ARRAY, 0),
            Shape::Map(_, _) => (MAP, 0),
            Shape::Record(_) => (RECORD, 0),
            Shape::Function(_, _) => (FUNCTION, 0),
            Shape::Symbol(_) => (SYMBOL, 0),
        };
        let texts: Vec<&Vec<u8>> = match shape {
            Shape::Record(fields) => fields.iter().map(|(name, _)| name).collect(),
            Shape::Symbol(texts) => texts.iter().collect(),
            _ => Vec::new(),
        };
        let mut children = shape.children();
        if kind == FUNCTION && self.fault == ReturnFirst {
            children.rotate_right(1);
        }
        let count = children.len().max(texts.len());

        let own = self.table.nodes.len();
        if self.fault == NodeFirst {
            self.table.push_node(Node::new(0, 0, 0));
        }
        let mut a = self.table.links.len();
        if self.fault == LinksFirst {
            self.table.links.resize(a + count, (0, 0));
        }
        let mut names = Vec::new();
        let first = self.table.text.len();
        if self.fault == NamesFirst {
            names.extend(texts.iter().map(|text| self.name(text, first)));
        }
        let mut targets: Vec<u16> = match self.fault {
            LastFirst => children
                .iter()
                .rev()
                .map(|child| self.shape(child))
                .collect(),
            _ => children.iter().map(|child| self.shape(child)).collect(),
        };
        if self.fault == LastFirst {
            targets.reverse();
        }
        let first = self.table.text.len();
        if self.fault != NamesFirst {
            names.extend(texts.iter().map(|text| self.name(text, first)));
        }
        if kind == SYMBOL {
            let target = match self.fault {
                SymbolTargets => self.table.nodes.len() as u16,
                _ => 0,
            };
            targets = vec![target; count];
        }
        if names.is_empty() {
            names = match self.fault {
                LinksNumbered => (0..count as u16).collect(),
                _ => vec![0; count],
            };
        }
        if self.fault != LinksFirst {
            a = self.table.links.len();
            self.table.links.resize(a + count, (0, 0));
        }
        for (link, both) in targets.into_iter().zip(names).enumerate() {
            self.table.links[a + link] = both;
        }
        let empty = match kind {
            RECORD => self.fault == EmptyRecord0,
            SYMBOL => self.fault == EmptySymbol0,
            _ => false,
        };
        let node = match kind {
            ARRAY..=SYMBOL if empty && count == 0 => Node::new(kind, 0, 0),
            ARRAY..=SYMBOL => Node::new(kind, a as u16, count as u16),
            _ => Node::new(kind, number, 0),
        };
        if self.fault == NodeFirst {
            self.table.nodes[own] = node;
            return own as u16;
        }
        if self.fault == NodesShared {
            let found = self.table.nodes.iter().position(|other| *other == node);
            if let Some(found) = found {
                return found as u16;
            }
        }
        self.table.push_node(node)
    }
}

fn made(bytes: &[u8], out: &mut [u8], fault: Fault) -> Outcome {
    match model::read::read(bytes) {
        Ok(shape) => {
            let table = Table::default();
            let mut maker = Maker { fault, table };
            maker.shape(&shape);
            lend(&maker.table.counted().bytes(), out)
        }
        Err(_) => right(bytes, out),
    }
}

pub fn names_first(bytes: &[u8], out: &mut [u8]) -> Outcome {
    made(bytes, out, NamesFirst)
}

pub fn empty_record_0(bytes: &[u8], out: &mut [u8]) -> Outcome {
    made(bytes, out, EmptyRecord0)
}

pub fn empty_symbol_0(bytes: &[u8], out: &mut [u8]) -> Outcome {
    made(bytes, out, EmptySymbol0)
}

pub fn node_first(bytes: &[u8], out: &mut [u8]) -> Outcome {
    made(bytes, out, NodeFirst)
}

pub fn links_first(bytes: &[u8], out: &mut [u8]) -> Outcome {
    made(bytes, out, LinksFirst)
}

pub fn nodes_shared(bytes: &[u8], out: &mut [u8]) -> Outcome {
    made(bytes, out, NodesShared)
}

pub fn names_shared(bytes: &[u8], out: &mut [u8]) -> Outcome {
    made(bytes, out, NamesShared)
}

pub fn symbol_targets(bytes: &[u8], out: &mut [u8]) -> Outcome {
    made(bytes, out, SymbolTargets)
}

pub fn return_first(bytes: &[u8], out: &mut [u8]) -> Outcome {
    made(bytes, out, ReturnFirst)
}

pub fn links_numbered(bytes: &[u8], out: &mut [u8]) -> Outcome {
    made(bytes, out, LinksNumbered)
}

pub fn texts_anew(bytes: &[u8], out: &mut [u8]) -> Outcome {
    made(bytes, out, TextsAnew)
}

pub fn lengths_too(bytes: &[u8], out: &mut [u8]) -> Outcome {
    made(bytes, out, LengthsToo)
}

pub fn low_byte(bytes: &[u8], out: &mut [u8]) -> Outcome {
    made(bytes, out, LowByte)
}

pub fn last_first(bytes: &[u8], out: &mut [u8]) -> Outcome {
    made(bytes, out, LastFirst)
}

pub fn refuses_everything(_: &[u8], _: &mut [u8]) -> Outcome {
    Outcome::refusal(1, 0)
}

pub fn one_fixed_table(_: &[u8], out: &mut [u8]) -> Outcome {
    lend(&Table::new(&[(0, 0, 0)], &[], &[]).bytes(), out)
}

pub fn packed_without(bytes: &[u8], out: &mut [u8]) -> Outcome {
    match bytes {
        [96..=100] => lend(&Table::new(&[(ARRAY, 0, 0)], &[], &[]).bytes(), out),
        [101..=125] => lend(&Table::new(&[(MAP, 0, 0)], &[], &[]).bytes(), out),
        _ => right(bytes, out),
    }
}

pub fn packed_swapped(bytes: &[u8], out: &mut [u8]) -> Outcome {
    match *bytes {
        [byte @ 101..=125] => {
            let (key, value) = ((byte - 101) / 5, (byte - 101) % 5);
            right(&[101 + 5 * value + key], out)
        }
        _ => right(bytes, out),
    }
}

pub fn twelve_first(bytes: &[u8], out: &mut [u8]) -> Outcome {
    match out.len() {
        0..=13 if told(right, bytes).number != 12 => Outcome::refusal(12, 14),
        _ => right(bytes, out),
    }
}

pub fn one_too_far(bytes: &[u8], out: &mut [u8]) -> Outcome {
    let numbers = [1, 2, 3, 4, 5, 6, 7];
    placed(right, &numbers, bytes, out, |place| place + 1)
}

pub fn eight_at_the_end(bytes: &[u8], out: &mut [u8]) -> Outcome {
    placed(right, &[8], bytes, out, |_| bytes.len())
}

pub fn needed_one_more(bytes: &[u8], out: &mut [u8]) -> Outcome {
    placed(right, &[12], bytes, out, |needed| needed + 1)
}

pub fn room_to_spare(bytes: &[u8], out: &mut [u8]) -> Outcome {
    super::room_to_spare(right, bytes, out)
}

pub fn one_byte_more(bytes: &[u8], out: &mut [u8]) -> Outcome {
    super::one_byte_more(right, bytes, out)
}

pub fn writes_what_fits(bytes: &[u8], out: &mut [u8]) -> Outcome {
    super::writes_what_fits(right, bytes, out)
}
