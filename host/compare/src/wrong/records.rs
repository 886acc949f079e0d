//! Wrong models of `write_records`: mostly the right answer for other records, or for other places; and
//! some of `write`, which are asked in bytes.

use super::write;
use crate::cases::table::{in_bytes, MAX_NODES};
use crate::write_records::fast as right;
use crate::{Makes, Outcome};
use shiulbart::NodeRecord;

const INT: NodeRecord = NodeRecord::new(0, 0, 0);

/// A node that is broken whatever else it is, as one with a second byte that is not 0.
const BROKEN: NodeRecord = NodeRecord::new(11, 0, 0);

/// The right answer for records that were changed.
fn of(
    nodes: &[NodeRecord],
    rest: &[u8],
    out: &mut [u8],
    change: impl FnOnce(&mut Vec<NodeRecord>),
) -> Outcome {
    let mut nodes = nodes.to_vec();
    change(&mut nodes);
    right(&nodes, rest, out)
}

/// The right answer where each record is another.
fn each(
    nodes: &[NodeRecord],
    rest: &[u8],
    out: &mut [u8],
    change: impl Fn(NodeRecord) -> NodeRecord,
) -> Outcome {
    let nodes: Vec<NodeRecord> = nodes.iter().map(|&node| change(node)).collect();
    right(&nodes, rest, out)
}

/// The right answer, but for the place of a 9 in the rest.
fn placed(
    nodes: &[NodeRecord],
    rest: &[u8],
    out: &mut [u8],
    change: impl FnOnce(usize) -> usize,
) -> Outcome {
    match right(nodes, rest, out) {
        said if said.number == 9 && said.place > 0 => {
            Outcome::refusal(9, change(said.place as usize) as u32)
        }
        said => said,
    }
}

/// A wrong model of `write` on the same table in bytes, where there is one.
fn asked_in_bytes(wrong: Makes, nodes: &[NodeRecord], rest: &[u8], out: &mut [u8]) -> Outcome {
    match in_bytes(nodes, rest) {
        Some(bytes) => wrong(&bytes, out),
        None => right(nodes, rest, out),
    }
}

macro_rules! in_bytes {
    ($($fault:ident),*) => {
        $(pub fn $fault(nodes: &[NodeRecord], rest: &[u8], out: &mut [u8]) -> Outcome {
            asked_in_bytes(write::$fault, nodes, rest, out)
        })*
    };
}

in_bytes!(
    refuses_everything,
    one_fixed_shape,
    more_nodes,
    root_first,
    left_over,
    twelve_first,
    needed_one_more,
    room_to_spare,
    one_byte_more,
    writes_what_fits
);

// how many records there are

pub fn count_of_16_bits(nodes: &[NodeRecord], rest: &[u8], out: &mut [u8]) -> Outcome {
    right(&nodes[..nodes.len() % 65_536], rest, out)
}

pub fn cut_to_most(nodes: &[NodeRecord], rest: &[u8], out: &mut [u8]) -> Outcome {
    right(&nodes[..nodes.len().min(MAX_NODES)], rest, out)
}

pub fn ten_for_too_many(nodes: &[NodeRecord], rest: &[u8], out: &mut [u8]) -> Outcome {
    match nodes.len() {
        0..=MAX_NODES => right(nodes, rest, out),
        _ => Outcome::refusal(10, MAX_NODES as u32),
    }
}

pub fn none_taken(nodes: &[NodeRecord], rest: &[u8], out: &mut [u8]) -> Outcome {
    match nodes {
        [] => right(&[INT], rest, out),
        _ => right(nodes, rest, out),
    }
}

pub fn none_at_2(nodes: &[NodeRecord], rest: &[u8], out: &mut [u8]) -> Outcome {
    match nodes {
        [] => Outcome::refusal(9, 2),
        _ => right(nodes, rest, out),
    }
}

pub fn none_at_rest(nodes: &[NodeRecord], rest: &[u8], out: &mut [u8]) -> Outcome {
    match nodes.len() {
        1..=MAX_NODES => right(nodes, rest, out),
        count => Outcome::refusal(9, 2 + 6 * count as u32),
    }
}

pub fn rest_first(nodes: &[NodeRecord], rest: &[u8], out: &mut [u8]) -> Outcome {
    // a place in the rest is known from that after one record
    match right(&[INT], rest, &mut []) {
        said if said.number == 9 => {
            Outcome::refusal(9, said.place - 8 + 2 + 6 * nodes.len() as u32)
        }
        _ => right(nodes, rest, out),
    }
}

// places

pub fn from_the_rest(nodes: &[NodeRecord], rest: &[u8], out: &mut [u8]) -> Outcome {
    placed(nodes, rest, out, |place| place - 2 - 6 * nodes.len())
}

pub fn without_the_count(nodes: &[NodeRecord], rest: &[u8], out: &mut [u8]) -> Outcome {
    placed(nodes, rest, out, |place| place - 2)
}

pub fn records_of_5(nodes: &[NodeRecord], rest: &[u8], out: &mut [u8]) -> Outcome {
    placed(nodes, rest, out, |place| place - nodes.len())
}

pub fn places_of_16_bits(nodes: &[NodeRecord], rest: &[u8], out: &mut [u8]) -> Outcome {
    placed(nodes, rest, out, |place| place % 65_536)
}

// what a record is

pub fn second_bytes(nodes: &[NodeRecord], rest: &[u8], out: &mut [u8]) -> Outcome {
    each(nodes, rest, out, |_| BROKEN)
}

pub fn high_byte_second(nodes: &[NodeRecord], rest: &[u8], out: &mut [u8]) -> Outcome {
    each(nodes, rest, out, |node| match node.a {
        0..=255 => node,
        _ => BROKEN,
    })
}

pub fn kind_modulo_16(nodes: &[NodeRecord], rest: &[u8], out: &mut [u8]) -> Outcome {
    each(nodes, rest, out, |node| NodeRecord {
        kind: node.kind % 16,
        ..node
    })
}

pub fn swapped(nodes: &[NodeRecord], rest: &[u8], out: &mut [u8]) -> Outcome {
    each(nodes, rest, out, |NodeRecord { kind, a, b }| {
        NodeRecord::new(kind, b, a)
    })
}

pub fn high_byte_first(nodes: &[NodeRecord], rest: &[u8], out: &mut [u8]) -> Outcome {
    each(nodes, rest, out, |NodeRecord { kind, a, b }| {
        NodeRecord::new(kind, a.swap_bytes(), b.swap_bytes())
    })
}

pub fn low_byte_of_a(nodes: &[NodeRecord], rest: &[u8], out: &mut [u8]) -> Outcome {
    each(nodes, rest, out, |NodeRecord { kind, a, b }| {
        NodeRecord::new(kind, a % 256, b)
    })
}

pub fn low_byte_of_b(nodes: &[NodeRecord], rest: &[u8], out: &mut [u8]) -> Outcome {
    each(nodes, rest, out, |NodeRecord { kind, a, b }| {
        NodeRecord::new(kind, a, b % 256)
    })
}

// which records there are

pub fn one_too_few(nodes: &[NodeRecord], rest: &[u8], out: &mut [u8]) -> Outcome {
    of(nodes, rest, out, |nodes| {
        nodes.pop();
    })
}

pub fn last_not_copied(nodes: &[NodeRecord], rest: &[u8], out: &mut [u8]) -> Outcome {
    of(nodes, rest, out, |nodes| {
        if let Some(last) = nodes.last_mut() {
            *last = INT;
        }
    })
}

pub fn last_first(nodes: &[NodeRecord], rest: &[u8], out: &mut [u8]) -> Outcome {
    of(nodes, rest, out, |nodes| nodes.reverse())
}
