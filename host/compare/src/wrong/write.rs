//! Wrong models of `write`: mostly the right answer for a table in which something was changed, or
//! another answer where something is there that matters.

use super::{lend, placed, told};
use crate::cases::table::{kind::*, Node, Table};
use crate::cases::{leb128, long};
use crate::write::fast as right;
use crate::Outcome;

const INT: Node = Node {
    kind: 0,
    second: 0,
    a: 0,
    b: 0,
};

/// The right answer for the table with something changed in it.
fn of(bytes: &[u8], out: &mut [u8], change: impl FnOnce(&mut Table)) -> Outcome {
    match Table::apart(bytes) {
        Some(mut table) => {
            change(&mut table);
            right(&table.bytes(), out)
        }
        None => right(bytes, out),
    }
}

/// The right answer, unless there is another one for a table whose sections are there, and what is
/// said of it.
fn unless(
    bytes: &[u8],
    out: &mut [u8],
    other: impl FnOnce(&Table, Outcome) -> Option<Outcome>,
) -> Outcome {
    let found = Table::apart(bytes).and_then(|table| other(&table, told(right, bytes)));
    found.unwrap_or_else(|| right(bytes, out))
}

fn is_sound(said: Outcome) -> bool {
    matches!(said.number, 12 | 15 | 16)
}

/// Each node that has links which are there, with its index and them.
fn each_run(table: &mut Table, mut change: impl FnMut(&Node, usize, &mut (u16, u16))) {
    for (index, node) in table
        .nodes
        .iter()
        .enumerate()
        .filter(|(_, node)| node.is_list())
    {
        for link in table.links.get_mut(node.run()).unwrap_or(&mut []) {
            change(node, index, link);
        }
    }
}

fn each_node(table: &mut Table, change: impl FnMut(&mut Node)) {
    table.nodes.iter_mut().for_each(change);
}

/// The text of a name, if it is a range.
fn text_of(table: &Table, (start, length): (u16, u16)) -> Option<&[u8]> {
    let start = start as usize;
    table.text.get(start..start + length as usize)
}

fn is_utf8(text: &[u8]) -> bool {
    std::str::from_utf8(text).is_ok()
}

pub fn refuses_everything(_: &[u8], _: &mut [u8]) -> Outcome {
    Outcome::refusal(9, 0)
}

pub fn one_fixed_shape(_: &[u8], out: &mut [u8]) -> Outcome {
    lend(&[0x20], out)
}

pub fn root_first(bytes: &[u8], out: &mut [u8]) -> Outcome {
    of(bytes, out, |table| {
        if let (1..=6143, Some(&first)) = (table.nodes.len(), table.nodes.first()) {
            table.push_node(first);
            table.counts[0] += 1;
        }
    })
}

// what is not checked, or checked too much

pub fn more_nodes(bytes: &[u8], out: &mut [u8]) -> Outcome {
    of(bytes, out, |table| {
        if table.nodes.len() == 6145 {
            table.nodes.remove(6000);
            table.counts[0] -= 1;
        }
    })
}

pub fn more_links(bytes: &[u8], out: &mut [u8]) -> Outcome {
    of(bytes, out, |table| {
        if table.links.len() == 6145 {
            table.links.pop();
            table.counts[1] -= 1;
        }
    })
}

pub fn more_names(bytes: &[u8], out: &mut [u8]) -> Outcome {
    of(bytes, out, |table| {
        if table.names.len() == 2049 {
            table.names.pop();
            table.counts[2] -= 1;
        }
    })
}

pub fn more_text(bytes: &[u8], out: &mut [u8]) -> Outcome {
    of(bytes, out, |table| {
        if table.text.len() == 2049 {
            table.text.pop();
            table.counts[3] -= 1;
        }
    })
}

pub fn left_over(bytes: &[u8], out: &mut [u8]) -> Outcome {
    of(bytes, out, |table| table.left_over.clear())
}

pub fn kind_11(bytes: &[u8], out: &mut [u8]) -> Outcome {
    of(bytes, out, |table| {
        each_node(table, |node| {
            if node.kind > BLANK {
                (node.kind, node.b) = (BLANK, 0);
            }
        })
    })
}

pub fn second_byte(bytes: &[u8], out: &mut [u8]) -> Outcome {
    of(bytes, out, |table| each_node(table, |node| node.second = 0))
}

pub fn primitive_with_numbers(bytes: &[u8], out: &mut [u8]) -> Outcome {
    of(bytes, out, |table| {
        each_node(table, |node| {
            if node.kind < ARRAY {
                (node.a, node.b) = (0, 0);
            }
        })
    })
}

pub fn blank_with_b(bytes: &[u8], out: &mut [u8]) -> Outcome {
    of(bytes, out, |table| {
        each_node(table, |node| {
            if node.kind == BLANK {
                node.b = 0;
            }
        })
    })
}

pub fn array_of_two(bytes: &[u8], out: &mut [u8]) -> Outcome {
    of(bytes, out, |table| {
        each_node(table, |node| {
            if node.kind == ARRAY {
                node.b = node.b.min(1);
            }
        })
    })
}

pub fn no_return(bytes: &[u8], out: &mut [u8]) -> Outcome {
    of(bytes, out, |table| {
        each_node(table, |node| {
            if (node.kind, node.b) == (FUNCTION, 0) {
                *node = INT;
            }
        })
    })
}

pub fn sum_of_16_bits(bytes: &[u8], out: &mut [u8]) -> Outcome {
    of(bytes, out, |table| {
        let links = table.links.len() as u16;
        each_node(table, |node| {
            let (sum, wraps) = node.a.overflowing_add(node.b);
            if node.is_list() && wraps && sum <= links {
                *node = INT;
            }
        })
    })
}

pub fn empty_past_links(bytes: &[u8], out: &mut [u8]) -> Outcome {
    of(bytes, out, |table| {
        each_node(table, |node| {
            if node.is_list() && node.b == 0 {
                node.a = 0;
            }
        })
    })
}

pub fn target_of_itself(bytes: &[u8], out: &mut [u8]) -> Outcome {
    of(bytes, out, |table| {
        each_run(table, |node, index, link| {
            if node.kind != SYMBOL && index > 0 && link.0 as usize == index {
                link.0 = 0;
            }
        })
    })
}

pub fn symbol_targets(bytes: &[u8], out: &mut [u8]) -> Outcome {
    of(bytes, out, |table| {
        each_run(table, |node, _, link| {
            if node.kind == SYMBOL {
                link.0 = 0;
            }
        })
    })
}

pub fn name_at_count(bytes: &[u8], out: &mut [u8]) -> Outcome {
    of(bytes, out, |table| {
        let count = table.names.len() as u16;
        let mut used = false;
        each_run(table, |node, _, link| {
            used |= node.is_named() && link.1 == count;
        });
        if used && count < 2048 {
            table.names.push((0, 0));
            table.counts[2] += 1;
        }
    })
}

pub fn bare_names(bytes: &[u8], out: &mut [u8]) -> Outcome {
    of(bytes, out, |table| {
        each_run(table, |node, _, link| {
            if !node.is_named() {
                link.1 = 0;
            }
        })
    })
}

pub fn unused_links(bytes: &[u8], out: &mut [u8]) -> Outcome {
    unless(bytes, out, |table, said| {
        let (nodes, names) = (table.nodes.len(), table.names.len().max(1));
        let bad = |&(target, name): &(u16, u16)| target as usize >= nodes || name as usize >= names;
        let found = said.number > 10 && table.links.iter().any(bad);
        found.then(|| Outcome::refusal(10, nodes as u32 - 1))
    })
}

pub fn unreached_nodes(bytes: &[u8], out: &mut [u8]) -> Outcome {
    of(bytes, out, |table| {
        let mut reached = vec![false; table.nodes.len()];
        if let Some(root) = reached.last_mut() {
            *root = true;
        }
        for index in (0..reached.len()).rev() {
            let node = table.nodes[index];
            if !reached[index] {
                table.nodes[index] = INT;
            } else if node.is_list() && node.kind != SYMBOL {
                for &(target, _) in table.links.get(node.run()).unwrap_or(&[]) {
                    if (target as usize) < index {
                        reached[target as usize] = true;
                    }
                }
            }
        }
    })
}

pub fn unused_names(bytes: &[u8], out: &mut [u8]) -> Outcome {
    of(bytes, out, |table| {
        let mut used = vec![false; 65_536];
        each_run(table, |node, _, link| {
            used[link.1 as usize] |= node.is_named();
        });
        for (name, used) in table.names.iter_mut().zip(used) {
            if !used {
                *name = (0, 0);
            }
        }
    })
}

pub fn all_text(bytes: &[u8], out: &mut [u8]) -> Outcome {
    unless(bytes, out, |table, said| {
        let found = is_sound(said) && !is_utf8(&table.text);
        found.then(|| Outcome::refusal(11, table.names.len() as u32))
    })
}

pub fn cut_characters(bytes: &[u8], out: &mut [u8]) -> Outcome {
    of(bytes, out, |table| {
        let cut = |name| text_of(table, name).is_some_and(|text| !is_utf8(text));
        if is_utf8(&table.text) {
            let names = table.names.iter();
            let names = names.map(|&name| if cut(name) { (0, 0) } else { name });
            table.names = names.collect();
        }
    })
}

// the order of the checks

pub fn eleven_before_ten(bytes: &[u8], out: &mut [u8]) -> Outcome {
    unless(bytes, out, |table, said| {
        let mut names = table.names.iter();
        let bad = names.position(|&name| !text_of(table, name).is_some_and(is_utf8))?;
        (said.number == 10).then(|| Outcome::refusal(11, bad as u32))
    })
}

pub fn ranges_first(bytes: &[u8], out: &mut [u8]) -> Outcome {
    unless(bytes, out, |table, said| {
        let mut names = table.names.iter();
        let bad = names.position(|&name| text_of(table, name).is_none())?;
        (said.number == 11).then(|| Outcome::refusal(11, bad as u32))
    })
}

pub fn sixteen_first(bytes: &[u8], out: &mut [u8]) -> Outcome {
    unless(bytes, out, |table, said| {
        let found = said.number == 15 && table.extent().0 > 2048;
        found.then(|| Outcome::refusal(16, 0))
    })
}

pub fn twelve_first(bytes: &[u8], out: &mut [u8]) -> Outcome {
    let room = out.len() as u64;
    unless(bytes, out, |table, said| {
        let length = table.extent().0;
        let found = matches!(said.number, 15 | 16) && length > room;
        found.then(|| Outcome::refusal(12, length.min(1 << 31) as u32))
    })
}

// length and depth

pub fn level_17(bytes: &[u8], out: &mut [u8]) -> Outcome {
    larger(bytes, out, 17, 2048)
}

pub fn longer(bytes: &[u8], out: &mut [u8]) -> Outcome {
    larger(bytes, out, 16, 2049)
}

/// Takes so many levels and bytes.
fn larger(bytes: &[u8], out: &mut [u8], levels: u64, most: u64) -> Outcome {
    if !matches!(told(right, bytes).number, 15 | 16) {
        return right(bytes, out);
    }
    match Table::apart(bytes) {
        Some(table) if table.extent().0 <= most && table.extent().1 <= levels => {
            lend(&root(&table, Right), out)
        }
        _ => right(bytes, out),
    }
}

pub fn deepest_node(bytes: &[u8], out: &mut [u8]) -> Outcome {
    unless(bytes, out, |table, said| {
        let found = is_sound(said) && table.extents().iter().any(|&(_, depth)| depth > 16);
        found.then(|| Outcome::refusal(15, 0))
    })
}

pub fn longest_node(bytes: &[u8], out: &mut [u8]) -> Outcome {
    unless(bytes, out, |table, said| {
        let long = |&(length, _): &(u64, u64)| length > 2048;
        let found = said.number == 12 && table.extents().iter().any(long);
        found.then(|| Outcome::refusal(16, 0))
    })
}

pub fn length_of_16_bits(bytes: &[u8], out: &mut [u8]) -> Outcome {
    wrapped(bytes, out, 16)
}

pub fn length_of_32_bits(bytes: &[u8], out: &mut [u8]) -> Outcome {
    wrapped(bytes, out, 32)
}

/// Takes the length modulo a power of two.
fn wrapped(bytes: &[u8], out: &mut [u8], bits: u32) -> Outcome {
    let room = out.len();
    unless(bytes, out, |table, said| {
        let length = (table.extent().0 % (1 << bits)) as usize;
        let found = said.number == 16 && length <= 2048;
        found.then(|| match room < length {
            true => Outcome::refusal(12, length as u32),
            false => Outcome::answer(length, 0),
        })
    })
}

// places

pub fn left_over_at_count(bytes: &[u8], out: &mut [u8]) -> Outcome {
    unless(bytes, out, |table, said| {
        let place = bytes.len() - table.left_over.len();
        let found = !table.left_over.is_empty() && said.place as usize == place;
        (said.number == 9 && found).then(|| Outcome::refusal(9, table.places()[3] as u32))
    })
}

pub fn cut_at_end(bytes: &[u8], out: &mut [u8]) -> Outcome {
    let cut = Table::apart(bytes).is_none();
    placed(right, &[9], bytes, out, |place| match cut {
        true => bytes.len().max(place),
        false => place,
    })
}

pub fn half_a_count(bytes: &[u8], out: &mut [u8]) -> Outcome {
    placed(right, &[9], bytes, out, |place| match bytes.len() - place {
        1 => place + 1,
        _ => place,
    })
}

pub fn place_of_node(bytes: &[u8], out: &mut [u8]) -> Outcome {
    placed(right, &[10], bytes, out, |node| 2 + 6 * node)
}

pub fn place_of_link(bytes: &[u8], out: &mut [u8]) -> Outcome {
    placed(right, &[10], bytes, out, |node| {
        bytes[4 + 6 * node] as usize + 256 * bytes[5 + 6 * node] as usize
    })
}

pub fn place_of_name(bytes: &[u8], out: &mut [u8]) -> Outcome {
    let names = Table::apart(bytes).map_or(0, |table| table.places()[2]);
    placed(right, &[11], bytes, out, |name| names + 2 + 4 * name)
}

pub fn place_of_root(bytes: &[u8], out: &mut [u8]) -> Outcome {
    let nodes = Table::apart(bytes).map_or(1, |table| table.nodes.len());
    placed(right, &[15, 16], bytes, out, |_| nodes - 1)
}

// what is written

/// How the shape of a node is written: right, or with one of these.
#[derive(Clone, Copy, PartialEq, Eq)]
enum Fault {
    Right,
    LongArrays,
    LongMaps,
    ValueFirst,
    LongBlanks,
    ReturnFirst,
    ReturnCounted,
    SharedOnce,
}

use Fault::*;

struct Writer<'a> {
    table: &'a Table,
    fault: Fault,
    written: Vec<bool>,
}

/// The shape of a sound table's root in bytes.
fn root(table: &Table, fault: Fault) -> Vec<u8> {
    let nodes = table.nodes.len();
    let written = vec![false; nodes];
    let mut writer = Writer {
        table,
        fault,
        written,
    };
    writer.shape(nodes - 1)
}

impl Writer<'_> {
    fn shape(&mut self, index: usize) -> Vec<u8> {
        let (table, fault) = (self.table, self.fault);
        let node = table.nodes[index];
        if fault == SharedOnce && self.written[index] {
            return Vec::new();
        }
        self.written[index] = true;
        if node.kind < ARRAY {
            return vec![32 + node.kind];
        }
        if node.kind == BLANK {
            return match node.a {
                0..=31 if fault != LongBlanks => vec![node.a as u8],
                number => long(0x45, &number.to_le_bytes()),
            };
        }
        let links = &table.links[node.run()];
        let kinds = links.iter().map(|link| table.nodes[link.0 as usize].kind);
        match (node.kind, &kinds.collect::<Vec<u8>>()[..]) {
            (ARRAY, &[element @ 0..=4]) if fault != LongArrays => return vec![96 + element],
            (MAP, &[value @ 0..=4, key @ 0..=4]) if fault == ValueFirst => {
                return vec![101 + 5 * key + value];
            }
            (MAP, &[key @ 0..=4, value @ 0..=4]) if fault != LongMaps => {
                return vec![101 + 5 * key + value];
            }
            _ => (),
        }
        let mut items: Vec<Vec<u8>> = Vec::new();
        for &(target, name) in links {
            let mut item = Vec::new();
            if node.is_named() {
                let text = text_of(table, table.names[name as usize]).unwrap_or(&[]);
                item = [&leb128(text.len())[..], text].concat();
            }
            if node.kind != SYMBOL {
                item.extend(self.shape(target as usize));
            }
            items.push(item);
        }
        let count = match node.kind {
            ARRAY | MAP => vec![],
            FUNCTION if fault != ReturnCounted => leb128(links.len() - 1),
            _ => leb128(links.len()),
        };
        if node.kind == FUNCTION && fault == ReturnFirst {
            items.rotate_right(1);
        }
        long(59 + node.kind, &[count, items.concat()].concat())
    }
}

/// What is answered is written in another way.
fn written(bytes: &[u8], out: &mut [u8], fault: Fault) -> Outcome {
    match Table::apart(bytes) {
        Some(table) if told(right, bytes).number == 12 => lend(&root(&table, fault), out),
        _ => right(bytes, out),
    }
}

pub fn long_arrays(bytes: &[u8], out: &mut [u8]) -> Outcome {
    written(bytes, out, LongArrays)
}

pub fn long_maps(bytes: &[u8], out: &mut [u8]) -> Outcome {
    written(bytes, out, LongMaps)
}

pub fn value_first(bytes: &[u8], out: &mut [u8]) -> Outcome {
    written(bytes, out, ValueFirst)
}

pub fn long_blanks(bytes: &[u8], out: &mut [u8]) -> Outcome {
    written(bytes, out, LongBlanks)
}

pub fn return_first(bytes: &[u8], out: &mut [u8]) -> Outcome {
    written(bytes, out, ReturnFirst)
}

pub fn return_counted(bytes: &[u8], out: &mut [u8]) -> Outcome {
    written(bytes, out, ReturnCounted)
}

pub fn shared_once(bytes: &[u8], out: &mut [u8]) -> Outcome {
    written(bytes, out, SharedOnce)
}

pub fn needed_one_more(bytes: &[u8], out: &mut [u8]) -> Outcome {
    placed(right, &[12], bytes, out, |needed| needed + 1)
}

pub fn room_to_spare(bytes: &[u8], out: &mut [u8]) -> Outcome {
    super::room_to_spare(right, bytes, out)
}

pub fn one_byte_more(bytes: &[u8], out: &mut [u8]) -> Outcome {
    super::one_byte_more(right, bytes, out)
}

pub fn writes_what_fits(bytes: &[u8], out: &mut [u8]) -> Outcome {
    super::writes_what_fits(right, bytes, out)
}
