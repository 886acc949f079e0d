use crate::{sys, table_to_vec, write_to_vec, Primitive, Refusal, RefusalKind};
use std::error::Error;
use std::fmt;
use std::iter::FusedIterator;
use std::slice::Iter;

/// The kinds of a table's nodes after the primitives, which are 0 to 4.
const ARRAY: u8 = 5;
const MAP: u8 = 6;
const RECORD: u8 = 7;
const FUNCTION: u8 = 8;
const SYMBOL: u8 = 9;
const BLANK: u8 = 10;

/// A node table as a Rust value: built node by node, or taken apart from bytes.
///
/// A table says what a shape is built from, and so is what an editor of shapes keeps: each node stands
/// for a shape, and refers to those that it is built from by their [`NodeId`]. The `push` methods add a
/// node and answer its id; links, names and text are added with it. The last node is the root: the
/// shape that the whole table means. Other nodes need not be reached from it, and several may share a
/// child.
///
/// [`to_bytes`](Self::to_bytes) and [`parse`](Self::parse) go between tables and their bytes, as
/// [`write`](crate::write()) and [`table`](crate::table()) have them; [`encode`](Self::encode) and
/// [`decode`](Self::decode) go between tables and encodings of shapes.
///
/// A table that has any node keeps all rules for sections, nodes and names, so that `write` refuses it
/// for its root alone: with 15 or 16, or with 12.
///
/// # Examples
///
/// Built and written:
///
/// ```
/// use shiulbart::{Primitive, Table};
///
/// // a Record of `a`, an Int, and `b`, an Array of Bool
/// let mut table = Table::new();
/// let int = table.push_primitive(Primitive::Int)?;
/// let bool = table.push_primitive(Primitive::Bool)?;
/// let bools = table.push_array(bool)?;
/// let record = table.push_record([("a", int), ("b", bools)])?;
/// assert_eq!(table.root(), Some(record));
/// assert_eq!(table.encode()?, [0x42, 7, 0, 2, 1, b'a', 0x20, 1, b'b', 0x62]);
///
/// // a Map from that Record to itself: the two share it
/// table.push_map(record, record)?;
/// assert_eq!(table.len(), 5);
/// assert_eq!(table.encode()?.len(), 23);
/// # Ok::<(), Box<dyn std::error::Error>>(())
/// ```
///
/// Taken apart:
///
/// ```
/// use shiulbart::{Node, Primitive, Table};
///
/// let table = Table::decode(&[0x42, 7, 0, 2, 1, b'a', 0x20, 1, b'b', 0x62])?;
/// let Some(Node::Record(fields)) = table.root().and_then(|root| table.node(root)) else {
///     panic!("it is a Record");
/// };
/// for (name, field) in fields {
///     match table.node(field) {
///         Some(Node::Primitive(primitive)) => println!("{name} is {primitive:?}"),
///         Some(Node::Array(element)) => println!("{name} is an Array of node {}", element.index()),
///         other => println!("{name} is {other:?}"),
///     }
/// }
/// # Ok::<(), shiulbart::Refusal>(())
/// ```
#[derive(Clone, Debug, Default, PartialEq, Eq, Hash)]
pub struct Table {
    nodes: Vec<NodeRecord>,
    links: Vec<Link>,
    /// start and length in the text
    names: Vec<[u16; 2]>,
    text: Vec<u8>,
}

/// A node as it stands in a table, as [`write_records`](crate::write_records) takes it and
/// [`Table::node_records`] lends it: three numbers, whose meaning [`write`](crate::write()) lists.
///
/// (It has nothing to do with the shape Record, which is a node like others.) In memory it is
/// `shiulbart_node` of `include/shiulbart.h`. [`NodeRecord::default`] is an Int.
#[repr(C)]
#[derive(Clone, Copy, Debug, Default, PartialEq, Eq, PartialOrd, Ord, Hash)]
pub struct NodeRecord {
    /// What the node is: 0 to 10.
    pub kind: u8,
    /// The first link, or a blank's number.
    pub a: u16,
    /// How many links.
    pub b: u16,
}

impl NodeRecord {
    /// The node of these numbers, whether it keeps the rules or not.
    #[inline]
    pub const fn new(kind: u8, a: u16, b: u16) -> NodeRecord {
        NodeRecord { kind, a, b }
    }
}

/// A link as it stands in a table, as [`Table::links`] gives it.
///
/// Only those that a node has are sure to mean something.
#[derive(Clone, Copy, Debug, PartialEq, Eq, PartialOrd, Ord, Hash)]
pub struct Link {
    /// The index of the node that it goes to; 0 in a Symbol.
    pub target: u16,
    /// The index of its name in a Record and in a Symbol, else 0.
    pub name: u16,
}

/// A node of a [`Table`], by its index.
///
/// It is a plain number, and says nothing of which table it is for: where there is no such node, a
/// table says so.
///
/// ```
/// use shiulbart::{NodeId, Table, TableError};
///
/// let seven = NodeId::from(7);
/// assert_eq!(seven.index(), 7);
/// assert_eq!(Table::new().push_array(seven), Err(TableError::NoSuchNode(seven)));
/// ```
#[derive(Clone, Copy, Debug, PartialEq, Eq, PartialOrd, Ord, Hash)]
pub struct NodeId(u16);

impl NodeId {
    /// The index of the node, counted from 0.
    #[inline]
    pub const fn index(self) -> usize {
        self.0 as usize
    }
}

impl From<u16> for NodeId {
    #[inline]
    fn from(index: u16) -> NodeId {
        NodeId(index)
    }
}

impl From<NodeId> for u16 {
    #[inline]
    fn from(id: NodeId) -> u16 {
        id.0
    }
}

/// Why a node was not added to a [`Table`].
#[derive(Clone, Copy, Debug, PartialEq, Eq, PartialOrd, Ord, Hash)]
pub enum TableError {
    /// There are 6,144 nodes already.
    TooManyNodes,
    /// There would be over 6,144 links.
    TooManyLinks,
    /// There would be over 2,048 names.
    TooManyNames,
    /// There would be over 2,048 bytes of text.
    TooMuchText,
    /// The table has no such node, to be a child.
    NoSuchNode(NodeId),
}

impl fmt::Display for TableError {
    fn fmt(&self, f: &mut fmt::Formatter<'_>) -> fmt::Result {
        match self {
            TableError::TooManyNodes => write!(f, "table over 6,144 nodes"),
            TableError::TooManyLinks => write!(f, "table over 6,144 links"),
            TableError::TooManyNames => write!(f, "table over 2,048 names"),
            TableError::TooMuchText => write!(f, "table over 2,048 bytes of text"),
            TableError::NoSuchNode(id) => write!(f, "the table has no node {}", id.0),
        }
    }
}

impl Error for TableError {}

/// A node of a [`Table`] and what it is built from, as [`Table::node`] gives it.
///
/// Every id in it is that of a node of the same table, which stands before this one.
#[derive(Clone, Debug)]
pub enum Node<'a> {
    /// One of the five shapes that are built from no other and are no blank.
    Primitive(Primitive),
    /// The blank of this number.
    Blank(u16),
    /// An Array of this element.
    Array(NodeId),
    /// A Map.
    Map {
        /// What it maps from.
        key: NodeId,
        /// What it maps to.
        value: NodeId,
    },
    /// A Record of these names and fields.
    Record(Fields<'a>),
    /// A Function.
    Function {
        /// Its parameters.
        parameters: Parameters<'a>,
        /// What it returns.
        result: NodeId,
    },
    /// A Symbol of these texts.
    Symbol(Texts<'a>),
}

// -------------------------------------------------------------------------------------------------
// Adding nodes

impl Table {
    /// The most nodes, 6,144.
    pub const MAX_NODES: usize = 6144;
    /// The most links, 6,144.
    pub const MAX_LINKS: usize = 6144;
    /// The most names, 2,048.
    pub const MAX_NAMES: usize = 2048;
    /// The most bytes of text, 2,048.
    pub const MAX_TEXT: usize = 2048;

    /// A table without nodes. It means nothing until one is added.
    #[inline]
    pub const fn new() -> Table {
        Table {
            nodes: Vec::new(),
            links: Vec::new(),
            names: Vec::new(),
            text: Vec::new(),
        }
    }

    /// Adds a primitive.
    ///
    /// # Errors
    ///
    /// A [`TableError`], as for every `push`; the table is then as it was.
    pub fn push_primitive(&mut self, primitive: Primitive) -> Result<NodeId, TableError> {
        self.push(primitive as u8, 0, 0)
    }

    /// Adds the blank of this number.
    ///
    /// # Errors
    ///
    /// As for [`push_primitive`](Self::push_primitive).
    pub fn push_blank(&mut self, number: u16) -> Result<NodeId, TableError> {
        self.push(BLANK, number, 0)
    }

    /// Adds an Array of this element.
    ///
    /// # Errors
    ///
    /// As for [`push_primitive`](Self::push_primitive).
    pub fn push_array(&mut self, element: NodeId) -> Result<NodeId, TableError> {
        self.push_list(ARRAY, |table| table.link(element, 0))
    }

    /// Adds a Map of this key and this value.
    ///
    /// # Errors
    ///
    /// As for [`push_primitive`](Self::push_primitive).
    pub fn push_map(&mut self, key: NodeId, value: NodeId) -> Result<NodeId, TableError> {
        self.push_list(MAP, |table| {
            table.link(key, 0)?;
            table.link(value, 0)
        })
    }

    /// Adds a Record of these names and fields. Names may be empty, and may repeat; their order is
    /// part of the shape.
    ///
    /// # Errors
    ///
    /// As for [`push_primitive`](Self::push_primitive). No more fields are taken than there can be.
    ///
    /// # Examples
    ///
    /// ```
    /// use shiulbart::{Primitive, Table};
    ///
    /// let mut table = Table::new();
    /// let int = table.push_primitive(Primitive::Int)?;
    /// table.push_record((1..4).map(|i| (format!("axis {i}"), int)))?;
    /// assert!(table.names().eq(["axis 1", "axis 2", "axis 3"]));
    /// # Ok::<(), shiulbart::TableError>(())
    /// ```
    pub fn push_record<N: AsRef<str>>(
        &mut self,
        fields: impl IntoIterator<Item = (N, NodeId)>,
    ) -> Result<NodeId, TableError> {
        self.push_list(RECORD, |table| {
            for (name, field) in fields {
                let name = table.name(name.as_ref())?;
                table.link(field, name)?;
            }
            Ok(())
        })
    }

    /// Adds a Function of these parameters, which returns this result.
    ///
    /// # Errors
    ///
    /// As for [`push_primitive`](Self::push_primitive). No more parameters are taken than there can be.
    pub fn push_function(
        &mut self,
        parameters: impl IntoIterator<Item = NodeId>,
        result: NodeId,
    ) -> Result<NodeId, TableError> {
        self.push_list(FUNCTION, |table| {
            for parameter in parameters {
                table.link(parameter, 0)?;
            }
            table.link(result, 0)
        })
    }

    /// Adds a Symbol of these texts, which may be empty.
    ///
    /// # Errors
    ///
    /// As for [`push_primitive`](Self::push_primitive). No more texts are taken than there can be.
    pub fn push_symbol<T: AsRef<str>>(
        &mut self,
        texts: impl IntoIterator<Item = T>,
    ) -> Result<NodeId, TableError> {
        self.push_list(SYMBOL, |table| {
            for text in texts {
                let name = table.name(text.as_ref())?;
                table.add_link(0, name)?;
            }
            Ok(())
        })
    }

    fn push(&mut self, kind: u8, a: u16, b: u16) -> Result<NodeId, TableError> {
        let id = NodeId(index(self.nodes.len(), Table::MAX_NODES).ok_or(TableError::TooManyNodes)?);
        self.nodes.push(NodeRecord { kind, a, b });
        Ok(id)
    }

    /// Adds a node with links, which are added first. Where something cannot be added, nothing is.
    fn push_list(
        &mut self,
        kind: u8,
        add_links: impl FnOnce(&mut Table) -> Result<(), TableError>,
    ) -> Result<NodeId, TableError> {
        if self.nodes.len() == Table::MAX_NODES {
            return Err(TableError::TooManyNodes);
        }
        let (links, names, text) = (self.links.len(), self.names.len(), self.text.len());
        let pushed = add_links(self)
            .and_then(|()| self.push(kind, links as u16, (self.links.len() - links) as u16));
        if pushed.is_err() {
            self.links.truncate(links);
            self.names.truncate(names);
            self.text.truncate(text);
        }
        pushed
    }

    /// A link to a child of the node that is being added.
    fn link(&mut self, target: NodeId, name: u16) -> Result<(), TableError> {
        if target.index() >= self.nodes.len() {
            return Err(TableError::NoSuchNode(target));
        }
        self.add_link(target.0, name)
    }

    fn add_link(&mut self, target: u16, name: u16) -> Result<(), TableError> {
        index(self.links.len(), Table::MAX_LINKS).ok_or(TableError::TooManyLinks)?;
        self.links.push(Link { target, name });
        Ok(())
    }

    /// A name with its text. Answers its index.
    fn name(&mut self, text: &str) -> Result<u16, TableError> {
        let name = index(self.names.len(), Table::MAX_NAMES).ok_or(TableError::TooManyNames)?;
        let start = self.text.len();
        if text.len() > Table::MAX_TEXT - start {
            return Err(TableError::TooMuchText);
        }
        self.names.push([start as u16, text.len() as u16]);
        self.text.extend(text.bytes());
        Ok(name)
    }
}

/// The index of an entry that is added after so many, if there may be more.
fn index(count: usize, most: usize) -> Option<u16> {
    (count < most).then_some(count as u16)
}

// -------------------------------------------------------------------------------------------------
// Looking at nodes

impl Table {
    /// How many nodes there are.
    #[inline]
    pub fn len(&self) -> usize {
        self.nodes.len()
    }

    /// Whether there is no node: then the table means nothing.
    #[inline]
    pub fn is_empty(&self) -> bool {
        self.nodes.is_empty()
    }

    /// The root: the last node.
    #[inline]
    pub fn root(&self) -> Option<NodeId> {
        self.nodes
            .len()
            .checked_sub(1)
            .map(|last| NodeId(last as u16))
    }

    /// A node, if there is one of this id.
    pub fn node(&self, id: NodeId) -> Option<Node<'_>> {
        let NodeRecord { kind, a, b } = *self.nodes.get(id.index())?;
        let (a, b) = (a as usize, b as usize);
        let links = || &self.links[a..a + b];
        let target = |k: usize| NodeId(self.links[a + k].target);
        Some(match kind {
            ARRAY => Node::Array(target(0)),
            MAP => Node::Map {
                key: target(0),
                value: target(1),
            },
            RECORD => Node::Record(Fields {
                table: self,
                links: links().iter(),
            }),
            FUNCTION => Node::Function {
                parameters: Parameters {
                    links: links()[..b - 1].iter(),
                },
                result: target(b - 1),
            },
            SYMBOL => Node::Symbol(Texts {
                table: self,
                links: links().iter(),
            }),
            BLANK => Node::Blank(a as u16),
            _ => Node::Primitive(Primitive::ALL[kind as usize]),
        })
    }

    /// All nodes with their ids, in order: children come before what is built from them, and the root
    /// is the last.
    ///
    /// ```
    /// use shiulbart::{Node, Table};
    ///
    /// // how many levels each node's shape has
    /// let table = Table::decode(&[0x42, 7, 0, 2, 1, b'a', 0x20, 1, b'b', 0x62])?;
    /// let mut depths: Vec<u32> = Vec::new();
    /// for (_, node) in table.nodes() {
    ///     let depth = |child: shiulbart::NodeId| depths[child.index()];
    ///     let deepest = match node {
    ///         Node::Primitive(_) | Node::Blank(_) | Node::Symbol(_) => 0,
    ///         Node::Array(element) => depth(element),
    ///         Node::Map { key, value } => depth(key).max(depth(value)),
    ///         Node::Record(fields) => fields.map(|(_, field)| depth(field)).max().unwrap_or(0),
    ///         Node::Function { parameters, result } => {
    ///             parameters.map(depth).max().unwrap_or(0).max(depth(result))
    ///         }
    ///     };
    ///     depths.push(deepest + 1);
    /// }
    /// assert_eq!(depths, [1, 1, 2, 3]);
    /// # Ok::<(), shiulbart::Refusal>(())
    /// ```
    pub fn nodes(
        &self,
    ) -> impl DoubleEndedIterator<Item = (NodeId, Node<'_>)> + ExactSizeIterator + FusedIterator + Clone
    {
        (0..self.nodes.len()).map(|index| {
            let id = NodeId(index as u16);
            (id, self.node(id).expect("it is one of them"))
        })
    }

    /// All links as they stand, in order, whether a node has them or not.
    pub fn links(
        &self,
    ) -> impl DoubleEndedIterator<Item = Link> + ExactSizeIterator + FusedIterator + Clone + '_
    {
        self.links.iter().copied()
    }

    /// All names, in order, whether a link has them or not.
    pub fn names(
        &self,
    ) -> impl DoubleEndedIterator<Item = &str> + ExactSizeIterator + FusedIterator + Clone {
        (0..self.names.len()).map(|name| self.text_of(name))
    }

    /// The text, of which names are parts. What no name covers need not be UTF-8.
    #[inline]
    pub fn text(&self) -> &[u8] {
        &self.text
    }

    fn text_of(&self, name: usize) -> &str {
        let [start, length] = self.names[name].map(usize::from);
        std::str::from_utf8(&self.text[start..start + length]).expect("every name is UTF-8")
    }
}

// -------------------------------------------------------------------------------------------------
// Bytes

impl Table {
    /// The table in bytes, in the form that [`write`](crate::write()) takes: at most 71,688.
    ///
    /// ```
    /// use shiulbart::{table_to_vec, Primitive, Table};
    ///
    /// let mut table = Table::new();
    /// let bool = table.push_primitive(Primitive::Bool)?;
    /// table.push_array(bool)?;
    /// assert_eq!(table.to_bytes(), table_to_vec(&[0x62])?);
    /// # Ok::<(), Box<dyn std::error::Error>>(())
    /// ```
    pub fn to_bytes(&self) -> Vec<u8> {
        let nodes = 2 + 6 * self.nodes.len();
        let mut bytes = Vec::with_capacity(nodes + self.rest_length());
        let mut put = |number: u16| bytes.extend(number.to_le_bytes());
        put(self.nodes.len() as u16);
        for &NodeRecord { kind, a, b } in &self.nodes {
            [kind.into(), a, b].into_iter().for_each(&mut put);
        }
        self.put_rest(&mut bytes);
        bytes
    }

    /// The nodes as [`write_records`](crate::write_records) takes them, in order.
    ///
    /// [`nodes`](Self::nodes) says what they mean.
    ///
    /// ```
    /// use shiulbart::{write_records_to_vec, NodeRecord, Table};
    ///
    /// // an Array of blank 7
    /// let mut table = Table::new();
    /// let blank = table.push_blank(7)?;
    /// table.push_array(blank)?;
    /// assert_eq!(table.node_records(), [NodeRecord::new(10, 7, 0), NodeRecord::new(5, 0, 1)]);
    ///
    /// let encoding = write_records_to_vec(table.node_records(), &table.rest())?;
    /// assert_eq!(encoding, table.encode()?);
    /// # Ok::<(), Box<dyn std::error::Error>>(())
    /// ```
    #[inline]
    pub fn node_records(&self) -> &[NodeRecord] {
        &self.nodes
    }

    /// The table in bytes from the count of links on, as [`write_records`](crate::write_records) takes
    /// it: at most 34,822.
    ///
    /// ```
    /// use shiulbart::Table;
    ///
    /// let table = Table::decode(&[0x62])?;
    /// assert_eq!(table.rest(), table.to_bytes()[2 + 6 * table.len()..]);
    /// # Ok::<(), shiulbart::Refusal>(())
    /// ```
    pub fn rest(&self) -> Vec<u8> {
        let mut bytes = Vec::with_capacity(self.rest_length());
        self.put_rest(&mut bytes);
        bytes
    }

    fn rest_length(&self) -> usize {
        6 + 4 * self.links.len() + 4 * self.names.len() + self.text.len()
    }

    fn put_rest(&self, bytes: &mut Vec<u8>) {
        let mut put = |number: u16| bytes.extend(number.to_le_bytes());
        put(self.links.len() as u16);
        for &Link { target, name } in &self.links {
            [target, name].into_iter().for_each(&mut put);
        }
        put(self.names.len() as u16);
        self.names.iter().flatten().copied().for_each(&mut put);
        put(self.text.len() as u16);
        bytes.extend(&self.text);
    }

    /// Takes a table in bytes apart, whatever the bytes are. [`to_bytes`](Self::to_bytes) makes the
    /// same bytes of it again.
    ///
    /// The proved [`write`](crate::write()) judges the bytes first, so a table with many nodes that
    /// share many links takes as long as there.
    ///
    /// # Errors
    ///
    /// A broken section, node or name is refused as by [`write`](crate::write()), with numbers 9 to 11.
    /// How long and deep the root's shape is does not matter here.
    ///
    /// # Examples
    ///
    /// ```
    /// use shiulbart::{Node, Primitive, Table};
    ///
    /// let int = [1, 0, 0, 0, 0, 0, 0, 0, 0, 0, 0, 0, 0, 0];
    /// let table = Table::parse(&int)?;
    /// assert_eq!(table.len(), 1);
    /// assert!(matches!(table.node(0.into()), Some(Node::Primitive(Primitive::Int))));
    ///
    /// let refusal = Table::parse(&int[..13]).unwrap_err();
    /// assert_eq!(refusal.to_string(), "table section broken at byte 12");
    /// # Ok::<(), shiulbart::Refusal>(())
    /// ```
    pub fn parse(bytes: &[u8]) -> Result<Table, Refusal> {
        let told = sys::write(bytes, &mut []);
        match RefusalKind::from_number(told.number) {
            // of a sound table: its root is too deep, too long, or longer than no bytes
            Some(
                RefusalKind::MadeTooDeep | RefusalKind::MadeTooLong | RefusalKind::BufferShort,
            ) => Ok(Table::of_sound(bytes)),
            _ => Err(Refusal::told(told)),
        }
    }

    /// The encoding of the root's shape, by the proved [`write`](crate::write()).
    ///
    /// # Errors
    ///
    /// [`MadeTooDeep`](RefusalKind::MadeTooDeep), number 15, and then
    /// [`MadeTooLong`](RefusalKind::MadeTooLong), number 16, at place 0; and
    /// [`SectionBroken`](RefusalKind::SectionBroken), number 9, at place 0, for a table without nodes.
    ///
    /// # Examples
    ///
    /// ```
    /// use shiulbart::{Primitive, Table};
    ///
    /// // Maps of a node to itself: each is more than twice as long as the one before it
    /// let mut table = Table::new();
    /// let mut node = table.push_blank(0)?;
    /// for _ in 0..9 {
    ///     node = table.push_map(node, node)?;
    /// }
    /// assert_eq!(table.encode()?.len(), 2045);
    /// table.push_map(node, node)?;
    /// assert_eq!(table.encode().unwrap_err().to_string(), "made shape over 2,048 bytes");
    /// # Ok::<(), Box<dyn std::error::Error>>(())
    /// ```
    pub fn encode(&self) -> Result<Vec<u8>, Refusal> {
        write_to_vec(&self.to_bytes())
    }

    /// The table of an encoded shape, as the proved [`table`](crate::table()) makes it.
    ///
    /// # Errors
    ///
    /// A bad encoding is refused as by [`read`](crate::read), with numbers 1 to 8.
    ///
    /// # Examples
    ///
    /// ```
    /// use shiulbart::Table;
    ///
    /// // an Array of blank 0
    /// let mut table = Table::decode(&[0x40, 1, 0, 0])?;
    /// let array = table.root().unwrap();
    /// table.push_function([array, array], array)?;
    /// assert_eq!(table.encode()?.len(), 16);
    ///
    /// assert!(Table::decode(&[0x40]).is_err());
    /// # Ok::<(), Box<dyn std::error::Error>>(())
    /// ```
    pub fn decode(encoding: &[u8]) -> Result<Table, Refusal> {
        table_to_vec(encoding).map(|bytes| Table::of_sound(&bytes))
    }

    /// Takes bytes apart whose sections, nodes and names are in order.
    fn of_sound(bytes: &[u8]) -> Table {
        Table::in_sections(bytes).expect("libboard.a found this table sound")
    }

    fn in_sections(mut bytes: &[u8]) -> Option<Table> {
        let two = |entry: &[u8], at: usize| u16::from_le_bytes([entry[at], entry[at + 1]]);
        let mut section = |size: usize| {
            let count = two(bytes.get(..2)?, 0) as usize;
            let entries = bytes.get(2..2 + size * count)?;
            bytes = &bytes[2 + entries.len()..];
            Some(entries)
        };
        let [nodes, links, names, text] = [section(6)?, section(4)?, section(4)?, section(1)?];
        let node = |entry: &[u8]| NodeRecord::new(entry[0], two(entry, 2), two(entry, 4));
        let link = |entry: &[u8]| Link {
            target: two(entry, 0),
            name: two(entry, 2),
        };
        Some(Table {
            nodes: nodes.chunks_exact(6).map(node).collect(),
            links: links.chunks_exact(4).map(link).collect(),
            names: names
                .chunks_exact(4)
                .map(|entry| [two(entry, 0), two(entry, 2)])
                .collect(),
            text: text.to_vec(),
        })
    }
}

// -------------------------------------------------------------------------------------------------
// What a node is built from

/// The names and fields of a Record, in order: the iterator in [`Node::Record`].
#[derive(Clone)]
pub struct Fields<'a> {
    table: &'a Table,
    links: Iter<'a, Link>,
}

/// The parameters of a Function, in order: the iterator in [`Node::Function`].
#[derive(Clone)]
pub struct Parameters<'a> {
    links: Iter<'a, Link>,
}

/// The texts of a Symbol, in order: the iterator in [`Node::Symbol`].
#[derive(Clone)]
pub struct Texts<'a> {
    table: &'a Table,
    links: Iter<'a, Link>,
}

impl<'a> Fields<'a> {
    fn of(&self, link: &Link) -> (&'a str, NodeId) {
        (self.table.text_of(link.name.into()), NodeId(link.target))
    }
}

impl<'a> Parameters<'a> {
    fn of(&self, link: &Link) -> NodeId {
        NodeId(link.target)
    }
}

impl<'a> Texts<'a> {
    fn of(&self, link: &Link) -> &'a str {
        self.table.text_of(link.name.into())
    }
}

/// What goes through the links of a node, and makes something of each.
macro_rules! iterates {
    ($list:ident, $item:ty) => {
        impl<'a> Iterator for $list<'a> {
            type Item = $item;

            #[inline]
            fn next(&mut self) -> Option<Self::Item> {
                self.links.next().map(|link| self.of(link))
            }

            #[inline]
            fn size_hint(&self) -> (usize, Option<usize>) {
                self.links.size_hint()
            }

            #[inline]
            fn nth(&mut self, n: usize) -> Option<Self::Item> {
                self.links.nth(n).map(|link| self.of(link))
            }
        }

        impl DoubleEndedIterator for $list<'_> {
            #[inline]
            fn next_back(&mut self) -> Option<Self::Item> {
                self.links.next_back().map(|link| self.of(link))
            }

            #[inline]
            fn nth_back(&mut self, n: usize) -> Option<Self::Item> {
                self.links.nth_back(n).map(|link| self.of(link))
            }
        }

        impl ExactSizeIterator for $list<'_> {}

        impl FusedIterator for $list<'_> {}

        impl fmt::Debug for $list<'_> {
            fn fmt(&self, f: &mut fmt::Formatter<'_>) -> fmt::Result {
                f.debug_list().entries(self.clone()).finish()
            }
        }
    };
}

iterates!(Fields, (&'a str, NodeId));
iterates!(Parameters, NodeId);
iterates!(Texts, &'a str);
