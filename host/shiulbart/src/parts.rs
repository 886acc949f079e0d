use crate::{sys, Refusal, RefusalKind};
use std::iter::FusedIterator;
use std::ops::Range;

/// One of the five shapes that are built from no other and are no blank.
///
/// ```
/// use shiulbart::Primitive;
///
/// assert_eq!(Primitive::Str.number(), 3);
/// assert_eq!(Primitive::from_number(3), Some(Primitive::Str));
/// assert_eq!(Primitive::from_number(5), None);
/// ```
#[derive(Clone, Copy, Debug, PartialEq, Eq, PartialOrd, Ord, Hash)]
#[repr(u32)]
pub enum Primitive {
    /// Int, number 0.
    Int = 0,
    /// Float, number 1.
    Float = 1,
    /// Bool, number 2.
    Bool = 2,
    /// Str, number 3.
    Str = 3,
    /// Bytes, number 4.
    Bytes = 4,
}

impl Primitive {
    /// All primitives, in the order of their numbers.
    pub const ALL: [Primitive; 5] = [
        Primitive::Int,
        Primitive::Float,
        Primitive::Bool,
        Primitive::Str,
        Primitive::Bytes,
    ];

    /// The number, 0 to 4.
    #[inline]
    pub const fn number(self) -> u32 {
        self as u32
    }

    /// The primitive of a number, if it is 0 to 4.
    #[inline]
    pub fn from_number(number: u32) -> Option<Primitive> {
        Primitive::ALL.get(number as usize).copied()
    }
}

/// A child of a shape, as [`child`] answers it.
#[derive(Clone, Copy, Debug, PartialEq, Eq, PartialOrd, Ord, Hash)]
pub enum Child {
    /// A child with bytes of its own in the parent's encoding. They are an accepted encoding, and
    /// no other child has any of them.
    Part {
        /// Where the child's encoding starts in the parent's.
        place: usize,
        /// The bytes of the child's encoding, at least 1.
        length: usize,
    },
    /// A child of a packed parent (an Array of a primitive or a Map of two), which is one byte: its
    /// children have no bytes.
    Primitive(Primitive),
}

impl Child {
    /// Where the child's encoding stands in the parent's, if it has bytes.
    #[inline]
    pub const fn range(&self) -> Option<Range<usize>> {
        match *self {
            Child::Part { place, length } => Some(place..place + length),
            Child::Primitive(_) => None,
        }
    }
}

/// Where a name stands in an encoding, as [`name`](crate::name()) answers it.
#[derive(Clone, Copy, Debug, PartialEq, Eq, PartialOrd, Ord, Hash)]
pub struct Name {
    /// Where the name starts; for an empty one, the byte after its length.
    pub place: usize,
    /// The bytes of the name. They are UTF-8, and may be none.
    pub length: usize,
}

impl Name {
    /// Where the name stands, to take it from the encoding.
    #[inline]
    pub const fn range(&self) -> Range<usize> {
        self.place..self.place + self.length
    }
}

/// Child `k` of an encoded shape, counted from 0.
///
/// An Array has 1 child, a Map 2 (its key and its value), a Record its fields, and a Function its
/// parameters and then its return. All others have none. `k` may be any number.
///
/// # Errors
///
/// A bad encoding is refused as by [`read`](crate::read), with numbers 1 to 8, whatever `k` is. Then
/// it is [`NoSuchPart`](RefusalKind::NoSuchPart), number 18, if there is no child `k`; its place is
/// how many there are.
///
/// # Examples
///
/// ```
/// use shiulbart::{child, Child, Primitive};
///
/// // a Record of `a`, an Int, and `b`, an Array of Bool
/// let record = [0x42, 7, 0, 2, 1, b'a', 0x20, 1, b'b', 0x62];
/// let b = child(&record, 1)?;
/// assert_eq!(b, Child::Part { place: 9, length: 1 });
/// assert_eq!(b.range(), Some(9..10));
///
/// // the Array of Bool is one byte, in which the Bool has none of its own
/// assert_eq!(child(&record[9..10], 0)?, Child::Primitive(Primitive::Bool));
///
/// let refusal = child(&record, u64::MAX).unwrap_err();
/// assert_eq!((refusal.number(), refusal.place()), (18, 2));
/// # Ok::<(), shiulbart::Refusal>(())
/// ```
#[inline]
pub fn child(bytes: &[u8], k: u64) -> Result<Child, Refusal> {
    let answer = sys::child(bytes, k);
    if answer.number != 0 {
        return Err(Refusal::told(answer));
    }
    if answer.extra == 0 {
        return Ok(Child::Part {
            place: answer.place as usize,
            length: answer.length as usize,
        });
    }
    match Primitive::from_number(answer.place) {
        Some(primitive) => Ok(Child::Primitive(primitive)),
        None => panic!("libboard.a gave the unknown primitive {}", answer.place),
    }
}

/// Name `k` of an encoded shape, counted from 0.
///
/// That is the name of a Record's field `k`, or text `k` of a Symbol. All other shapes have none.
/// Names may be empty, and may repeat. `k` may be any number.
///
/// # Errors
///
/// As for [`child`]: numbers 1 to 8 for a bad encoding, then
/// [`NoSuchPart`](RefusalKind::NoSuchPart) with how many names there are.
///
/// # Examples
///
/// ```
/// use shiulbart::{name, Name};
///
/// // a Symbol of `up`, an empty text and `down`
/// let symbol = [0x44, 10, 0, 3, 2, b'u', b'p', 0, 4, b'd', b'o', b'w', b'n'];
/// assert_eq!(name(&symbol, 0)?, Name { place: 5, length: 2 });
/// assert_eq!(name(&symbol, 1)?, Name { place: 8, length: 0 });
/// assert_eq!(&symbol[name(&symbol, 2)?.range()], b"down");
///
/// let refusal = name(&symbol, 3).unwrap_err();
/// assert_eq!(refusal.to_string(), "no such child or name: the count is 3");
/// # Ok::<(), shiulbart::Refusal>(())
/// ```
#[inline]
pub fn name(bytes: &[u8], k: u64) -> Result<Name, Refusal> {
    let answer = sys::name(bytes, k);
    if answer.number != 0 {
        return Err(Refusal::told(answer));
    }
    Ok(Name {
        place: answer.place as usize,
        length: answer.length as usize,
    })
}

/// The children of an encoded shape, in order, each with its own bytes.
///
/// A child of a packed parent has no bytes, so its slice is empty. The iterator knows how many are
/// left, and can be gone through from both ends.
///
/// # Cost
///
/// The iterator parses nothing itself: each step is one [`child`], which reads the whole encoding
/// again. So going through all of them takes time in proportion to the children times the bytes:
/// several milliseconds for a Function of 2,041 children, the most there are. Steps that are
/// skipped (`skip`, `nth`, `rev`) take none.
///
/// # Errors
///
/// A bad encoding is refused as by [`read`](crate::read), with numbers 1 to 8. A shape without
/// children has an iterator that yields nothing.
///
/// # Examples
///
/// ```
/// use shiulbart::{children, Child, Primitive, Refusal};
///
/// // a Record of `a`, an Int, and `b`, an Array of Bool
/// let record = [0x42, 7, 0, 2, 1, b'a', 0x20, 1, b'b', 0x62];
/// let all: Vec<_> = children(&record)?.collect();
/// assert_eq!(all[0], (Child::Part { place: 6, length: 1 }, &[0x20][..]));
/// assert_eq!(all[1], (Child::Part { place: 9, length: 1 }, &[0x62][..]));
///
/// // every Bool in a shape
/// fn bools(bytes: &[u8]) -> Result<usize, Refusal> {
///     let mut found = usize::from(bytes == [0x22]);
///     for (child, bytes) in children(bytes)? {
///         found += match child {
///             Child::Part { .. } => bools(bytes)?,
///             Child::Primitive(primitive) => usize::from(primitive == Primitive::Bool),
///         };
///     }
///     Ok(found)
/// }
/// assert_eq!(bools(&record)?, 1);
/// # Ok::<(), Refusal>(())
/// ```
#[inline]
pub fn children(bytes: &[u8]) -> Result<Children<'_>, Refusal> {
    let count = count(child(bytes, u64::MAX))?;
    Ok(Children {
        bytes,
        left: 0..count,
    })
}

/// The names of an encoded shape, in order: those of a Record's fields, or the texts of a Symbol.
///
/// The iterator knows how many are left, and can be gone through from both ends.
///
/// # Cost
///
/// As for [`children`]: each step is one [`name`](crate::name()), which reads the whole encoding
/// again. So going through all of them takes time in proportion to the names times the bytes.
///
/// # Errors
///
/// A bad encoding is refused as by [`read`](crate::read), with numbers 1 to 8. A shape without names
/// has an iterator that yields nothing.
///
/// # Examples
///
/// ```
/// use shiulbart::names;
///
/// let record = [0x42, 7, 0, 2, 1, b'a', 0x20, 1, b'b', 0x62];
/// assert!(names(&record)?.eq(["a", "b"]));
/// assert_eq!(names(&record)?.position(|name| name == "b"), Some(1));
/// assert_eq!(names(&[0x20])?.len(), 0);
/// assert!(names(&record[1..]).is_err());
/// # Ok::<(), shiulbart::Refusal>(())
/// ```
#[inline]
pub fn names(bytes: &[u8]) -> Result<Names<'_>, Refusal> {
    let count = count(name(bytes, u64::MAX))?;
    Ok(Names {
        bytes,
        left: 0..count,
    })
}

/// How many parts there are, as the refusal of the largest k tells it: no encoding has so many.
fn count<T>(largest: Result<T, Refusal>) -> Result<usize, Refusal> {
    match largest {
        Err(refusal) if refusal.kind() == RefusalKind::NoSuchPart => Ok(refusal.place() as usize),
        Err(refusal) => Err(refusal),
        Ok(_) => panic!("libboard.a gave a part whose number is the largest of all"),
    }
}

/// The iterator that [`children`] makes.
#[derive(Clone, Debug)]
pub struct Children<'a> {
    /// An accepted encoding.
    bytes: &'a [u8],
    left: Range<usize>,
}

impl<'a> Children<'a> {
    fn ask(&self, k: usize) -> (Child, &'a [u8]) {
        let child = child(self.bytes, k as u64).expect("libboard.a counted this child");
        let own = child.range().map_or(&[][..], |range| &self.bytes[range]);
        (child, own)
    }
}

impl<'a> Iterator for Children<'a> {
    type Item = (Child, &'a [u8]);

    #[inline]
    fn next(&mut self) -> Option<Self::Item> {
        self.left.next().map(|k| self.ask(k))
    }

    #[inline]
    fn size_hint(&self) -> (usize, Option<usize>) {
        self.left.size_hint()
    }

    #[inline]
    fn nth(&mut self, n: usize) -> Option<Self::Item> {
        self.left.nth(n).map(|k| self.ask(k))
    }
}

impl DoubleEndedIterator for Children<'_> {
    #[inline]
    fn next_back(&mut self) -> Option<Self::Item> {
        self.left.next_back().map(|k| self.ask(k))
    }

    #[inline]
    fn nth_back(&mut self, n: usize) -> Option<Self::Item> {
        self.left.nth_back(n).map(|k| self.ask(k))
    }
}

impl ExactSizeIterator for Children<'_> {}

impl FusedIterator for Children<'_> {}

/// The iterator that [`names`] makes.
#[derive(Clone, Debug)]
pub struct Names<'a> {
    /// An accepted encoding.
    bytes: &'a [u8],
    left: Range<usize>,
}

impl<'a> Names<'a> {
    fn ask(&self, k: usize) -> &'a str {
        let name = name(self.bytes, k as u64).expect("libboard.a counted this name");
        std::str::from_utf8(&self.bytes[name.range()]).expect("libboard.a accepted this name")
    }
}

impl<'a> Iterator for Names<'a> {
    type Item = &'a str;

    #[inline]
    fn next(&mut self) -> Option<Self::Item> {
        self.left.next().map(|k| self.ask(k))
    }

    #[inline]
    fn size_hint(&self) -> (usize, Option<usize>) {
        self.left.size_hint()
    }

    #[inline]
    fn nth(&mut self, n: usize) -> Option<Self::Item> {
        self.left.nth(n).map(|k| self.ask(k))
    }
}

impl DoubleEndedIterator for Names<'_> {
    #[inline]
    fn next_back(&mut self) -> Option<Self::Item> {
        self.left.next_back().map(|k| self.ask(k))
    }

    #[inline]
    fn nth_back(&mut self, n: usize) -> Option<Self::Item> {
        self.left.nth_back(n).map(|k| self.ask(k))
    }
}

impl ExactSizeIterator for Names<'_> {}

impl FusedIterator for Names<'_> {}
