use crate::{judged, sys, Accepted, Refusal};
use std::io::{self, Write};

/// Judges an encoding that comes in parts.
///
/// It is [`read`](crate::read) for bytes that are not there all at once, as those of a serial line. Each
/// part is fed as it comes, and need not be kept; [`finish`](Self::finish) answers, exactly as `read`
/// does for the parts joined. Before that nothing is said, whatever the bytes are. A part may have any
/// length, also none, and may end anywhere: in a size, in a count, in a character.
///
/// It holds at most 512 bytes, whatever it is fed, and allocates nothing. Copies of it are readers of
/// their own. Two are equal if they hold the same: then they answer the same, whatever both are fed.
///
/// # Examples
///
/// ```
/// use shiulbart::{Accepted, Pieces};
///
/// // a Record of `a`, an Int, and `b`, an Array of Bool
/// let mut pieces = Pieces::new();
/// pieces.feed(&[0x42, 7]);
/// pieces.feed(&[0, 2, 1, b'a', 0x20]);
/// assert_eq!((pieces.count(), pieces.levels()), (7, 1));
/// pieces.feed(&[]);
/// pieces.feed(&[1, b'b', 0x62]);
/// assert_eq!(pieces.finish(), Ok(Accepted { length: 10, depth: 3 }));
/// ```
///
/// Each write is a part too, so what reads a line need not know how its parts come:
///
/// ```
/// use shiulbart::Pieces;
/// use std::io;
///
/// # let mut line = &[0x40, 1, 0, 0x20][..];
/// let mut pieces = Pieces::new();
/// io::copy(&mut line, &mut pieces)?;
/// let refusal = pieces.finish().unwrap_err();
/// assert_eq!(refusal.to_string(), "long form where a short one exists at byte 0");
/// # Ok::<(), io::Error>(())
/// ```
#[derive(Clone, Debug, PartialEq, Eq)]
pub struct Pieces {
    state: sys::PiecesState,
}

impl Pieces {
    /// A reader that was fed nothing yet.
    #[inline]
    pub fn new() -> Pieces {
        Pieces {
            state: sys::pieces_start(),
        }
    }

    /// Takes the part that comes next. An empty one changes nothing.
    ///
    /// After [`finish`](Self::finish) no part changes anything: for another encoding there is another
    /// reader.
    #[inline]
    pub fn feed(&mut self, part: &[u8]) {
        self.state = sys::pieces_part(self.state, part);
    }

    /// Ends the encoding, and judges it. Called again, it repeats its answer.
    ///
    /// # Errors
    ///
    /// As [`read`](crate::read) has them for all parts joined: one of numbers 1 to 8. Without a byte it
    /// is [`CutShort`](crate::RefusalKind::CutShort) at 0.
    ///
    /// # Examples
    ///
    /// ```
    /// use shiulbart::Pieces;
    ///
    /// let mut pieces = Pieces::new();
    /// pieces.feed(&[0x20]);
    /// let answer = pieces.finish();
    /// assert!(answer.is_ok());
    ///
    /// // too late: it would have been one byte too many
    /// pieces.feed(&[0x20]);
    /// assert_eq!(pieces.finish(), answer);
    /// ```
    #[inline]
    pub fn finish(&mut self) -> Result<Accepted, Refusal> {
        let end = sys::pieces_finish(self.state);
        self.state = end.state;
        judged(end.answer)
    }

    /// The bytes that came so far, up to the finish. It stops at 2,049, which is too long, however many
    /// more come.
    #[inline]
    pub fn count(&self) -> usize {
        self.state.count().into()
    }

    /// The levels that are open, 0 to 16: shapes whose payload has begun and has not ended. From a fault
    /// on it stays as it is.
    #[inline]
    pub fn levels(&self) -> usize {
        self.state.used().into()
    }
}

impl Default for Pieces {
    /// As [`new`](Self::new).
    #[inline]
    fn default() -> Pieces {
        Pieces::new()
    }
}

/// Each write is a part. It is taken whole, and never fails, after the finish neither.
impl Write for Pieces {
    #[inline]
    fn write(&mut self, part: &[u8]) -> io::Result<usize> {
        self.feed(part);
        Ok(part.len())
    }

    /// Does nothing: no byte waits to be read.
    #[inline]
    fn flush(&mut self) -> io::Result<()> {
        Ok(())
    }
}
