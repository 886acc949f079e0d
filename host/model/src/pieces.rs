//! 02-change-requests.md, W-203. The parts are joined, and the reader reads them: there is nothing
//! here that could answer otherwise than "the whole reader does for the parts joined". The state's
//! entries, its size and that it goes in and out by value are the board's matter, not its answer's.

use crate::read::read;
use crate::Refusal;

/// "same length and depth"
#[derive(Clone, Copy, Debug, PartialEq, Eq)]
pub struct Accepted {
    pub length: usize,
    pub depth: u64,
}

/// > We want a reader fed with parts of whatever length, also of none, which answers at the finish
/// > only
#[derive(Clone, Debug, PartialEq, Eq)]
pub struct Pieces {
    joined: Vec<u8>,
    /// nothing before the finish
    answer: Option<Result<Accepted, Refusal>>,
}

impl Pieces {
    pub fn start() -> Pieces {
        Pieces {
            joined: Vec::new(),
            answer: None,
        }
    }

    pub fn part(&mut self, part: &[u8]) {
        // > A part given after the finish changes nothing
        if self.answer.is_none() {
            self.joined.extend(part);
        }
    }

    /// > and then exactly as the whole reader does for the parts joined: same number, same place,
    /// > same length and depth.
    pub fn finish(&mut self) -> Result<Accepted, Refusal> {
        // > and the finish repeats its answer.
        if let Some(answer) = self.answer {
            return answer;
        }
        let answer = whole(&self.joined);
        self.answer = Some(answer);
        answer
    }
}

/// What "the whole reader" says.
fn whole(bytes: &[u8]) -> Result<Accepted, Refusal> {
    let shape = read(bytes)?;
    Ok(Accepted {
        length: bytes.len(),
        depth: shape.depth(),
    })
}

/// The start, these parts in order, and the finish.
pub fn read_parts(parts: &[&[u8]]) -> Result<Accepted, Refusal> {
    let mut pieces = Pieces::start();
    for part in parts {
        pieces.part(part);
    }
    pieces.finish()
}
