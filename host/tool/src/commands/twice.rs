//! `twice`: what board A and board B make of a template and two sheets, side by side.

use super::make::{fill, join};
use crate::input::Input;
use crate::json::Value;
use crate::outcome::{Body, Outcome};
use crate::refused::Refused;
use crate::{hex, words};

/// How many bytes of a board stand on a line.
const BESIDE: usize = 8;

/// The width of board A's column: what a step is and what came of it.
const COLUMN: usize = 38;

/// A call of a board, and what came of it.
struct Step {
    what: &'static str,
    came: Result<Vec<u8>, Refused>,
}

/// A board's steps, up to one that is refused.
struct Board {
    name: &'static str,
    steps: Vec<Step>,
}

pub fn run(template: &Input, first: &Input, second: &Input) -> Outcome {
    told([
        board_a(template, first, second),
        board_b(template, first, second),
    ])
}

/// Fills with the first sheet, and then with the second.
fn board_a(template: &Input, first: &Input, second: &Input) -> Board {
    let once = fill(template, first);
    Board::new("board A", "fill template with first", once, |filled| Step {
        what: "fill that with second",
        came: fill(&made("the filled template", filled), second),
    })
}

/// Joins the sheets, and fills once.
fn board_b(template: &Input, first: &Input, second: &Input) -> Board {
    let joined = join(first, second);
    Board::new("board B", "join first and second", joined, |joined| Step {
        what: "fill template with that",
        came: fill(template, &made("the joined sheet", joined)),
    })
}

/// What a step made, for the next one.
fn made(name: &str, bytes: &[u8]) -> Input {
    Input {
        name: name.to_string(),
        bytes: bytes.to_vec(),
        no_hex: None,
    }
}

impl Board {
    /// A board whose second step is made of what came of the first.
    fn new(
        name: &'static str,
        what: &'static str,
        came: Result<Vec<u8>, Refused>,
        next: impl Fn(&[u8]) -> Step,
    ) -> Board {
        let second = came.as_ref().ok().map(|bytes| next(bytes));
        let first = Step { what, came };
        Board {
            name,
            steps: [Some(first), second].into_iter().flatten().collect(),
        }
    }

    /// The bytes that the board has in the end.
    fn answer(&self) -> Option<&[u8]> {
        self.steps.last()?.came.as_deref().ok()
    }

    /// Which call was refused, and why, if one was.
    fn refusal(&self) -> Option<String> {
        let Step { what, came } = self.steps.last()?;
        let refused = came.as_ref().err()?;
        Some(refused.text_in(&format!("{}, {what}", self.name)))
    }

    /// A step in a column: what it is, and what came of it.
    fn step(&self, k: usize) -> String {
        match self.steps.get(k) {
            None => String::new(),
            Some(Step {
                what,
                came: Ok(bytes),
            }) => {
                format!("{what}: {}", words::count(bytes.len(), "byte"))
            }
            Some(Step {
                what,
                came: Err(refused),
            }) => {
                format!("{what}: refused ({})", refused.number())
            }
        }
    }

    fn json(&self) -> Value {
        let step = |Step { what, came }: &Step| {
            let (name, came) = match came {
                Ok(bytes) => ("bytes", hex::dense(bytes).into()),
                Err(refused) => ("refusal", refused.json()),
            };
            Value::Object(vec![("what", (*what).into()), (name, came)])
        };
        let steps = self.steps.iter().map(step).collect();
        Value::Object(vec![
            ("board", self.name.into()),
            ("steps", Value::List(steps)),
        ])
    }
}

/// What both boards have to say together.
fn told(boards: [Board; 2]) -> Outcome {
    let same = match [boards[0].answer(), boards[1].answer()] {
        [Some(left), Some(right)] => Some(left == right),
        _ => None,
    };
    let bytes = boards[0].answer().filter(|_| same == Some(true));
    let fields = vec![
        ("same", same.map_or(Value::Null, Value::from)),
        (
            "boards",
            Value::List(boards.iter().map(Board::json).collect()),
        ),
    ];
    Outcome {
        answered: same == Some(true),
        body: Body::Page(page(&boards), bytes.map(<[u8]>::to_vec)),
        fields,
    }
}

fn page(boards: &[Board; 2]) -> String {
    let [a, b] = boards;
    let mut page = row("", a.name, b.name, false);
    for k in 0..a.steps.len().max(b.steps.len()) {
        page += &row("", &a.step(k), &b.step(k), false);
    }
    let [left, right] = [a, b].map(|board| board.answer().unwrap_or_default());
    for place in (0..left.len().max(right.len())).step_by(BESIDE) {
        let [left, right] = [left, right].map(|bytes| part(bytes, place));
        let differ = left != right && a.answer().is_some() && b.answer().is_some();
        page += &row(&place.to_string(), &left, &right, differ);
    }
    page + &verdict(boards)
}

/// The bytes from a place on that stand on its line.
fn part(bytes: &[u8], place: usize) -> String {
    let rest = bytes.get(place..).unwrap_or_default();
    hex::row(&rest[..rest.len().min(BESIDE)])
}

fn row(place: &str, left: &str, right: &str, differ: bool) -> String {
    let mark = if differ { "!" } else { " " };
    let row = format!("{place:>5}  {left:<COLUMN$}{mark} {right}");
    row.trim_end().to_string() + "\n"
}

fn verdict(boards: &[Board; 2]) -> String {
    if let [Some(left), Some(right)] = [boards[0].answer(), boards[1].answer()] {
        if left == right {
            return "the bytes are the same\n".to_string();
        }
        let pairs = left.iter().zip(right);
        let first = pairs.take_while(|(left, right)| left == right).count();
        return format!("the bytes differ, first at byte {first}\n");
    }
    boards.iter().filter_map(Board::refusal).collect()
}

#[cfg(test)]
mod tests {
    use super::*;

    /// A board whose one step made these bytes.
    fn board(name: &'static str, bytes: &[u8]) -> Board {
        Board {
            name,
            steps: vec![Step {
                what: "make up",
                came: Ok(bytes.to_vec()),
            }],
        }
    }

    fn outcome(left: &[u8], right: &[u8]) -> (bool, String, Option<Vec<u8>>) {
        let outcome = told([board("board A", left), board("board B", right)]);
        match outcome.body {
            Body::Page(page, bytes) => (outcome.answered, page, bytes),
            _ => panic!("it is a page"),
        }
    }

    #[test]
    fn bytes_that_differ() {
        let left: Vec<u8> = (0..20).collect();
        let mut right = left.clone();
        right[9] = 0xFF;
        let (answered, page, bytes) = outcome(&left, &right);
        assert!(!answered && bytes.is_none());
        let marked: Vec<&str> = page.lines().filter(|line| line.contains('!')).collect();
        let [marked] = marked[..] else {
            panic!("{page}");
        };
        assert!(marked.starts_with("    8  08 09 0A 0B 0C 0D 0E 0F "));
        assert!(marked.ends_with(" ! 08 FF 0A 0B 0C 0D 0E 0F"));
        assert!(page.ends_with("the bytes differ, first at byte 9\n"));
    }

    #[test]
    fn one_that_ends_before_the_other_differs() {
        let left: Vec<u8> = (0..8).collect();
        let right: Vec<u8> = (0..9).collect();
        for (left, right) in [(&left, &right), (&right, &left)] {
            let (answered, page, bytes) = outcome(left, right);
            assert!(!answered && bytes.is_none());
            assert!(page.contains("!"));
            assert!(page.ends_with("the bytes differ, first at byte 8\n"));
        }
    }

    #[test]
    fn bytes_that_are_the_same() {
        let bytes: Vec<u8> = (0..20).collect();
        let (answered, page, made) = outcome(&bytes, &bytes);
        assert!(answered && !page.contains('!'));
        assert_eq!(made, Some(bytes));
        assert!(page.ends_with("the bytes are the same\n"));
    }
}
