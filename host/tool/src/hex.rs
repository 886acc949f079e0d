//! Hex text: pairs of digits, with or without space between the pairs. `#` starts a comment, which
//! goes to the end of its line.

use std::fmt;

/// How many bytes stand on a line of hex text.
pub const ROW: usize = 16;

/// The bytes that a hex text means, or what is no hex text in it.
pub fn parse(text: &[u8]) -> Result<Vec<u8>, String> {
    let mut parts = Parts::new();
    let bytes = parts.feed(text);
    parts.finish().map(|()| bytes)
}

/// Hex text that comes in parts, which may end anywhere.
pub struct Parts {
    /// Where the next letter stands.
    at: Position,
    in_comment: bool,
    /// The first digit of a pair whose second one is due.
    first: Option<(u8, Position)>,
    /// The first that is no hex text. What follows it is not looked at.
    wrong: Option<String>,
}

impl Parts {
    pub fn new() -> Parts {
        Parts {
            at: Position { line: 1, column: 1 },
            in_comment: false,
            first: None,
            wrong: None,
        }
    }

    /// The bytes whose second digit is in this part.
    pub fn feed(&mut self, part: &[u8]) -> Vec<u8> {
        let mut bytes = Vec::new();
        for &letter in part {
            if self.wrong.is_some() {
                break;
            }
            match self.take(letter) {
                Ok(byte) => bytes.extend(byte),
                Err(why) => self.wrong = Some(why),
            }
            self.at.pass(letter);
        }
        bytes
    }

    /// What is no hex text in all parts, if something is.
    pub fn finish(self) -> Result<(), String> {
        match (self.wrong, self.first) {
            (Some(why), _) => Err(why),
            (None, Some((_, at))) => Err(alone(at)),
            (None, None) => Ok(()),
        }
    }

    /// The byte that a letter completes, if it does.
    fn take(&mut self, letter: u8) -> Result<Option<u8>, String> {
        if self.in_comment {
            self.in_comment = !b"\r\n".contains(&letter);
            return Ok(None);
        }
        let between = letter == b'#' || letter.is_ascii_whitespace();
        match self.first.take() {
            Some((_, at)) if between => Err(alone(at)),
            Some((first, _)) => Ok(Some(16 * first + digit(letter, self.at)?)),
            None if between => {
                self.in_comment = letter == b'#';
                Ok(None)
            }
            None => {
                self.first = Some((digit(letter, self.at)?, self.at));
                Ok(None)
            }
        }
    }
}

fn digit(letter: u8, at: Position) -> Result<u8, String> {
    match char::from(letter).to_digit(16) {
        Some(digit) => Ok(digit as u8),
        None if letter.is_ascii_graphic() => {
            Err(format!("{at}: '{}' is no hex digit", char::from(letter)))
        }
        None => Err(format!("{at}: byte {letter:02X} is no hex digit")),
    }
}

fn alone(at: Position) -> String {
    format!("{at}: a byte is two hex digits, and here is one")
}

/// Where a letter stands, as editors count: from 1.
#[derive(Clone, Copy)]
struct Position {
    line: usize,
    column: usize,
}

impl Position {
    fn pass(&mut self, letter: u8) {
        match letter {
            b'\n' => {
                self.line += 1;
                self.column = 1;
            }
            _ => self.column += 1,
        }
    }
}

impl fmt::Display for Position {
    fn fmt(&self, f: &mut fmt::Formatter<'_>) -> fmt::Result {
        write!(f, "line {}, column {}", self.line, self.column)
    }
}

/// `42 07 00`.
pub fn row(bytes: &[u8]) -> String {
    let pairs: Vec<String> = bytes.iter().map(|byte| format!("{byte:02X}")).collect();
    pairs.join(" ")
}

/// `420700`, for scripts.
pub fn dense(bytes: &[u8]) -> String {
    bytes.iter().map(|byte| format!("{byte:02X}")).collect()
}

/// The bytes as hex text, which [`parse`] takes back.
pub fn text(bytes: &[u8]) -> String {
    bytes.chunks(ROW).map(|line| row(line) + "\n").collect()
}

#[cfg(test)]
mod tests {
    use super::*;

    /// In one part, letter by letter, and cut in two everywhere: it is always the same.
    fn bytes(text: &str) -> Result<Vec<u8>, String> {
        let text = text.as_bytes();
        let whole = parse(text);
        assert_eq!(in_parts(text.chunks(1)), whole);
        for cut in 0..=text.len() {
            let (before, after) = text.split_at(cut);
            assert_eq!(in_parts([before, after]), whole);
        }
        whole
    }

    fn in_parts<'a>(parts: impl IntoIterator<Item = &'a [u8]>) -> Result<Vec<u8>, String> {
        let mut text = Parts::new();
        let bytes = parts.into_iter().flat_map(|part| text.feed(part)).collect();
        text.finish().map(|()| bytes)
    }

    #[test]
    fn pairs_spaces_and_comments() {
        assert_eq!(
            bytes("4207 00\t02 # Record\r\n\n  aF#x").unwrap(),
            [0x42, 7, 0, 2, 0xAF]
        );
        assert_eq!(
            bytes("# a comment\r20 # another\r#\n21").unwrap(),
            [0x20, 0x21]
        );
        assert_eq!(bytes("").unwrap(), []);
        assert_eq!(bytes("# 20").unwrap(), []);
        assert_eq!(parse(b"20 # \xff\x00").unwrap(), [0x20]);
    }

    #[test]
    fn what_is_no_hex_text() {
        for (text, why) in [
            (
                "20 2",
                "line 1, column 4: a byte is two hex digits, and here is one",
            ),
            (
                "2 0",
                "line 1, column 1: a byte is two hex digits, and here is one",
            ),
            (
                "20\n2# 0",
                "line 2, column 1: a byte is two hex digits, and here is one",
            ),
            ("20\n 2g", "line 2, column 3: 'g' is no hex digit"),
            ("20\r\n#\n21\r x", "line 3, column 5: 'x' is no hex digit"),
            ("0x20", "line 1, column 2: 'x' is no hex digit"),
            ("20 \u{e9}", "line 1, column 4: byte C3 is no hex digit"),
        ] {
            assert_eq!(bytes(text).unwrap_err(), why, "{text:?}");
        }
    }

    #[test]
    fn every_byte_there_and_back() {
        let all: Vec<u8> = (0..=255).collect();
        assert_eq!(bytes(&text(&all)).unwrap(), all);
        assert_eq!(bytes(&dense(&all)).unwrap(), all);
        assert_eq!(bytes(&row(&all)).unwrap(), all);
        assert!(text(&all).lines().all(|line| line.len() == 47));
        assert_eq!(text(&[]), "");
        assert_eq!(text(&[0x1F]), "1F\n");
    }

    /// `show --hex` takes a file for hex text if it is that and holds a byte. That is no guess: no
    /// such file is a shape itself. A shape of several bytes has two bytes of size after its first,
    /// and no letter of hex text is as small as the second of them must be.
    #[test]
    fn no_hex_text_is_a_shape_itself() {
        let letters = b"0123456789ABCDEFabcdef \t\n\r#";
        for &a in letters {
            for &b in letters {
                assert!(shiulbart::read(&[a, b]).is_err());
                for &c in letters {
                    let bytes = [&[a, b, c][..], &[b'0'; 2045]].concat();
                    for length in [3, 4, 5, 100, 2047, 2048] {
                        assert!(shiulbart::read(&bytes[..length]).is_err());
                    }
                }
            }
        }
    }
}
