//! The files that a command is given.

use crate::{hex, words, Trouble};
use std::ffi::OsStr;
use std::fs::File;
use std::io::{self, BufRead, ErrorKind, Read};

/// No more of a file is read. It is far above what the longest table takes, as hex text with comments
/// too, so whatever is longer is none of these; up to it the calls refuse what is too long.
const MOST: usize = 4 << 20;

/// What messages call standard input.
const STANDARD_INPUT: &str = "standard input";

/// How the bytes of an input stand in its file.
#[derive(Clone, Copy, Debug, PartialEq, Eq)]
pub enum Form {
    /// As they are.
    Bytes,
    /// As hex text.
    Hex,
    /// As hex text if the file is that and holds a byte, else as they are. No shape's own bytes are
    /// hex text (the tests of `hex` say why), so of a shape it is never the wrong one.
    Either,
}

/// A file that was read.
#[derive(Debug)]
pub struct Input {
    /// As messages have it.
    pub name: String,
    pub bytes: Vec<u8>,
    /// Why a file that could have been hex text was taken as it is.
    pub no_hex: Option<String>,
}

/// Reads the files of one command, all in the same form.
pub struct Files {
    form: Form,
    standard_input_read: bool,
}

impl Files {
    pub fn new(form: Form) -> Files {
        Files {
            form,
            standard_input_read: false,
        }
    }

    /// Reads a file; `-` is standard input, which can be read once.
    pub fn read(&mut self, name: &OsStr) -> Result<Input, Trouble> {
        if name != "-" {
            let shown = words::file(name);
            let content = File::open(name).and_then(content);
            return self.input(shown, content);
        }
        if std::mem::replace(&mut self.standard_input_read, true) {
            let twice = "it is named by - twice, and can be read only once";
            return Err(Trouble::with(STANDARD_INPUT, twice));
        }
        let content = content(io::stdin().lock());
        self.input(STANDARD_INPUT.to_string(), content)
    }

    fn input(&self, name: String, content: io::Result<Vec<u8>>) -> Result<Input, Trouble> {
        let content = content.map_err(|error| unreadable(&name, &error))?;
        if content.len() > MOST {
            return Err(too_long(&name));
        }
        let (bytes, no_hex) = match self.form {
            Form::Bytes => (content, None),
            Form::Hex => match hex::parse(&content) {
                Ok(bytes) => (bytes, None),
                Err(why) => return Err(not_hex(&name, &why)),
            },
            Form::Either => either(content),
        };
        Ok(Input {
            name,
            bytes,
            no_hex,
        })
    }
}

/// Reads standard input part by part: the bytes of each are handed on before the next one is waited
/// for. Of all bytes, the answer has the first ones, up to so many. What is wrong with the input is
/// what [`Files::read`] would say of it.
pub fn in_parts(
    hex: bool,
    most_kept: usize,
    mut hand_on: impl FnMut(&[u8]),
) -> Result<Input, Trouble> {
    let mut standard_input = io::stdin().lock();
    let mut text = hex.then(hex::Parts::new);
    let mut kept = Vec::new();
    let mut length = 0;
    loop {
        // the buffer is empty here, so this is one read of what is behind it
        let part = match standard_input.fill_buf() {
            Ok([]) => break,
            Ok(part) => part,
            Err(error) if error.kind() == ErrorKind::Interrupted => continue,
            Err(error) => return Err(unreadable(STANDARD_INPUT, &error)),
        };
        let read = part.len();
        length += read;
        if length > MOST {
            return Err(too_long(STANDARD_INPUT));
        }
        let decoded = text.as_mut().map(|text| text.feed(part));
        let bytes = decoded.as_deref().unwrap_or(part);
        kept.extend(&bytes[..bytes.len().min(most_kept - kept.len())]);
        hand_on(bytes);
        standard_input.consume(read);
    }
    if let Some(Err(why)) = text.map(hex::Parts::finish) {
        return Err(not_hex(STANDARD_INPUT, &why));
    }
    Ok(Input {
        name: STANDARD_INPUT.to_string(),
        bytes: kept,
        no_hex: None,
    })
}

fn unreadable(name: &str, error: &io::Error) -> Trouble {
    Trouble::with(name, format!("cannot be read: {}", words::error(error)))
}

fn too_long(name: &str) -> Trouble {
    let most = words::count(MOST, "byte");
    let long = format!("too long: over {most}, and no shape, sheet or table is that long");
    Trouble::with(name, long)
}

fn not_hex(name: &str, why: &str) -> Trouble {
    Trouble::with(name, format!("not hex: {why}"))
}

/// The bytes of [`Form::Either`], and why they are those of the file itself.
fn either(content: Vec<u8>) -> (Vec<u8>, Option<String>) {
    match hex::parse(&content) {
        Ok(bytes) if !bytes.is_empty() => (bytes, None),
        Ok(_) => (content, Some("it has no digits".to_string())),
        Err(why) => (content, Some(why)),
    }
}

/// What a reader has, or one byte more than is wanted of it.
fn content(reader: impl Read) -> io::Result<Vec<u8>> {
    let mut content = Vec::new();
    reader.take(MOST as u64 + 1).read_to_end(&mut content)?;
    Ok(content)
}
