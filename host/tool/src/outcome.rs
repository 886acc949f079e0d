//! What a command has to say, and how it is told: to a reader or to a script.

use crate::args::Options;
use crate::json::{Fields, Value};
use crate::refused::Refused;
use crate::{hex, output, Trouble};
use std::io::{self, IsTerminal, Write};

/// What came of a command whose files could be read.
pub struct Outcome {
    /// Whether the exit status is 0.
    pub answered: bool,
    pub body: Body,
    /// What a script is told, beside the command's name, `answered` and the bytes.
    pub fields: Fields,
}

/// What a reader sees.
pub enum Body {
    /// An answer of bytes, which goes to a file or to standard output.
    Bytes(Vec<u8>),
    /// An answer in words, and the bytes that a file may get.
    Page(String, Option<Vec<u8>>),
    /// A refusal in words where bytes or a tree were asked for. It goes to standard error.
    Refusal(String),
}

impl From<Result<Vec<u8>, Refused>> for Outcome {
    fn from(made: Result<Vec<u8>, Refused>) -> Outcome {
        match made {
            Ok(bytes) => Outcome {
                answered: true,
                body: Body::Bytes(bytes),
                fields: vec![],
            },
            Err(refused) => Outcome::from(refused),
        }
    }
}

impl From<Refused> for Outcome {
    fn from(refused: Refused) -> Outcome {
        Outcome {
            answered: false,
            body: Body::Refusal(refused.text()),
            fields: vec![("refusal", refused.json())],
        }
    }
}

impl Outcome {
    /// The bytes that a file may get.
    fn bytes(&self) -> Option<&[u8]> {
        match &self.body {
            Body::Bytes(bytes) | Body::Page(_, Some(bytes)) => Some(bytes),
            Body::Page(_, None) | Body::Refusal(_) => None,
        }
    }

    /// Writes the file, if one is asked for and there is an answer, and then what a reader or a script
    /// is told.
    pub fn deliver(&self, command: &'static str, options: &Options) -> Result<(), Trouble> {
        if let (Some(file), Some(bytes)) = (&options.out, self.bytes()) {
            let formed = formed(bytes, options.hex);
            if file == "-" {
                return output::print(&formed);
            }
            output::write(file, &formed)?;
        }
        if options.json {
            return output::print(format!("{}\n", self.object(command)).as_bytes());
        }
        match &self.body {
            Body::Page(text, _) => output::print(text.as_bytes()),
            Body::Bytes(_) if options.out.is_some() => Ok(()),
            // bytes as they are do a terminal no good
            Body::Bytes(bytes) => {
                output::print(&formed(bytes, options.hex || io::stdout().is_terminal()))
            }
            Body::Refusal(text) => {
                // where standard error is closed, the exit status alone can tell
                let _ = write!(io::stderr(), "shiulbart: {text}");
                Ok(())
            }
        }
    }

    fn object(&self, command: &'static str) -> Value {
        let mut fields = vec![
            ("command", command.into()),
            ("answered", self.answered.into()),
        ];
        fields.extend(self.fields.iter().cloned());
        if let Some(bytes) = self.bytes() {
            fields.push(("length", bytes.len().into()));
            fields.push(("bytes", hex::dense(bytes).into()));
        }
        Value::Object(fields)
    }
}

/// Bytes as they are, or as hex text.
fn formed(bytes: &[u8], hex: bool) -> Vec<u8> {
    if hex {
        hex::text(bytes).into_bytes()
    } else {
        bytes.to_vec()
    }
}
