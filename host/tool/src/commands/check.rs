//! `check`: whether bytes are a shape.

use crate::input::{self, Input};
use crate::outcome::{Body, Outcome};
use crate::refused::Refused;
use crate::{dump, words, Trouble};
use shiulbart::{Accepted, Pieces, Refusal};
use std::io::{self, Write};

/// The bytes of the longest shape, and the last place that a reader refuses at.
const LONGEST: usize = 2048;

/// A file that was read.
pub fn run(file: &Input) -> Outcome {
    told(file, shiulbart::read(&file.bytes))
}

/// Standard input, which is judged as it comes and never held whole. It may come slowly: with
/// `progress`, standard error says with each part how far it is. The answer comes at the end.
pub fn run_in_parts(hex: bool, progress: bool) -> Result<Outcome, Trouble> {
    let mut pieces = Pieces::new();
    // of the bytes that are past, only those around a refusal's place are seen again
    let start = input::in_parts(hex, dump::reach(LONGEST), |part| {
        pieces.feed(part);
        if progress {
            // where standard error is closed, there is still the answer
            let _ = io::stderr().write_all(so_far(&pieces).as_bytes());
        }
    })?;
    Ok(told(&start, pieces.finish()))
}

/// `12 bytes so far, 3 levels open`, on a line.
fn so_far(pieces: &Pieces) -> String {
    let count = match pieces.count() {
        count @ ..=LONGEST => words::count(count, "byte"),
        // it counts no further
        _ => format!("over {}", words::count(LONGEST, "byte")),
    };
    let levels = words::count(pieces.levels(), "level");
    format!("{count} so far, {levels} open\n")
}

fn told(file: &Input, judged: Result<Accepted, Refusal>) -> Outcome {
    let mut fields = vec![("file", file.name.as_str().into())];
    let page = match judged {
        Ok(accepted) => {
            let depth = accepted.depth as usize;
            fields.push(("length", accepted.length.into()));
            fields.push(("depth", depth.into()));
            let length = words::count(accepted.length, "byte");
            format!(
                "{}: ok, {length}, {}\n",
                file.name,
                words::count(depth, "level")
            )
        }
        Err(refusal) => {
            let refused = Refused::file("read", file, refusal);
            fields.push(("refusal", refused.json()));
            refused.text()
        }
    };
    // that it is no shape is what was asked, so it goes where an answer goes
    Outcome {
        answered: judged.is_ok(),
        body: Body::Page(page, None),
        fields,
    }
}
