//! A refusal in words, with the bytes around its place, and for scripts.

use crate::dump;
use crate::input::Input;
use crate::json::Value;
use shiulbart::{Refusal, RefusalKind};

/// A call that was refused.
#[derive(Debug)]
pub struct Refused {
    call: &'static str,
    refusal: Refusal,
    /// The file that the refusal is about, if it is about one: a shape that would be made, and a
    /// joined sheet, are no file.
    file: Option<String>,
    /// The file, or the call with all that it was given.
    about: String,
    /// What else there is to say in the same line.
    note: String,
    /// The bytes around the place, if it is a byte of a file.
    dump: String,
}

impl Refused {
    /// Of a file.
    pub fn file(call: &'static str, file: &Input, refusal: Refusal) -> Refused {
        let note = match &file.no_hex {
            Some(why) => format!(" (taken as bytes, for it is no hex text: {why})"),
            None => String::new(),
        };
        let dump = match is_byte(refusal.kind()) {
            true => dump::around(&file.bytes, refusal.place() as usize),
            false => String::new(),
        };
        Refused {
            call,
            refusal,
            file: Some(file.name.clone()),
            about: file.name.clone(),
            note,
            dump,
        }
    }

    /// Of what a call would make.
    pub fn made(call: &'static str, about: String, refusal: Refusal) -> Refused {
        // the refusal names no blank 0, because the place of a fill is 0 for no blank at all
        let of_blank_0 = refusal.place() == 0 && is_made(refusal.kind()) && call == "join";
        Refused {
            call,
            refusal,
            file: None,
            about,
            note: if of_blank_0 { " at blank 0" } else { "" }.to_string(),
            dump: String::new(),
        }
    }

    pub fn number(&self) -> u32 {
        self.refusal.number()
    }

    /// The line that says what is refused and why, and below it the bytes where it is.
    pub fn text(&self) -> String {
        self.said_of(&self.about)
    }

    /// The same for a call that is a step of something. The step stands for what the call was given.
    pub fn text_in(&self, step: &str) -> String {
        match &self.file {
            Some(file) => self.said_of(&format!("{step}: {file}")),
            None => self.said_of(step),
        }
    }

    fn said_of(&self, about: &str) -> String {
        let number = self.number();
        let Refused {
            refusal,
            note,
            dump,
            ..
        } = self;
        format!("{about}: refused, number {number}: {refusal}{note}\n{dump}")
    }

    pub fn json(&self) -> Value {
        let file = self.file.clone().map_or(Value::Null, Value::from);
        Value::Object(vec![
            ("call", self.call.into()),
            ("file", file),
            ("number", (self.number() as usize).into()),
            ("place", (self.refusal.place() as usize).into()),
            ("words", format!("{}{}", self.refusal, self.note).into()),
        ])
    }
}

/// Whether the place is surely a byte. That of a broken sheet may be an entry.
fn is_byte(kind: RefusalKind) -> bool {
    use RefusalKind::*;
    match kind {
        CutShort | NotAssigned | SizeWrong | Leb128Wrong | NotUtf8 | LongForm | TooDeep
        | InputTooLong | SectionBroken => true,
        NodeBroken | NameBroken | BufferShort | SheetBroken | SecondBroken | MadeTooDeep
        | MadeTooLong | JoinedTooLarge | NoSuchPart => false,
    }
}

/// Whether it is about a shape that would be made.
fn is_made(kind: RefusalKind) -> bool {
    matches!(kind, RefusalKind::MadeTooDeep | RefusalKind::MadeTooLong)
}

#[cfg(test)]
mod tests {
    use super::*;
    use RefusalKind::*;

    fn input(bytes: &[u8]) -> Input {
        Input {
            name: "m".to_string(),
            bytes: bytes.to_vec(),
            no_hex: None,
        }
    }

    #[test]
    fn only_a_byte_has_a_dump() {
        let file = input(&[0x40, 1, 0, 0x20]);
        for kind in RefusalKind::ALL {
            let refused = Refused::file("read", &file, Refusal::new(kind, 3));
            let first = (1..=9).contains(&kind.number());
            assert_eq!(refused.text().contains("^^"), first, "{kind:?}");
        }
    }

    #[test]
    fn a_join_names_blank_0() {
        let text = |call, kind, place| {
            Refused::made(call, "c".to_string(), Refusal::new(kind, place)).text()
        };
        let deep = "c: refused, number 15: made shape deeper than 16";
        assert_eq!(text("join", MadeTooDeep, 0), format!("{deep} at blank 0\n"));
        assert_eq!(text("join", MadeTooDeep, 7), format!("{deep} at blank 7\n"));
        assert_eq!(text("fill", MadeTooDeep, 0), format!("{deep}\n"));
        assert!(!text("join", JoinedTooLarge, 0).contains("blank"));
    }

    #[test]
    fn a_file_that_is_no_hex_text_says_why() {
        let mut file = input(b"4x");
        file.no_hex = Some("line 1, column 2: 'x' is no hex digit".to_string());
        let text = Refused::file("read", &file, Refusal::new(NotAssigned, 0)).text();
        assert_eq!(
            text.lines().next().unwrap(),
            "m: refused, number 2: first byte not assigned at byte 0 \
             (taken as bytes, for it is no hex text: line 1, column 2: 'x' is no hex digit)"
        );
    }
}
