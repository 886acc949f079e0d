//! What the program says of itself.

use std::ffi::OsStr;

/// A command, and how it is used.
#[derive(Debug, PartialEq, Eq)]
pub struct Topic {
    pub name: &'static str,
    /// The files that it takes.
    pub files: &'static str,
    /// What it does, on a line.
    about: &'static str,
    /// What else there is to know.
    more: &'static str,
}

const TOPICS: [Topic; 8] = [
    Topic {
        name: "check",
        files: "FILE",
        about: "judge a shape; if it is refused, show where",
        more: "\
Says on standard output whether the bytes are a shape: how long and how deep
it is or, if it is refused, the refusal's number and words, the bytes around
its place, and a caret under the byte.

Standard input (-) is judged part by part as it comes, and the answer comes at
its end. With --progress, standard error has a line for each part meanwhile: how
many bytes there are so far, and how many levels are open.",
    },
    Topic {
        name: "show",
        files: "FILE",
        about: "show a shape as a tree, with places",
        more: "\
Each line has the place of the first byte of a shape, or of a Symbol's text,
and what it is. What is packed into the byte of the shape around it has no
place: - stands for it. Names are in quotation marks, blanks in < >. The last
line has the numbers of all blanks.

With --hex, the bytes of each line stand beside it, and FILE may be hex text or
bytes as they are: what can be read as hex text is, for no shape's own bytes
can. A field's bytes are the length of its name, the name, and its shape; but
the length of the first name stands on the line above, with the Record's own.",
    },
    Topic {
        name: "fill",
        files: "TEMPLATE SHEET",
        about: "fill the blanks of a template",
        more: "\
Each blank of the template that the sheet names is replaced by what the sheet
has for it, all at once. The answer is the filled shape.",
    },
    Topic {
        name: "join",
        files: "FIRST SECOND",
        about: "make one sheet of two",
        more: "\
Filling with the joined sheet is filling with the first and then with the
second. The answer is the joined sheet.",
    },
    Topic {
        name: "twice",
        files: "TEMPLATE FIRST SECOND",
        about: "fill as both boards do, and compare the bytes",
        more: "\
Board A fills the template with the first sheet, and the result with the
second. Board B joins the two sheets and fills once. The page has both ways side
by side, and their bytes, with ! between those that differ; where a call is
refused, it says which and why. The exit status is 0 only if both boards have
an answer and the bytes are the same. Only then are they written to -o FILE.",
    },
    Topic {
        name: "table",
        files: "FILE",
        about: "make the node table of a shape",
        more: "The answer is the table, in the form that write takes.",
    },
    Topic {
        name: "write",
        files: "TABLE",
        about: "write the shape that a node table means",
        more: "The answer is the shape of the table's last node.",
    },
    Topic {
        name: "sheet",
        files: "[NUMBER=FILE ..]",
        about: "make a sheet: for blank NUMBER the shape in FILE",
        more: "\
There are at most 32 blanks, of 0 to 65,535, in any order. Without any, the
answer is the empty sheet, which changes nothing.",
    },
];

/// What `--hex` does; in `show` more than elsewhere.
const HEX: &str = "files are hex text, and so is an answer of bytes";
const HEX_OF_SHOW: &str = "show bytes; FILE may be hex text (see above)";

const NOTES: &str = "\
A FILE of - is standard input. Files are bytes as they are or, with --hex, hex
text: two digits a byte, with or without space between bytes; # starts a
comment, which goes to the end of its line.

Without -o, an answer of bytes goes to standard output: as it is, but as hex
text with --hex and on a terminal (-o - leaves it as it is there too). A file
that -o names changes only once the whole answer stands.

The exit status is 0 if it was answered, 1 if it was refused (twice: or if the
bytes differ), and 2 if it could not be tried. Then one line on standard error
says why.
";

/// The command of this name.
pub fn topic(name: &OsStr) -> Option<&'static Topic> {
    TOPICS.iter().find(|topic| name == topic.name)
}

/// How a command is used, or the whole program.
pub fn page(topic: Option<&Topic>) -> String {
    match topic {
        Some(topic) => topic.page(),
        None => {
            let commands: String = TOPICS.iter().map(Topic::line).collect();
            format!(
                "shiulbart COMMAND [OPTIONS] FILES: judge, show and fill shapes in files\n\n\
                 {commands}{}\n{}\n{NOTES}",
                two_columns("help [COMMAND]", "this page, or one about a command"),
                options(HEX, true, true),
            )
        }
    }
}

impl Topic {
    fn line(&self) -> String {
        two_columns(&format!("{} {}", self.name, self.files), self.about)
    }

    fn page(&self) -> String {
        let Topic {
            name,
            files,
            about,
            more,
        } = self;
        let hex = if *name == "show" { HEX_OF_SHOW } else { HEX };
        let options = options(hex, self.waits(), self.makes_bytes());
        format!("shiulbart {name} [OPTIONS] {files}\n{about}\n\n{more}\n\n{options}")
    }

    /// Whether there is something for `--progress` to tell.
    fn waits(&self) -> bool {
        self.name == "check"
    }

    /// Whether there is something for `-o` to write.
    pub fn makes_bytes(&self) -> bool {
        !["check", "show"].contains(&self.name)
    }
}

fn options(hex: &str, progress: bool, out: bool) -> String {
    let mut options = two_columns("--hex", hex);
    options += &two_columns("--json", "tell a script: one JSON object");
    if progress {
        options += &two_columns(
            "--progress",
            "check -: tell how far the input is, as it comes",
        );
    }
    if out {
        options += &two_columns("-o FILE", "write the answer's bytes to FILE");
    }
    options + &two_columns("--", "no options follow")
}

fn two_columns(what: &str, about: &str) -> String {
    format!("  {what:<29}{about}\n")
}

#[cfg(test)]
mod tests {
    use super::*;

    #[test]
    fn pages_fit_a_terminal() {
        let pages = TOPICS.iter().map(Some).chain([None]).map(page);
        for page in pages {
            assert!(page.ends_with('\n') && !page.ends_with("\n\n"), "{page}");
            for line in page.lines() {
                assert!(line.chars().count() <= 80, "{line}");
                assert_eq!(line, line.trim_end());
            }
        }
    }
}
