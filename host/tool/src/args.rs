//! What was asked for, from the words of the command line.

use crate::help::{self, Topic};
use crate::{words, Trouble};
use std::ffi::{OsStr, OsString};
use std::os::unix::ffi::OsStrExt;

/// The most entries that a sheet has.
const MOST_ENTRIES: usize = 32;

#[derive(Debug, PartialEq, Eq)]
pub enum Request {
    /// How the program, or one of its commands, is used.
    Help(Option<&'static Topic>),
    Version,
    Run(Command, Options),
}

/// A command and its files.
#[derive(Debug, PartialEq, Eq)]
pub enum Command {
    Check(OsString),
    Show(OsString),
    Fill([OsString; 2]),
    Join([OsString; 2]),
    Twice([OsString; 3]),
    Table(OsString),
    Write(OsString),
    /// The blanks' numbers rise.
    Sheet(Vec<(u16, OsString)>),
}

impl Command {
    pub fn name(&self) -> &'static str {
        match self {
            Command::Check(_) => "check",
            Command::Show(_) => "show",
            Command::Fill(_) => "fill",
            Command::Join(_) => "join",
            Command::Twice(_) => "twice",
            Command::Table(_) => "table",
            Command::Write(_) => "write",
            Command::Sheet(_) => "sheet",
        }
    }
}

#[derive(Debug, Default, PartialEq, Eq)]
pub struct Options {
    /// Files and answers are hex text.
    pub hex: bool,
    /// The answer is for a script.
    pub json: bool,
    /// While standard input comes, standard error says how far it is.
    pub progress: bool,
    /// The file that the answer's bytes go to.
    pub out: Option<OsString>,
}

/// The words of the command line: options, and all others.
#[derive(Default)]
struct Words {
    options: Options,
    help: bool,
    version: bool,
    plain: Vec<OsString>,
}

/// Takes the command line apart.
pub fn request(words: impl Iterator<Item = OsString>) -> Result<Request, Trouble> {
    let words = sorted(words)?;
    if words.version {
        return Ok(Request::Version);
    }
    let mut plain = words.plain.into_iter();
    let name = match plain.next() {
        Some(name) => name,
        None if words.help || words.options == Options::default() => {
            return Ok(Request::Help(None));
        }
        None => return bad("there is no command: see shiulbart help"),
    };
    if name == "help" {
        return help_request(plain);
    }
    let topic = topic(&name)?;
    if words.help {
        return Ok(Request::Help(Some(topic)));
    }
    let command = command(topic, plain.collect())?;
    fits(topic, &command, &words.options)?;
    Ok(Request::Run(command, words.options))
}

/// Sorts the words. Options may stand anywhere before a word `--`.
fn sorted(mut words: impl Iterator<Item = OsString>) -> Result<Words, Trouble> {
    let mut sorted = Words::default();
    while let Some(word) = words.next() {
        match word.as_bytes() {
            b"--" => {
                sorted.plain.extend(words);
                break;
            }
            b"--hex" => sorted.options.hex = true,
            b"--json" => sorted.options.json = true,
            b"--progress" => sorted.options.progress = true,
            b"--help" | b"-h" => sorted.help = true,
            b"--version" => sorted.version = true,
            b"-o" => set_out(&mut sorted.options, words.next())?,
            [b'-', _, ..] => {
                let option = words::file(&word);
                return bad(&format!("there is no option {option}: see shiulbart help"));
            }
            _ => sorted.plain.push(word),
        }
    }
    Ok(sorted)
}

fn bad<T>(line: &str) -> Result<T, Trouble> {
    Err(Trouble(line.to_string()))
}

fn set_out(options: &mut Options, file: Option<OsString>) -> Result<(), Trouble> {
    let Some(file) = file else {
        return bad("-o needs the name of a file");
    };
    match options.out.replace(file) {
        None => Ok(()),
        Some(_) => bad("-o is given twice, and there is one answer to write"),
    }
}

fn help_request(mut names: impl Iterator<Item = OsString>) -> Result<Request, Trouble> {
    let name = names.next().filter(|name| name != "help");
    let topic = name.map(|name| topic(&name)).transpose()?;
    match names.next() {
        None => Ok(Request::Help(topic)),
        Some(_) => bad("help takes one command"),
    }
}

fn topic(name: &OsStr) -> Result<&'static Topic, Trouble> {
    match help::topic(name) {
        Some(topic) => Ok(topic),
        None => {
            let name = words::file(name);
            bad(&format!("there is no command {name}: see shiulbart help"))
        }
    }
}

fn command(topic: &Topic, files: Vec<OsString>) -> Result<Command, Trouble> {
    let one = |files| exactly(topic, files).map(|[file]: [OsString; 1]| file);
    Ok(match topic.name {
        "check" => Command::Check(one(files)?),
        "show" => Command::Show(one(files)?),
        "fill" => Command::Fill(exactly(topic, files)?),
        "join" => Command::Join(exactly(topic, files)?),
        "twice" => Command::Twice(exactly(topic, files)?),
        "table" => Command::Table(one(files)?),
        "write" => Command::Write(one(files)?),
        "sheet" => Command::Sheet(entries(&files)?),
        other => unreachable!("there is no topic {other}"),
    })
}

/// The files of a command that takes so many.
fn exactly<const N: usize>(topic: &Topic, files: Vec<OsString>) -> Result<[OsString; N], Trouble> {
    files.try_into().map_err(|files: Vec<OsString>| {
        let Topic {
            name, files: takes, ..
        } = topic;
        let got = words::count(files.len(), "file");
        Trouble(format!(
            "{name} takes {takes}, and got {got}: see shiulbart help {name}"
        ))
    })
}

/// The entries of a sheet, in the order of their blanks.
fn entries(words: &[OsString]) -> Result<Vec<(u16, OsString)>, Trouble> {
    let mut entries = words.iter().map(entry).collect::<Result<Vec<_>, _>>()?;
    entries.sort_by_key(|(number, _)| *number);
    for pair in entries.windows(2) {
        if let [(number, one), (same, other)] = pair {
            if number == same {
                let (one, other) = (words::file(one), words::file(other));
                return bad(&format!("blank {number} is given twice: {one} and {other}"));
            }
        }
    }
    if entries.len() > MOST_ENTRIES {
        let count = entries.len();
        return bad(&format!(
            "a sheet has at most {MOST_ENTRIES} entries, and these are {count}"
        ));
    }
    Ok(entries)
}

/// `7=FILE`.
fn entry(word: &OsString) -> Result<(u16, OsString), Trouble> {
    let shown = words::file(word);
    let bytes = word.as_bytes();
    let Some(equals) = bytes.iter().position(|&letter| letter == b'=') else {
        return bad(&format!("{shown}: an entry of a sheet is NUMBER=FILE"));
    };
    let (number, file) = (&bytes[..equals], &bytes[equals + 1..]);
    if file.is_empty() {
        return bad(&format!("{shown}: there is no file after ="));
    }
    let digits = std::str::from_utf8(number).ok();
    let digits = digits.filter(|digits| digits.bytes().all(|digit| digit.is_ascii_digit()));
    match digits.and_then(|digits| digits.parse().ok()) {
        Some(number) => Ok((number, OsStr::from_bytes(file).to_os_string())),
        None => bad(&format!("{shown}: the number of a blank is 0 to 65,535")),
    }
}

/// Whether the options make sense for the command.
fn fits(topic: &Topic, command: &Command, options: &Options) -> Result<(), Trouble> {
    let name = topic.name;
    if options.progress {
        let other = match command {
            Command::Check(file) if file == "-" => None,
            Command::Check(_) => Some("a file, which is read at once"),
            _ => Some(name),
        };
        if let Some(other) = other {
            return bad(&format!("--progress goes with check -, not with {other}"));
        }
    }
    let Some(out) = &options.out else {
        return Ok(());
    };
    if !topic.makes_bytes() {
        bad(&format!("{name} makes no bytes for -o to write"))
    } else if out == "-" && options.json {
        bad("--json needs standard output for itself, so -o - cannot have it")
    } else if out == "-" && name == "twice" {
        bad("twice needs standard output for its page, so -o - cannot have it")
    } else {
        Ok(())
    }
}

#[cfg(test)]
mod tests {
    use super::*;

    fn asked(line: &str) -> Result<Request, Trouble> {
        request(line.split_whitespace().map(OsString::from))
    }

    fn trouble(line: &str) -> String {
        match asked(line) {
            Err(Trouble(why)) => why,
            Ok(request) => panic!("{line}: {request:?}"),
        }
    }

    fn command_of(line: &str) -> Command {
        match asked(line) {
            Ok(Request::Run(command, _)) => command,
            other => panic!("{line}: {other:?}"),
        }
    }

    #[test]
    fn every_command_has_its_name() {
        for (line, name) in [
            ("check a", "check"),
            ("show a", "show"),
            ("fill a b", "fill"),
            ("join a b", "join"),
            ("twice a b c", "twice"),
            ("table a", "table"),
            ("write a", "write"),
            ("sheet 7=a", "sheet"),
        ] {
            assert_eq!(command_of(line).name(), name);
            let topic = help::topic(OsStr::new(name));
            assert!(topic.is_some());
            assert_eq!(asked(&format!("help {name}")), Ok(Request::Help(topic)));
            assert_eq!(asked(&format!("{name} --help")), Ok(Request::Help(topic)));
            assert_eq!(asked(&format!("-h {line}")), Ok(Request::Help(topic)));
        }
    }

    #[test]
    fn options_stand_anywhere() {
        let all = Options {
            hex: true,
            json: true,
            progress: false,
            out: Some("-o".into()),
        };
        let run = Request::Run(Command::Fill(["a".into(), "b".into()]), all);
        assert_eq!(asked("--hex fill a -o -o --json b").as_ref(), Ok(&run));
        assert_eq!(
            asked("fill a b --json --hex --hex -o -o").as_ref(),
            Ok(&run)
        );
        let dashes = Command::Fill(["--hex".into(), "-o".into()]);
        assert_eq!(
            asked("fill -- --hex -o"),
            Ok(Request::Run(dashes, Options::default()))
        );
        assert_eq!(command_of("check -"), Command::Check("-".into()));
        let progress = Options {
            progress: true,
            ..Options::default()
        };
        let run = Request::Run(Command::Check("-".into()), progress);
        for line in [
            "check - --progress",
            "--progress check -",
            "check --progress -- -",
        ] {
            assert_eq!(asked(line).as_ref(), Ok(&run), "{line}");
        }
    }

    #[test]
    fn what_is_asked_of_the_program_itself() {
        for line in [
            "",
            "help",
            "--help",
            "-h",
            "--help --hex",
            "help --json",
            "help help",
        ] {
            assert_eq!(asked(line), Ok(Request::Help(None)), "{line}");
        }
        for line in ["--version", "check --version", "--help --version"] {
            assert_eq!(asked(line), Ok(Request::Version), "{line}");
        }
    }

    #[test]
    fn bad_use() {
        for (line, why) in [
            ("chek a", "there is no command chek: see shiulbart help"),
            ("help chek", "there is no command chek: see shiulbart help"),
            (
                "chek --help",
                "there is no command chek: see shiulbart help",
            ),
            ("--json", "there is no command: see shiulbart help"),
            ("help check fill", "help takes one command"),
            (
                "check",
                "check takes FILE, and got 0 files: see shiulbart help check",
            ),
            (
                "fill a",
                "fill takes TEMPLATE SHEET, and got 1 file: see shiulbart help fill",
            ),
            (
                "twice a b c d",
                "twice takes TEMPLATE FIRST SECOND, and got 4 files: see shiulbart help twice",
            ),
            ("check -x a", "there is no option -x: see shiulbart help"),
            (
                "check --hex=1 a",
                "there is no option --hex=1: see shiulbart help",
            ),
            ("fill a b -oc", "there is no option -oc: see shiulbart help"),
            ("fill a b -o", "-o needs the name of a file"),
            (
                "fill a b -o c -o d",
                "-o is given twice, and there is one answer to write",
            ),
            ("check a -o b", "check makes no bytes for -o to write"),
            ("show a -o b", "show makes no bytes for -o to write"),
            (
                "check --progress a",
                "--progress goes with check -, not with a file, which is read at once",
            ),
            (
                "show --progress -",
                "--progress goes with check -, not with show",
            ),
            ("--progress", "there is no command: see shiulbart help"),
            (
                "fill a b -o - --json",
                "--json needs standard output for itself, so -o - cannot have it",
            ),
            (
                "twice a b c -o -",
                "twice needs standard output for its page, so -o - cannot have it",
            ),
        ] {
            assert_eq!(trouble(line), why, "{line}");
        }
    }

    #[test]
    fn entries_rise() {
        let entries = |numbers: &[u16]| {
            let entry = |&number: &u16| (number, OsString::from(format!("f{number}")));
            Command::Sheet(numbers.iter().map(entry).collect())
        };
        assert_eq!(
            command_of("sheet 40=f40 0=f0 007=f7 65535=f65535"),
            entries(&[0, 7, 40, 65_535])
        );
        assert_eq!(command_of("sheet"), entries(&[]));
        assert_eq!(
            command_of("sheet 1=a=b"),
            Command::Sheet(vec![(1, "a=b".into())])
        );
        let most: Vec<String> = (0..33).map(|k| format!("{k}=f{k}")).collect();
        let numbers: Vec<u16> = (0..32).collect();
        let line = |count: usize| format!("sheet {}", most[..count].join(" "));
        assert_eq!(command_of(&line(32)), entries(&numbers));
        assert_eq!(
            trouble(&line(33)),
            "a sheet has at most 32 entries, and these are 33"
        );
    }

    #[test]
    fn bad_entries() {
        for (line, why) in [
            ("sheet 7", "7: an entry of a sheet is NUMBER=FILE"),
            ("sheet a=b", "a=b: the number of a blank is 0 to 65,535"),
            ("sheet =b", "=b: the number of a blank is 0 to 65,535"),
            ("sheet +7=b", "+7=b: the number of a blank is 0 to 65,535"),
            (
                "sheet 65536=b",
                "65536=b: the number of a blank is 0 to 65,535",
            ),
            ("sheet 7=", "7=: there is no file after ="),
            ("sheet 7=a 1=b 07=c", "blank 7 is given twice: a and c"),
        ] {
            assert_eq!(trouble(line), why, "{line}");
        }
    }
}
