//! Numbers, file names and errors of the system, in words for one line.

use std::ffi::OsStr;
use std::io::{self, ErrorKind};

/// `2,048`.
pub fn number(number: usize) -> String {
    if number < 1000 {
        number.to_string()
    } else {
        format!("{},{:03}", self::number(number / 1000), number % 1000)
    }
}

/// `1 byte`, `2,048 bytes`.
pub fn count(count: usize, thing: &str) -> String {
    let plural = if count == 1 { "" } else { "s" };
    format!("{} {thing}{plural}", number(count))
}

/// The name of a file as a message has it: on one line, whatever characters it holds.
pub fn file(name: &OsStr) -> String {
    let mut shown = String::new();
    for letter in name.to_string_lossy().chars() {
        if letter.is_control() {
            shown.extend(letter.escape_default());
        } else {
            shown.push(letter);
        }
    }
    shown
}

/// What the system says is wrong, without its number.
pub fn error(error: &io::Error) -> String {
    match error.kind() {
        ErrorKind::NotFound => "there is no such file or folder".to_string(),
        ErrorKind::PermissionDenied => "permission denied".to_string(),
        ErrorKind::BrokenPipe => "its reader has closed it".to_string(),
        _ => {
            let said = error.to_string();
            let end = said.find(" (os error").unwrap_or(said.len());
            said[..end].to_lowercase()
        }
    }
}

#[cfg(test)]
mod tests {
    use super::*;
    use std::os::unix::ffi::OsStrExt;

    #[test]
    fn numbers_are_grouped_by_three() {
        for (value, words) in [
            (0, "0"),
            (999, "999"),
            (1000, "1,000"),
            (65_535, "65,535"),
            (1_048_576, "1,048,576"),
            (1_000_001, "1,000,001"),
        ] {
            assert_eq!(number(value), words);
        }
    }

    #[test]
    fn one_is_no_plural() {
        assert_eq!(count(0, "byte"), "0 bytes");
        assert_eq!(count(1, "byte"), "1 byte");
        assert_eq!(count(2048, "byte"), "2,048 bytes");
    }

    #[test]
    fn a_file_name_stays_on_its_line() {
        assert_eq!(file(OsStr::new("für 'uns'.bin")), "für 'uns'.bin");
        assert_eq!(file(OsStr::new("a\nb\u{1b}[1m")), "a\\nb\\u{1b}[1m");
        assert_eq!(file(OsStr::from_bytes(b"x\xff")), "x\u{fffd}");
    }

    #[test]
    fn errors_have_no_number() {
        let full = io::Error::from_raw_os_error(28);
        assert_eq!(error(&full), "no space left on device");
        let none = io::Error::from(ErrorKind::NotFound);
        assert_eq!(error(&none), "there is no such file or folder");
    }
}
