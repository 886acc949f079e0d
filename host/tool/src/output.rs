//! Where answers go: standard output, or a file that changes only once the whole answer stands.

use crate::{words, Trouble};
use std::ffi::OsStr;
use std::fs::{self, File, OpenOptions, Permissions};
use std::io::{self, ErrorKind, Write};
use std::path::{Path, PathBuf};

/// Prints on standard output.
pub fn print(bytes: &[u8]) -> Result<(), Trouble> {
    let mut out = io::stdout().lock();
    out.write_all(bytes)
        .and_then(|()| out.flush())
        .map_err(|error| cannot_write("standard output", &words::error(&error)))
}

/// Writes a file. Where that fails, a file that was there is as it was.
///
/// Only a regular file can be left as it was: a device or a pipe gets the bytes at once.
pub fn write(name: &OsStr, bytes: &[u8]) -> Result<(), Trouble> {
    let path = Path::new(name);
    let written = match fs::metadata(path) {
        Ok(there) if there.is_dir() => Err("it is a directory".to_string()),
        Ok(there) if there.is_file() => replace_there(path, bytes, there.permissions()),
        Ok(_) => write_at_once(path, bytes),
        Err(error) if error.kind() == ErrorKind::NotFound => write_new(path, bytes),
        Err(error) => Err(words::error(&error)),
    };
    written.map_err(|why| cannot_write(&words::file(name), &why))
}

fn cannot_write(name: &str, why: &str) -> Trouble {
    Trouble::with(name, format!("cannot be written: {why}"))
}

fn write_at_once(path: &Path, bytes: &[u8]) -> Result<(), String> {
    let opened = OpenOptions::new().write(true).open(path);
    opened
        .and_then(|mut file| file.write_all(bytes))
        .map_err(|error| words::error(&error))
}

fn write_new(path: &Path, bytes: &[u8]) -> Result<(), String> {
    if fs::symlink_metadata(path).is_ok() {
        return Err("it is a link that leads nowhere".to_string());
    }
    replace(path, bytes, None).map_err(|error| words::error(&error))
}

/// Replaces a file that is there: through links, and only if it may be written.
fn replace_there(path: &Path, bytes: &[u8], permissions: Permissions) -> Result<(), String> {
    let replaced = fs::canonicalize(path).and_then(|path| {
        OpenOptions::new().write(true).open(&path)?;
        replace(&path, bytes, Some(permissions))
    });
    replaced.map_err(|error| words::error(&error))
}

/// Writes another file beside it and, once that stands, gives it the name.
fn replace(path: &Path, bytes: &[u8], permissions: Option<Permissions>) -> io::Result<()> {
    let folder = match path.parent() {
        Some(folder) if !folder.as_os_str().is_empty() => folder,
        _ => Path::new("."),
    };
    let (beside, mut file) = Beside::new(folder)?;
    file.write_all(bytes)?;
    if let Some(permissions) = permissions {
        file.set_permissions(permissions)?;
    }
    // a full disk may show only here
    file.sync_all()?;
    beside.rename(path)
}

/// A file that is removed again, unless it gets another name.
struct Beside {
    path: PathBuf,
}

impl Beside {
    /// A file of a name that is not taken.
    fn new(folder: &Path) -> io::Result<(Beside, File)> {
        let mut attempt = 0;
        loop {
            let name = format!(".shiulbart-{}-{attempt}", std::process::id());
            let path = folder.join(name);
            match OpenOptions::new().write(true).create_new(true).open(&path) {
                Ok(file) => return Ok((Beside { path }, file)),
                Err(error) if error.kind() == ErrorKind::AlreadyExists => attempt += 1,
                Err(error) => return Err(error),
            }
        }
    }

    fn rename(self, path: &Path) -> io::Result<()> {
        fs::rename(&self.path, path)?;
        std::mem::forget(self);
        Ok(())
    }
}

impl Drop for Beside {
    fn drop(&mut self) {
        let _ = fs::remove_file(&self.path);
    }
}
