//! The commands, each in a module of its own, but for those that make bytes of one or two files.

mod check;
mod make;
mod sheet;
mod show;
mod twice;

use crate::args::{Command, Options};
use crate::input::{Files, Form};
use crate::outcome::Outcome;
use crate::Trouble;

/// Reads the files of a command and makes its calls.
pub fn run(command: &Command, options: &Options) -> Result<Outcome, Trouble> {
    let form = match (options.hex, command) {
        (false, _) => Form::Bytes,
        // the bytes beside each line are wanted of either form
        (true, Command::Show(_)) => Form::Either,
        (true, _) => Form::Hex,
    };
    let mut files = Files::new(form);
    Ok(match command {
        Command::Check(file) if file == "-" => check::run_in_parts(options.hex, options.progress)?,
        Command::Check(file) => check::run(&files.read(file)?),
        Command::Show(file) => show::run(&files.read(file)?, options.hex),
        Command::Fill([template, sheet]) => {
            make::fill(&files.read(template)?, &files.read(sheet)?).into()
        }
        Command::Join([first, second]) => {
            make::join(&files.read(first)?, &files.read(second)?).into()
        }
        Command::Twice([template, first, second]) => {
            let template = files.read(template)?;
            twice::run(&template, &files.read(first)?, &files.read(second)?)
        }
        Command::Table(file) => make::table(&files.read(file)?).into(),
        Command::Write(table) => make::write(&files.read(table)?).into(),
        Command::Sheet(entries) => {
            let mut shapes = Vec::new();
            for (number, file) in entries {
                shapes.push((*number, files.read(file)?));
            }
            sheet::run(&shapes).into()
        }
    })
}
