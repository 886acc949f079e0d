//! `fill`, `join`, `table` and `write`: each is one call, whose answer is bytes.

use crate::input::Input;
use crate::refused::Refused;
use shiulbart::RefusalKind;

pub fn fill(template: &Input, sheet: &Input) -> Result<Vec<u8>, Refused> {
    use RefusalKind::*;
    let filled = shiulbart::fill_to_vec(&template.bytes, &sheet.bytes);
    filled.map_err(|refusal| match refusal.kind() {
        SheetBroken => Refused::file("fill", sheet, refusal),
        MadeTooDeep | MadeTooLong => {
            let about = format!("fill {} with {}", template.name, sheet.name);
            Refused::made("fill", about, refusal)
        }
        _ => Refused::file("fill", template, refusal),
    })
}

pub fn join(first: &Input, second: &Input) -> Result<Vec<u8>, Refused> {
    use RefusalKind::*;
    let joined = shiulbart::join_to_vec(&first.bytes, &second.bytes);
    joined.map_err(|refusal| match refusal.kind() {
        SheetBroken => Refused::file("join", first, refusal),
        SecondBroken => Refused::file("join", second, refusal),
        _ => {
            let about = format!("join {} and {}", first.name, second.name);
            Refused::made("join", about, refusal)
        }
    })
}

pub fn table(file: &Input) -> Result<Vec<u8>, Refused> {
    shiulbart::table_to_vec(&file.bytes).map_err(|refusal| Refused::file("table", file, refusal))
}

pub fn write(table: &Input) -> Result<Vec<u8>, Refused> {
    let written = shiulbart::write_to_vec(&table.bytes);
    written.map_err(|refusal| Refused::file("write", table, refusal))
}
