//! `show`: a shape as a tree.

use crate::input::Input;
use crate::json::Value;
use crate::outcome::{Body, Outcome};
use crate::refused::Refused;
use crate::tree::{Branch, Role, What};
use crate::{hex, words};

/// How many bytes stand beside a line; more go on below.
const BESIDE: usize = 8;

/// With `bytes` those of each line stand beside it.
pub fn run(file: &Input, bytes: bool) -> Outcome {
    let tree = match Branch::of(&file.bytes) {
        Ok(tree) => tree,
        Err(refusal) => return Refused::file("table", file, refusal).into(),
    };
    let shown = bytes.then_some(&file.bytes[..]);
    let blanks = tree.blanks().into_iter().map(usize::from);
    let numbers = blanks.clone().map(Value::from).collect();
    Outcome {
        answered: true,
        body: Body::Page(page(&tree, shown, &blanks.collect::<Vec<_>>()), None),
        fields: vec![
            ("file", file.name.as_str().into()),
            ("length", file.bytes.len().into()),
            ("blanks", Value::List(numbers)),
            ("tree", json(&tree, shown)),
        ],
    }
}

fn page(tree: &Branch, bytes: Option<&[u8]>, blanks: &[usize]) -> String {
    let mut page = line("place", bytes.map(|_| "bytes"), "shape");
    add_lines(&mut page, tree, bytes, 0);
    if !blanks.is_empty() {
        let blanks: Vec<String> = blanks.iter().map(usize::to_string).collect();
        page += &format!("blanks: {}\n", blanks.join(" "));
    }
    page
}

fn line(place: &str, bytes: Option<&str>, shape: &str) -> String {
    let width = 3 * BESIDE - 1;
    let line = match bytes {
        Some(bytes) => format!("{place:>5}  {bytes:<width$}  {shape}"),
        None => format!("{place:>5}  {shape}"),
    };
    line.trim_end().to_string() + "\n"
}

/// The lines of a branch and of all that is inside it.
fn add_lines(page: &mut String, branch: &Branch, bytes: Option<&[u8]>, level: usize) {
    let place = match &branch.at {
        Some(at) => at.start.to_string(),
        None => "-".to_string(),
    };
    let shape = format!(
        "{}{}{}",
        "  ".repeat(level),
        role(&branch.role),
        what(branch)
    );
    let beside = bytes.map(|bytes| &bytes[branch.line.clone()]);
    let mut rows = beside.unwrap_or_default().chunks(BESIDE).map(hex::row);
    let first = beside.map(|_| rows.next().unwrap_or_default());
    *page += &line(&place, first.as_deref(), &shape);
    rows.for_each(|row| *page += &line("", Some(&row), ""));
    for inner in &branch.inside {
        add_lines(page, inner, bytes, level + 1);
    }
}

fn role(role: &Role) -> String {
    match role {
        Role::Root | Role::Text => String::new(),
        Role::Element => "element: ".to_string(),
        Role::Key => "key: ".to_string(),
        Role::Value => "value: ".to_string(),
        // the form of a Rust text: on one line, whatever letters it has
        Role::Field { name, .. } => format!("{name:?}: "),
        Role::Parameter(k) => format!("parameter {k}: "),
        Role::Return => "return: ".to_string(),
    }
}

fn what(branch: &Branch) -> String {
    let inside = branch.inside.len();
    match &branch.what {
        What::Blank(number) => format!("<blank {number}>"),
        What::Text(text) => format!("{text:?}"),
        What::Record => format!("Record of {}", words::count(inside, "field")),
        What::Symbol => format!("Symbol of {}", words::count(inside, "text")),
        _ if branch.is_packed() => format!("{}, packed", word(&branch.what)),
        other => word(other),
    }
}

/// The shape in one word.
fn word(what: &What) -> String {
    match what {
        What::Primitive(primitive) => format!("{primitive:?}"),
        What::Blank(_) => "blank".to_string(),
        What::Array => "Array".to_string(),
        What::Map => "Map".to_string(),
        What::Record => "Record".to_string(),
        What::Function => "Function".to_string(),
        What::Symbol => "Symbol".to_string(),
        What::Text(_) => "text".to_string(),
    }
}

fn json(branch: &Branch, bytes: Option<&[u8]>) -> Value {
    let at = branch.at.clone();
    let mut fields = vec![
        ("shape", word(&branch.what).into()),
        (
            "place",
            at.clone().map_or(Value::Null, |at| at.start.into()),
        ),
        ("length", at.map_or(0, |at| at.len()).into()),
    ];
    match &branch.role {
        Role::Root | Role::Text => {}
        Role::Field { name, place } => {
            fields.push(("name", name.as_str().into()));
            fields.push(("name_place", (*place).into()));
        }
        other => fields.push(("role", role(other).trim_end_matches(": ").into())),
    }
    match &branch.what {
        What::Blank(number) => fields.push(("number", usize::from(*number).into())),
        What::Text(text) => fields.push(("text", text.as_str().into())),
        _ => {}
    }
    if let Some(all) = bytes {
        fields.push(("bytes", hex::dense(&all[branch.line.clone()]).into()));
    }
    let inside = branch.inside.iter().map(|inner| json(inner, bytes));
    fields.push(("inside", Value::List(inside.collect())));
    Value::Object(fields)
}
