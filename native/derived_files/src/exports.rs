//! The exports, read from their Rattle source.

/// What an export begins with, after its comment and its mark.
const BEGINNING: &str = "pub extern \"C\" fn ";

/// What marks it.
const MARK: &str = "#[unsafe(no_mangle)]\n";

#[derive(Clone, Debug, PartialEq, Eq)]
pub struct Export {
    /// The comment above it, as one line.
    pub comment: String,
    pub name: String,
    pub parameters: Vec<Parameter>,
}

#[derive(Clone, Debug, PartialEq, Eq)]
pub struct Parameter {
    pub name: String,
    pub passed: Passed,
}

/// How a parameter is passed.
#[derive(Clone, Copy, Debug, PartialEq, Eq)]
pub enum Passed {
    /// A number by value.
    Given(Number),
    /// A place that takes a number.
    Lent(Number),
    /// Numbers to be read.
    Read(Number),
    /// Places that take numbers.
    Written(Number),
}

#[derive(Clone, Copy, Debug, PartialEq, Eq)]
pub enum Number {
    U8,
    U16,
    U64,
    I64,
}

/// All exports of a source, in its order.
pub fn read(source: &str) -> Result<Vec<Export>, String> {
    let begin = source.match_indices(BEGINNING);
    let exports: Result<Vec<Export>, String> = begin
        .map(|(at, _)| export(&source[..at], &source[at + BEGINNING.len()..]))
        .collect();
    let exports = exports?;
    if exports.is_empty() || exports.len() != source.matches(MARK).count() {
        return Err("the marked functions are not the exported ones".to_string());
    }
    Ok(exports)
}

/// An export between what stands before its name and what begins with it.
fn export(before: &str, rest: &str) -> Result<Export, String> {
    let (name, rest) = rest.split_once('(').ok_or("an export has no parameters")?;
    let signature = rest.split_once(") -> u64\n");
    let (parameters, _) = signature.ok_or(format!("{name} has another result than u64"))?;
    let parameters = parameters.split(',').map(str::trim);
    let parameters = parameters.filter(|parameter| !parameter.is_empty());
    Ok(Export {
        comment: comment(before).ok_or(format!("{name} has no mark or no comment"))?,
        name: name.to_string(),
        parameters: parameters
            .map(|written| parameter(written).ok_or(format!("{name}: {written}")))
            .collect::<Result<_, _>>()?,
    })
}

/// The comment right above a marked function.
fn comment(before: &str) -> Option<String> {
    let above = before.strip_suffix(MARK)?.lines().rev();
    let mut lines: Vec<&str> = above
        .map_while(|line| line.strip_prefix("//"))
        .map(str::trim)
        .collect();
    lines.reverse();
    Some(lines.join(" ")).filter(|comment| !comment.is_empty())
}

fn parameter(written: &str) -> Option<Parameter> {
    let (name, kind) = written.split_once(": ")?;
    Some(Parameter {
        name: name.to_string(),
        passed: passed(kind)?,
    })
}

fn passed(kind: &str) -> Option<Passed> {
    if let Some(lent) = kind.strip_prefix("&mut ") {
        return match elements(lent) {
            Some(element) => Some(Passed::Written(number(element)?)),
            None => Some(Passed::Lent(number(lent)?)),
        };
    }
    match kind.strip_prefix('&') {
        Some(lent) => Some(Passed::Read(number(elements(lent)?)?)),
        None => Some(Passed::Given(number(kind)?)),
    }
}

/// The element's type of a slice.
fn elements(kind: &str) -> Option<&str> {
    kind.strip_prefix('[')?.strip_suffix(']')
}

fn number(kind: &str) -> Option<Number> {
    match kind {
        "u8" => Some(Number::U8),
        "u16" => Some(Number::U16),
        "u64" => Some(Number::U64),
        "i64" => Some(Number::I64),
        _ => None,
    }
}
