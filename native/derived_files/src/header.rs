//! The exports for C.

use crate::exports::{Export, Number, Parameter, Passed};
use crate::text::{prefixed, WIDTH};
use crate::{archive, source, EXPORTS_CRATE};

const TEMPLATE: &str = include_str!("../templates/desk.h");

/// The whole header.
pub fn written(exports: &[Export]) -> Result<String, String> {
    let declarations: String = exports.iter().map(declaration).collect();
    let header = TEMPLATE
        .replace("{crate}", EXPORTS_CRATE)
        .replace("{archive}", &archive())
        .replace("{source}", &source())
        .replace("{exports}\n", &declarations);
    match header.chars().find(|c| !c.is_ascii()) {
        Some(c) => Err(format!("C's header is to be ASCII and has {c:?}")),
        None => Ok(header),
    }
}

/// A declaration with its comment, and an empty line.
pub fn declaration(export: &Export) -> String {
    let parameters: Vec<String> = export.parameters.iter().map(parameter).collect();
    format!(
        "{}uint64_t {}(\n    {});\n\n",
        comment(&export.comment),
        export.name,
        parameters.join(",\n    ")
    )
}

/// A comment in one line where it fits there.
pub fn comment(text: &str) -> String {
    let text = text.replace('×', "x");
    let line = format!("/* {text} */");
    if line.chars().count() <= WIDTH {
        return line + "\n";
    }
    format!("/*\n{} */\n", prefixed(" * ", &text))
}

/// A slice is a pointer and its length.
fn parameter(parameter: &Parameter) -> String {
    let name = &parameter.name;
    match parameter.passed {
        Passed::Given(number) => format!("{} {name}", kind(number)),
        Passed::Lent(number) => format!("{} *{name}", kind(number)),
        Passed::Read(number) => format!("const {} *{name}, size_t {name}_len", kind(number)),
        Passed::Written(number) => format!("{} *{name}, size_t {name}_len", kind(number)),
    }
}

fn kind(number: Number) -> &'static str {
    match number {
        Number::U8 => "uint8_t",
        Number::U16 => "uint16_t",
        Number::U64 => "uint64_t",
        Number::I64 => "int64_t",
    }
}
