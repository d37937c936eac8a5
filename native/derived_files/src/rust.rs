//! The exports for Rust, formatted as `cargo fmt` has it.

use crate::exports::{Export, Number, Parameter, Passed};
use crate::text::{prefixed, WIDTH};
use crate::{source, EXPORTS_CRATE};

const TEMPLATE: &str = include_str!("../templates/exports.rs.txt");

/// The whole file.
pub fn written(exports: &[Export]) -> String {
    let declarations: Vec<String> = exports.iter().map(declaration).collect();
    TEMPLATE
        .replace("{crate}", EXPORTS_CRATE)
        .replace("{source}", &source())
        .replace("{exports}\n", &declarations.join("\n"))
}

/// A declaration with its comment: in one line where it fits there.
pub fn declaration(export: &Export) -> String {
    let name = &export.name;
    let parameters: Vec<String> = export.parameters.iter().flat_map(parameter).collect();
    let line = format!("    pub fn {name}({}) -> u64;", parameters.join(", "));
    let comment = prefixed("    /// ", &export.comment);
    if line.chars().count() <= WIDTH {
        return comment + &line + "\n";
    }
    let parameters = parameters.join(",\n        ");
    format!("{comment}    pub fn {name}(\n        {parameters},\n    ) -> u64;\n")
}

/// A slice is a pointer and its length.
fn parameter(parameter: &Parameter) -> Vec<String> {
    let name = &parameter.name;
    let length = format!("{name}_len: usize");
    match parameter.passed {
        Passed::Given(number) => vec![format!("{name}: {}", kind(number))],
        Passed::Lent(number) => vec![format!("{name}: *mut {}", kind(number))],
        Passed::Read(number) => vec![format!("{name}: *const {}", kind(number)), length],
        Passed::Written(number) => vec![format!("{name}: *mut {}", kind(number)), length],
    }
}

fn kind(number: Number) -> &'static str {
    match number {
        Number::U8 => "u8",
        Number::U16 => "u16",
        Number::U64 => "u64",
        Number::I64 => "i64",
    }
}
