//! The list of `try_lists`, as long as a list of paths may be.

use crate::program::Program;
use crate::text::joined;

/// As many bytes as a list of paths has at most, and one of names.
const PATHS: usize = 65_536;
const NAMES: usize = 4_096;

/// The bytes of a line: a file's name and the line's end.
const LINE: usize = 128;

/// A file's name, by the bytes that it has. That of 2 bytes takes the line's end too, so that a
/// name, and no line's end, is what a limit one byte lower would cut.
fn name(bytes: usize) -> String {
    let length = if bytes == 2 { LINE } else { LINE - 1 };
    format!("{bytes:0width$}-bytes", width = length - "-bytes".len())
}

/// The lengths of the files by line: each has 1 byte, but for the last that a list of names has
/// room for, with 2, and the last of all, with 3.
fn lengths() -> Vec<usize> {
    let mut lengths = vec![1; PATHS / LINE];
    lengths[NAMES / LINE - 1] = 2;
    lengths[PATHS / LINE - 1] = 3;
    lengths
}

/// The program with its three files and the list, which ends with a name.
pub fn try_lists() -> Program {
    let lengths = lengths();
    let mut files: Vec<_> = [1, 2, 3].map(|bytes| (name(bytes), vec![0; bytes])).into();
    let names: Vec<_> = lengths.iter().map(|&bytes| name(bytes)).collect();
    files.push(("files".to_string(), names.join("\n").into_bytes()));
    let paths = joined(&lengths, usize::to_string);
    let names = joined(&lengths[..NAMES / LINE], usize::to_string);
    let stdout = format!("paths:{paths}\nnames:{names}\n");
    Program::new("try_lists", files, stdout)
}
