//! An export read from its source, and its declarations, worked by hand.

use derived_files::exports::{read, Export, Number, Parameter, Passed};
use derived_files::{header, rust, text};

/// One export with each way to pass a parameter, after a function that is none.
const SOURCE: &str = r#"// What is not exported.
fn inner(x: u64) -> u64
    ensures { x }

// Weighs things,
// 2 × each.
#[unsafe(no_mangle)]
pub extern "C" fn desk_weigh(
    of: u64,
    most: u16,
    things: &[u8],
    sum: &mut i64,
    weights: &mut [u64],
) -> u64
    ensures { as a comment has it: pub fn (x: u64) -> u64 }
{
    0
}
"#;

fn weigh() -> Export {
    let parameter = |name: &str, passed| Parameter {
        name: name.to_string(),
        passed,
    };
    Export {
        comment: "Weighs things, 2 × each.".to_string(),
        name: "desk_weigh".to_string(),
        parameters: vec![
            parameter("of", Passed::Given(Number::U64)),
            parameter("most", Passed::Given(Number::U16)),
            parameter("things", Passed::Read(Number::U8)),
            parameter("sum", Passed::Lent(Number::I64)),
            parameter("weights", Passed::Written(Number::U64)),
        ],
    }
}

#[test]
fn an_export_is_read_with_its_comment() {
    assert_eq!(read(SOURCE), Ok(vec![weigh()]));
}

#[test]
fn a_signature_in_one_line_is_read_too() {
    let line =
        "// One.\n#[unsafe(no_mangle)]\npub extern \"C\" fn desk_one(n: u64, out: &mut u64) -> u64\n";
    let exports = read(&format!("{line}    ensures {{ n }}\n{SOURCE}")).unwrap();
    assert_eq!(exports.len(), 2);
    assert_eq!(exports[0].comment, "One.");
    assert_eq!(exports[0].parameters[1].passed, Passed::Lent(Number::U64));
    assert_eq!(exports[1], weigh());
}

#[test]
fn what_cannot_be_declared_is_refused() {
    for (part, other) in [
        ("// Weighs things,\n// 2 × each.\n", ""),
        ("#[unsafe(no_mangle)]\n", ""),
        ("extern \"C\" fn", "fn"),
        ("of: u64", "of: u32"),
        ("of: u64", "of: &u64"),
        ("&mut [u64]", "&mut [bool]"),
        (") -> u64\n    ensures { as", ") -> u8\n    ensures { as"),
    ] {
        let source = SOURCE.replacen(part, other, 1);
        assert_ne!(source, SOURCE);
        assert!(read(&source).is_err(), "{part} became {other}");
    }
    assert!(read("").is_err());
}

#[test]
fn c_has_a_pointer_and_a_length_for_a_slice() {
    let wanted = "/* Weighs things, 2 x each. */
uint64_t desk_weigh(
    uint64_t of,
    uint16_t most,
    const uint8_t *things, size_t things_len,
    int64_t *sum,
    uint64_t *weights, size_t weights_len);

";
    assert_eq!(header::declaration(&weigh()), wanted);
}

#[test]
fn so_has_rust() {
    let wanted = "    /// Weighs things, 2 × each.
    pub fn desk_weigh(
        of: u64,
        most: u16,
        things: *const u8,
        things_len: usize,
        sum: *mut i64,
        weights: *mut u64,
        weights_len: usize,
    ) -> u64;
";
    assert_eq!(rust::declaration(&weigh()), wanted);
}

#[test]
fn a_short_declaration_for_rust_is_one_line() {
    let mut export = weigh();
    export.parameters.truncate(3);
    let wanted = "    /// Weighs things, 2 × each.
    pub fn desk_weigh(of: u64, most: u16, things: *const u8, things_len: usize) -> u64;
";
    assert_eq!(rust::declaration(&export), wanted);
}

#[test]
fn the_whole_files_name_the_crate() {
    let header = header::written(&[weigh()]).unwrap();
    let both = [header.as_str(), &rust::written(&[weigh()])].map(String::from);
    for text in both {
        assert!(text.contains(&derived_files::source()));
        assert!(text.contains("desk_weigh(\n"));
        for left in ["{crate}", "{archive}", "{source}", "{exports}"] {
            assert!(!text.contains(left), "{left}");
        }
    }
    assert!(header.contains(&derived_files::archive()));
}

#[test]
fn a_header_that_is_not_ascii_is_refused() {
    let mut export = weigh();
    export.comment = "λ".to_string();
    assert!(header::written(&[export]).is_err());
}

#[test]
fn a_comment_in_c_is_broken_at_100_columns() {
    let words = |count: usize| vec!["nine-char"; count].join(" ");
    // With its marks 95 columns, and 105.
    assert_eq!(header::comment(&words(9)), format!("/* {} */\n", words(9)));
    let broken = format!("/*\n * {}\n * {}\n */\n", words(9), words(1));
    assert_eq!(header::comment(&words(10)), broken);
}

#[test]
fn words_are_put_into_lines() {
    assert_eq!(text::lines("a bc  def", 4), ["a bc", "def"]);
    assert_eq!(text::lines("a bc", 3), ["a", "bc"]);
    assert_eq!(text::lines("× ×", 3), ["× ×"]);
    assert_eq!(text::lines("longer a", 3), ["longer", "a"]);
    assert!(text::lines("", 3).is_empty());
}
