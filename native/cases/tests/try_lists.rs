//! What the list of `try_lists` is made for, and its expected output.

use cases::program::{committed, committed_text};

#[test]
fn a_name_ends_at_each_limit() {
    let list = committed("try_lists", "data/files").unwrap();
    assert_eq!(list.len(), 65_536);
    assert!(list[..4_096].ends_with(b"2-bytes"));
    assert_eq!(list[4_096], b'\n');
    assert!(list.ends_with(b"3-bytes"));
}

#[test]
fn each_line_has_its_files_length() {
    let list = committed_text("try_lists", "data/files").unwrap();
    let length = |name: &str| {
        let path = format!("data/{name}");
        committed("try_lists", &path).unwrap().len().to_string()
    };
    let lengths: Vec<_> = list.lines().map(length).collect();
    let stdout = format!(
        "paths: {}\nnames: {}\n",
        lengths.join(" "),
        lengths[..32].join(" ")
    );
    assert_eq!(committed_text("try_lists", "stdout").unwrap(), stdout);
}
