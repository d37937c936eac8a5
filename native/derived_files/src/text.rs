//! Comments broken into lines.

/// The longest line of code, in characters.
pub const WIDTH: usize = 100;

/// The words of a text in lines of at most so many characters; a longer word has its own line.
pub fn lines(text: &str, width: usize) -> Vec<String> {
    let mut lines: Vec<String> = Vec::new();
    for word in text.split_whitespace() {
        match lines.last_mut() {
            Some(line) if line.chars().count() + 1 + word.chars().count() <= width => {
                line.push(' ');
                line.push_str(word);
            }
            _ => lines.push(word.to_string()),
        }
    }
    lines
}

/// The lines of a text, each after a prefix, that is within the width of code.
pub fn prefixed(prefix: &str, text: &str) -> String {
    let lines = lines(text, WIDTH - prefix.chars().count());
    lines
        .iter()
        .map(|line| format!("{prefix}{line}\n"))
        .collect()
}
