//! Amounts read back from what the desk program prints.

/// As in `gain 1 of 2`.
#[derive(Clone, Copy, Debug, PartialEq, Eq)]
pub struct Amount {
    pub count: i64,
    pub base: u64,
}

/// The amount that the line with this beginning ends in.
pub fn amount(printed: &str, beginning: &str) -> Option<Amount> {
    let line = printed.lines().find(|line| line.starts_with(beginning))?;
    let (front, base) = line.rsplit_once(" of ")?;
    let (_, count) = front.rsplit_once(' ')?;
    Some(Amount {
        count: count.parse().ok()?,
        base: base.parse().ok()?,
    })
}
