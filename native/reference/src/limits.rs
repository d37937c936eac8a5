//! Document 01's limits.

/// The most moves of a set or of a chance node.
pub const MOST_MOVES: usize = 64;

/// The most moves of a path.
pub const LONGEST_PATH: usize = 255;

/// The most nodes or sets that a header's count can hold.
pub const MOST_ENTRIES: usize = 4_095;

/// The largest number of 12 bits: of a chance weight, or of a plan's.
pub const LARGEST: u64 = 4_095;
