//! The bounds and ranges, each once by name. More is refused by [`Refusal::Count`](crate::Refusal::Count), a longer file by
//! [`Shape`](crate::Refusal::Shape), a number out of its range by [`Range`](crate::Refusal::Range).

/// Kinds of an order.
pub const MOST_KINDS: usize = 64;
/// Boxes of an order: the quantities of all kinds together.
pub const MOST_BOXES: usize = 1024;
/// Lines of a sheet.
pub const MOST_LINES: usize = 1024;
/// Unplaced ids of a sheet.
pub const MOST_UNPLACED: usize = 256;
/// Bytes of a load file.
pub const MOST_BYTES: usize = 60_000;
/// The least length of a container or a kind.
pub const LEAST_LENGTH: f64 = 0.000001;
/// The most that a length, a margin, a spacing and a mass may be; a position is from minus this to this on each axis.
pub const MOST: f64 = 1_000_000_000.0;
/// A mass limit is above 0 and at most this.
pub const MOST_LIMIT: f64 = 1_000_000_000_000.0;
/// The longest side that a fill per thousand is worked out for; it must be whole.
pub const MOST_SIDE: f64 = 10_000.0;
