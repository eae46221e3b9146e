//! What the check finds on a sheet.
use std::fmt;

/// How many words a finding has: its number, then four fields, unused ones 0.
pub const WORDS: usize = 5;

/// A finding on a sheet. Lines are told by their place in [`Sheet::lines`](crate::Sheet::lines). Whether a box is held up, or the load is stable,
/// is not judged; spacing and margin hold upwards too.
///
/// ```
/// use waikurpeho::Finding;
///
/// let words = [8, 0, 1, 0.5_f64.to_bits(), 1.0_f64.to_bits()];
/// let finding = Finding::from_words(words).unwrap();
/// assert_eq!(finding, Finding::TooClose { first: 0, second: 1, distance: 0.5, spacing: 1.0 });
/// assert_eq!(finding.to_string(), "lines 0 and 1: 0.5 apart, where the spacing is 1");
/// ```
#[allow(missing_docs)] // the fields say themselves what they are
#[derive(Clone, Copy, Debug, PartialEq)]
pub enum Finding {
    /// 1: no kind has the line's id.
    Unknown { line: usize, id: u32 },
    /// 2: the instance is not below the kind's quantity.
    OutOfRange { line: usize, id: u32, instance: u32, quantity: u32 },
    /// 3: an earlier line has the same box.
    Repeated { line: usize, id: u32, instance: u32 },
    /// 4: the kind's rule has no such orientation.
    Orientation { line: usize, id: u32, orientation: u32 },
    /// 5: there is one case, bin 0.
    Bin { line: usize, bin: u32 },
    /// 6: the box is past a wall, or in its margin.
    Outside { line: usize, id: u32 },
    /// 7: the boxes overlap.
    Overlap { first: usize, second: usize },
    /// 8: the boxes are nearer to each other than the spacing.
    TooClose { first: usize, second: usize, distance: f64, spacing: f64 },
    /// 9: the boxes weigh more than the limit.
    Mass { mass: f64, limit: f64 },
    /// 10: not all boxes of the kind are on the sheet, and it is not listed as unplaced.
    Missing { id: u32 },
    /// 11: listed as unplaced, but complete, listed before, or no kind of the sheet.
    WronglyUnplaced { id: u32 },
}

impl Finding {
    /// The finding of these words, or none where they begin with no number from 1 to 11.
    pub fn from_words([number, a, b, c, d]: [u64; WORDS]) -> Option<Finding> {
        let (line, second) = (a as usize, b as usize);
        let float = f64::from_bits;
        Some(match number {
            1 => Finding::Unknown { line, id: b as u32 },
            2 => Finding::OutOfRange { line, id: b as u32, instance: c as u32, quantity: d as u32 },
            3 => Finding::Repeated { line, id: b as u32, instance: c as u32 },
            4 => Finding::Orientation { line, id: b as u32, orientation: c as u32 },
            5 => Finding::Bin { line, bin: b as u32 },
            6 => Finding::Outside { line, id: b as u32 },
            7 => Finding::Overlap { first: line, second },
            8 => Finding::TooClose { first: line, second, distance: float(c), spacing: float(d) },
            9 => Finding::Mass { mass: float(a), limit: float(b) },
            10 => Finding::Missing { id: a as u32 },
            11 => Finding::WronglyUnplaced { id: a as u32 },
            _ => return None,
        })
    }

    /// Its words, of which the first is its number.
    pub fn words(self) -> [u64; WORDS] {
        match self {
            Finding::Unknown { line, id } => [1, line as u64, id.into(), 0, 0],
            Finding::OutOfRange { line, id, instance, quantity } => [2, line as u64, id.into(), instance.into(), quantity.into()],
            Finding::Repeated { line, id, instance } => [3, line as u64, id.into(), instance.into(), 0],
            Finding::Orientation { line, id, orientation } => [4, line as u64, id.into(), orientation.into(), 0],
            Finding::Bin { line, bin } => [5, line as u64, bin.into(), 0, 0],
            Finding::Outside { line, id } => [6, line as u64, id.into(), 0, 0],
            Finding::Overlap { first, second } => [7, first as u64, second as u64, 0, 0],
            Finding::TooClose { first, second, distance, spacing } => [8, first as u64, second as u64, distance.to_bits(), spacing.to_bits()],
            Finding::Mass { mass, limit } => [9, mass.to_bits(), limit.to_bits(), 0, 0],
            Finding::Missing { id } => [10, id.into(), 0, 0, 0],
            Finding::WronglyUnplaced { id } => [11, id.into(), 0, 0, 0],
        }
    }
}

impl fmt::Display for Finding {
    fn fmt(&self, f: &mut fmt::Formatter<'_>) -> fmt::Result {
        match self {
            Finding::Unknown { line, id } => write!(f, "line {line}: there is no kind {id}"),
            Finding::OutOfRange { line, id, instance, quantity } => {
                write!(f, "line {line}: instance {instance} of kind {id} is past its quantity, {quantity} (instances are counted from 0)")
            }
            Finding::Repeated { line, id, instance } => write!(f, "line {line}: instance {instance} of kind {id} is on an earlier line too"),
            Finding::Orientation { line, id, orientation } => write!(f, "line {line}: the rule of kind {id} has no orientation {orientation}"),
            Finding::Bin { line, bin } => write!(f, "line {line}: bin {bin}, and there is one case, bin 0"),
            Finding::Outside { line, id } => write!(f, "line {line}: a box of kind {id} is past a wall, or in its margin"),
            Finding::Overlap { first, second } => write!(f, "lines {first} and {second}: the boxes overlap"),
            Finding::TooClose { first, second, distance, spacing } => {
                write!(f, "lines {first} and {second}: {distance} apart, where the spacing is {spacing}")
            }
            Finding::Mass { mass, limit } => write!(f, "the boxes weigh {mass}, and the limit is {limit}"),
            Finding::Missing { id } => write!(f, "kind {id}: not all its boxes are on the sheet, and it is not listed as unplaced"),
            Finding::WronglyUnplaced { id } => {
                write!(f, "kind {id}: listed as unplaced, but complete, listed before, or not a kind of this sheet")
            }
        }
    }
}
