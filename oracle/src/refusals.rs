//! The bounds of the rules, the refusal numbers and their order (docs/RULES.md), each bound once by name.
//! The Rust has nothing of this, and nothing here is taken from the port.

use crate::load_file::{decode, Container, Kind, Line, Sheet};

pub const MOST_KINDS: usize = 64;
pub const MOST_BOXES: u64 = 1024;
pub const MOST_LINES: usize = 1024;
pub const MOST_UNPLACED: usize = 256;
pub const MOST_ITEMS: usize = 1024;
pub const MOST_INSTANCES: usize = 1024;

/// The bound on boxes, lines, items and records was this; samples have the counts around it and around today's.
pub const MOST_BEFORE: usize = 256;

/// Counts that samples have of whatever is bounded by `most`: one past the bound of before, then one below, at and past `most`.
pub fn around(most: usize) -> [usize; 4] {
    [MOST_BEFORE + 1, most - 1, most, most + 1]
}

pub const LEAST_LENGTH: f64 = 0.000001;
pub const MOST_LENGTH: f64 = 1_000_000_000.0;
pub const MOST_MEASURE: f64 = 1_000_000_000.0;
pub const MOST_LIMIT: f64 = 1_000_000_000_000.0;
pub const MOST_POSITION: f64 = 1_000_000_000.0;
/// The greatest length for which a fill per thousand is given.
pub const MOST_WHOLE: f64 = 10_000.0;

fn minus_zero(x: f64) -> bool {
    x == 0.0 && x.is_sign_negative()
}

/// Lengths of kinds and container: 0.000001 to 1,000,000,000. A NaN fails each comparison.
pub fn is_length(x: f64) -> bool {
    x >= LEAST_LENGTH && x <= MOST_LENGTH
}

/// Margin, spacing, masses and a fill: 0 to 1,000,000,000, and no negative zero.
pub fn is_measure(x: f64) -> bool {
    x >= 0.0 && x <= MOST_MEASURE && !minus_zero(x)
}

/// Mass limit: all-zero bits for none, else above 0, to 1,000,000,000,000.
pub fn is_limit(x: f64) -> bool {
    x.to_bits() == 0 || (x > 0.0 && x <= MOST_LIMIT)
}

/// Positions: magnitude up to 1,000,000,000; a negative zero is one.
pub fn is_position(x: f64) -> bool {
    x.abs() <= MOST_POSITION
}

/// Whether the container block is refused. Every field has the same number, so their order doesn't show.
pub fn container_fault(c: &Container) -> bool {
    !(c.size.iter().all(|&x| is_length(x)) && is_measure(c.margin) && is_measure(c.spacing) && is_limit(c.limit))
}

/// A place call on a placer that holds so many boxes: 7 where it is full, which the Rust never is.
pub fn of_place(held: usize) -> u32 {
    if held as u64 == MOST_BOXES {
        7
    } else {
        0
    }
}

/// The number given at a kind, 0 for none: 4, then 3, then 5.
pub fn kind_fault(k: &Kind, repeats: bool) -> u32 {
    let loose_mass = k.massed == 0 && k.mass.to_bits() != 0;
    if k.quantity == 0 || k.rule > 2 || k.massed > 1 || k.filler != [0, 0] || loose_mass {
        4
    } else if !k.size.iter().all(|&x| is_length(x)) || !is_measure(k.mass) {
        3
    } else if repeats {
        5
    } else {
        0
    }
}

/// The first kind that would be refused and its number.
pub fn first_faulty(kinds: &[Kind]) -> Option<(usize, u32)> {
    (0..kinds.len())
        .map(|i| {
            let repeats = kinds[..i].iter().any(|earlier| earlier.id == kinds[i].id);
            (i, kind_fault(&kinds[i], repeats))
        })
        .find(|&(_, number)| number != 0)
}

fn line_fault(l: &Line) -> bool {
    !l.at.iter().all(|&x| is_position(x))
}

/// The refusal of a sheet handed over without a file, 0 if it is accepted.
pub fn of_sheet(s: &Sheet) -> u32 {
    if s.kinds.len() > MOST_KINDS || s.lines.len() > MOST_LINES || s.unplaced.len() > MOST_UNPLACED {
        return 2;
    }
    if container_fault(&s.container) {
        return 3;
    }
    if let Some((_, number)) = first_faulty(&s.kinds) {
        return number;
    }
    if s.total() > MOST_BOXES {
        return 2;
    }
    if s.lines.iter().any(line_fault) {
        return 3;
    }
    0
}

/// The refusal of a load file, 0 if it is accepted.
pub fn of_file(bytes: &[u8]) -> u32 {
    match decode(bytes) {
        None => 1,
        Some(sheet) => of_sheet(&sheet),
    }
}

/// The refusal of a fitness call: 2 for a count, 3 for the fill.
pub fn of_fitness(placed: u32, total: u32, fill: f64) -> u32 {
    if u64::from(placed) > MOST_BOXES || u64::from(total) > MOST_BOXES {
        2
    } else if !is_measure(fill) {
        3
    } else {
        0
    }
}

/// The refusal of an instance list: a kind index past the order's kinds.
pub fn of_instances(kinds: usize, indices: impl IntoIterator<Item = u32>) -> u32 {
    if indices.into_iter().any(|k| k as usize >= kinds) {
        9
    } else {
        0
    }
}

fn whole_length(x: f64) -> bool {
    x.fract() == 0.0 && x <= MOST_WHOLE
}

/// The fill per thousand of an accepted sheet, or 8: the volume of all lines of known kinds times
/// 1,000, divided by the container's volume, rounded down.
pub fn fill_per_thousand(s: &Sheet) -> Result<u64, u32> {
    let lengths = s.kinds.iter().flat_map(|k| k.size).chain(s.container.size);
    if !lengths.into_iter().all(whole_length) {
        return Err(8);
    }
    let volume = |size: [f64; 3]| size.iter().map(|&x| x as u64).product::<u64>();
    let known = |l: &Line| s.kinds.iter().find(|k| k.id == l.id);
    let filled: u64 = s.lines.iter().filter_map(known).map(|k| volume(k.size)).sum();
    Ok(filled * 1_000 / volume(s.container.size))
}
