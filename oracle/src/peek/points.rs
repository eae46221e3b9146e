//! Reads the stored points, which `ExtremePointSet` keeps private. Stands inside `extreme_point`.

use super::ExtremePointSet;

/// The stored points, least first by z, then y, then x. In a state reached from a fresh one no
/// coordinate is negative, so the order of the bits is the order of the numbers.
pub fn points(set: &ExtremePointSet) -> Vec<[f64; 3]> {
    let mut all: Vec<[f64; 3]> = set
        .points
        .iter()
        .map(|p| [p.0.position.x, p.0.position.y, p.0.position.z])
        .collect();
    all.sort_by_key(|p| [p[2].to_bits(), p[1].to_bits(), p[0].to_bits()]);
    all
}
