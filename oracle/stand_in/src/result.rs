//! `unplaced_ids`, as `core/src/result.rs` has it.

use crate::geometry::{Geometry, GeometryId};
use crate::placement::Placement;
use std::collections::HashSet;

/// The ids with a copy that `placements` doesn't hold: one entry for each such copy, in request order.
pub fn unplaced_ids<S, G: Geometry>(placements: &[Placement<S>], geometries: &[G]) -> Vec<GeometryId> {
    let placed: HashSet<(&str, usize)> = placements.iter().map(|p| (p.geometry_id.as_str(), p.instance)).collect();
    let mut unplaced = Vec::new();
    for geom in geometries {
        for instance in 0..geom.quantity() {
            if !placed.contains(&(geom.id().as_str(), instance)) {
                unplaced.push(geom.id().clone());
            }
        }
    }
    unplaced
}
