//! Reads the cursor and the sums, which `LayerFill` keeps private, and asks for a spot at any cursor.
//! Stands inside `packing_utils`.

use super::{LayerCursor, LayerFill};
use u_nesting_core::Placement;

/// The cursor: x, y, z, row depth, layer height.
pub fn cursor(fill: &LayerFill<'_>) -> [f64; 5] {
    let c = fill.cursor;
    [c.x, c.y, c.z, c.row_depth, c.layer_height]
}

/// The summed volume and mass of the boxes placed.
pub fn sums(fill: &LayerFill<'_>) -> (f64, f64) {
    (fill.volume, fill.mass)
}

/// The box placed last.
pub fn last<'a>(fill: &'a LayerFill<'_>) -> Option<&'a Placement<f64>> {
    fill.placements.last()
}

/// `spot` at any cursor: where a box of these lengths would go, and the cursor after it.
pub fn spot_at(fill: &mut LayerFill<'_>, cursor: [f64; 5], size: [f64; 3]) -> Option<([f64; 3], [f64; 5])> {
    let [x, y, z, row_depth, layer_height] = cursor;
    fill.cursor = LayerCursor { x, y, z, row_depth, layer_height };
    let spot = fill.spot(size)?;
    fill.cursor = spot.next;
    Some(([spot.x, spot.y, spot.z], self::cursor(fill)))
}
