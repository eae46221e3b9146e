//! Stand-ins for the parts of `u_nesting_core` that the five files of `d3` use.
//!
//! Only what reaches a packing answer is written with care: the three-vector, the placement
//! record, the config and `unplaced_ids`. The rest is there so that the files compile.

pub mod error;
pub mod geom;
pub mod geometry;
pub mod placement;
pub mod result;
pub mod solver;

pub use error::{Error, Result};
pub use geometry::check_quantity;
pub use placement::Placement;
