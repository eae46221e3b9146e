//! The unchanged Rust of u-nesting, compiled over stand-ins, and everything that asks it for answers.

// The five files, as they stand: `boundary`, `geometry`, `extreme_point`, `packing_utils`, `check`.
include!(concat!(env!("OUT_DIR"), "/unchanged.rs"));
pub mod stability;

pub mod command;
pub mod compare;
pub mod counting;
pub mod damage;
pub mod examples;
pub mod load_file;
pub mod orders;
pub mod port;
pub mod prose;
pub mod random;
pub mod refusals;
pub mod rust_side;
pub mod samples;
pub mod sheets;
pub mod terms;
pub mod text;
pub mod timing;
pub mod vectors;
