//! A safe wrapper over the proved planner for boxes in cases: plan an order with one of two placers, check a sheet, ask for its fill.
//!
//! ```
//! use waikurpeho::{Container, Finding, Kind, Order, Placer, Rule};
//!
//! # fn main() -> Result<(), waikurpeho::Refusal> {
//! let case = Container::new(400.0, 300.0, 200.0).with_margin(10.0).with_spacing(5.0);
//! let order = Order::new(case).with(Kind::new(7, 3, [180.0, 120.0, 90.0]).with_rule(Rule::Upright).with_mass(4.0));
//!
//! let mut sheet = order.plan(Placer::Points)?.sheet;
//! assert_eq!(sheet.lines.len(), 3);
//! assert_eq!(sheet.check()?, []);
//! assert_eq!(sheet.fill()?, 243);
//!
//! sheet.lines[1].at[0] -= 3.0;
//! assert_eq!(sheet.check()?, [Finding::TooClose { first: 0, second: 1, distance: 2.0, spacing: 5.0 }]);
//! # Ok(())
//! # }
//! ```
//!
//! An order or a sheet goes to the library as a load file, which [`mod@file`] describes byte by byte; [`calls`] has the same calls over bytes. Lengths are
//! in one unit of your choice, masses too. The calls keep nothing between them, so they may run side by side; one takes at most 240 KiB of stack.
//!
//! `tools/build_library` proves the library and writes `target/staticlib/libwaikurpeho.a`, and `WAIKURPEHO_LIB` names its folder where it stands
//! elsewhere. It is for Linux on x86-64. For another processor or system there is none to be had: the toolchain compiles for Linux on x86-64 alone, on
//! an Arm machine too; there, build for `x86_64-unknown-linux-gnu` and run in an emulator, as `./waikurpeho` does where there is one.
#![warn(missing_docs)]

pub mod bounds;
pub mod calls;
pub mod file;
mod finding;
mod load;
mod refusal;

pub use finding::{Finding, WORDS};
pub use load::{Container, Kind, Line, Order, Rule, Sheet};
pub use refusal::Refusal;

/// Which of the two placers plans.
#[derive(Clone, Copy, Debug, PartialEq, Eq, Hash)]
pub enum Placer {
    /// extreme points: the largest boxes first, each at the lowest point where it fits; a box may pass by a billionth
    Points,
    /// layers: in the order given, row by row and layer by layer, without slack
    Layers,
}

/// A plan of an order.
#[derive(Clone, Debug, PartialEq)]
pub struct Plan {
    /// the order with the boxes that stand, and with the kinds of which one is left out
    pub sheet: Sheet,
    /// how many boxes were considered
    pub considered: u64,
    /// the volume of the boxes placed by the container's
    pub utilization: f64,
}

impl Order {
    /// Plans all its boxes.
    pub fn plan(&self, placer: Placer) -> Result<Plan, Refusal> {
        self.plan_first(placer, u64::MAX)
    }

    /// Plans the first so many of its boxes, in the placer's own order.
    pub fn plan_first(&self, placer: Placer, consider: u64) -> Result<Plan, Refusal> {
        let planned = calls::plan(placer, &self.to_bytes(), consider)?;
        // it is proved that a planned sheet is accepted, and every accepted file can be read
        let sheet = Sheet::from_bytes(&planned.file).expect("a planned sheet is a load file");
        Ok(Plan { sheet, considered: planned.considered, utilization: planned.utilization })
    }
}

impl Sheet {
    /// What there is to find on it; nothing where it is as it should be.
    pub fn check(&self) -> Result<Vec<Finding>, Refusal> {
        calls::check(&self.to_bytes())
    }

    /// Its fill per thousand: the boxes' volume times 1,000 by the container's, rounded down.
    pub fn fill(&self) -> Result<u64, Refusal> {
        calls::fill(&self.to_bytes())
    }
}
