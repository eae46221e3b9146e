//! The support part, which is not compared: gravity and stability are off, so none of this is ever called.

use u_nesting_core::geom::nalgebra_types::{NaPoint3, NaVector3};

#[derive(Debug, Clone)]
pub struct PlacedBox {
    pub id: String,
    pub instance: usize,
}

impl PlacedBox {
    pub fn new(id: String, instance: usize, _near: NaPoint3<f64>, _size: NaVector3<f64>) -> Self {
        Self { id, instance }
    }

    pub fn with_mass(self, _mass: f64) -> Self {
        self
    }
}

pub struct StabilityConstraint;

impl StabilityConstraint {
    pub fn partial_base(_ratio: f64) -> Self {
        Self
    }
}

pub struct StabilityAnalyzer;

impl StabilityAnalyzer {
    pub fn new(_constraint: StabilityConstraint) -> u_nesting_core::Result<Self> {
        Ok(Self)
    }

    pub fn analyze(&self, _boxes: &[PlacedBox], _floor: f64) -> StabilityReport {
        unreachable!("the support part is off")
    }
}

pub struct StabilityReport;

impl StabilityReport {
    pub fn unstable_boxes(&self) -> Vec<&PlacedBox> {
        unreachable!("the support part is off")
    }
}
