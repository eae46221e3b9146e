//! What is asked and answered, in the terms of the rules. The Rust and the prose both give these.

use crate::load_file::{encode, Line, Sheet};

/// In a layer call's orientation: take the best one (`place_best`).
pub const BEST: u32 = u32::MAX;

/// One placed box.
#[derive(Debug, Clone, Copy)]
pub struct Placed {
    pub id: u32,
    pub instance: u32,
    pub orientation: u32,
    pub at: [f64; 3],
}

impl Placed {
    pub fn line(&self) -> Line {
        Line { id: self.id, instance: self.instance, orientation: self.orientation, bin: 0, at: self.at }
    }
}

/// The answer of a run.
#[derive(Debug, Clone)]
pub struct Plan {
    pub considered: u64,
    pub utilization: f64,
    pub placed: Vec<Placed>,
    pub unplaced: Vec<u32>,
}

/// The order with its lines and unplaced ids replaced by the plan's.
pub fn planned_sheet(order: &Sheet, plan: &Plan) -> Sheet {
    Sheet {
        container: order.container,
        kinds: order.kinds.clone(),
        lines: plan.placed.iter().map(Placed::line).collect(),
        unplaced: plan.unplaced.clone(),
    }
}

/// The bytes of that sheet.
pub fn planned_file(order: &Sheet, plan: &Plan) -> Vec<u8> {
    encode(&planned_sheet(order, plan))
}

/// One call of a place function: a kind's place in the order, an instance, an orientation.
#[derive(Debug, Clone, Copy)]
pub struct Call {
    pub kind: u32,
    pub instance: u32,
    pub orientation: u32,
}

/// An instance record of the layer placer.
#[derive(Debug, Clone, Copy)]
pub struct Record {
    pub kind: u32,
    pub instance: u32,
    pub count: u32,
}

/// An item of the layer placer: a place in the instance list, and an orientation.
#[derive(Debug, Clone, Copy)]
pub struct Item {
    pub place: u32,
    pub orientation: u32,
}

/// After one `try_place`: where the box went, and how many points are stored.
#[derive(Debug, Clone)]
pub struct PointStep {
    /// The refusal, from the rules: 7 where the placer is full, else 0.
    pub refused: u32,
    pub at: Option<[f64; 3]>,
    pub stored: u32,
}

/// After all of them.
#[derive(Debug, Clone)]
pub struct PointSteps {
    pub steps: Vec<PointStep>,
    pub boxes: u32,
    pub volume: f64,
    pub mass: f64,
    pub points: Vec<[f64; 3]>,
}

/// After one layer call: the box if it was placed, and the cursor.
#[derive(Debug, Clone)]
pub struct LayerStep {
    /// The refusal, from the rules: 7 where the placer is full, else 0.
    pub refused: u32,
    pub placed: Option<Placed>,
    pub cursor: [f64; 5],
}

/// After all of them.
#[derive(Debug, Clone)]
pub struct LayerSteps {
    pub steps: Vec<LayerStep>,
    pub boxes: u32,
    pub utilization: f64,
    pub volume: f64,
    pub mass: f64,
}
