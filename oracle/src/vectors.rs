//! The sample files: README.md has their layout.

use crate::load_file::{encode, put_kind, Kind, Sheet};
use crate::terms::{Call, Item, LayerSteps, Plan, PointSteps, Record};

pub mod tag {
    pub const POINTS: u32 = 1;
    pub const POINTS_STATE: u32 = 2;
    pub const LAYERS: u32 = 3;
    pub const LAYERS_STATE: u32 = 4;
    pub const ITEMS: u32 = 5;
    pub const INSTANCES: u32 = 6;
    pub const SEEDS: u32 = 7;
    pub const FITNESS: u32 = 8;
    pub const OVERLAPS: u32 = 9;
    pub const UNPLACED: u32 = 10;
    pub const CHECK: u32 = 11;
    pub const LOAD: u32 = 12;
    pub const MEASURES: u32 = 13;
    pub const ROOT: u32 = 14;
    pub const KINDS: u32 = 15;
    pub const SPOT: u32 = 16;
}

/// At most so many findings are listed in a check case.
pub const MOST_LISTED: usize = 400;

/// The body of a case, put together from its parts.
#[derive(Debug, Clone, Default, PartialEq)]
pub struct Body(pub Vec<u8>);

/// Whether a box was placed, or the number by which the call is refused.
fn took(refused: u32, placed: bool) -> u32 {
    if refused == 0 {
        placed as u32
    } else {
        refused
    }
}

impl Body {
    pub fn u32(mut self, n: u32) -> Self {
        self.0.extend(n.to_le_bytes());
        self
    }

    pub fn u64(mut self, n: u64) -> Self {
        self.0.extend(n.to_le_bytes());
        self
    }

    pub fn f64(self, x: f64) -> Self {
        self.u64(x.to_bits())
    }

    pub fn f64s(self, numbers: &[f64]) -> Self {
        numbers.iter().fold(self, |b, &x| b.f64(x))
    }

    pub fn bytes(mut self, bytes: &[u8]) -> Self {
        self = self.u32(bytes.len() as u32);
        self.0.extend(bytes);
        self
    }

    pub fn sheet(self, s: &Sheet) -> Self {
        self.bytes(&encode(s))
    }

    pub fn ids(self, ids: &[u32]) -> Self {
        ids.iter().fold(self.u32(ids.len() as u32), |b, &id| b.u32(id))
    }

    pub fn records(self, records: &[Record]) -> Self {
        let start = self.u32(records.len() as u32);
        records.iter().fold(start, |b, r| b.u32(r.kind).u32(r.instance).u32(r.count))
    }

    pub fn items(self, items: &[Item]) -> Self {
        let start = self.u32(items.len() as u32);
        items.iter().fold(start, |b, i| b.u32(i.place).u32(i.orientation))
    }

    pub fn kinds(mut self, kinds: &[Kind]) -> Self {
        self = self.u32(kinds.len() as u32);
        for k in kinds {
            put_kind(&mut self.0, k);
        }
        self
    }

    fn call(self, c: &Call) -> Self {
        self.u32(c.kind).u32(c.instance).u32(c.orientation)
    }

    pub fn plan(self, plan: &Plan) -> Self {
        let start = self.u32(plan.considered as u32).f64(plan.utilization).u32(plan.placed.len() as u32);
        plan.placed
            .iter()
            .fold(start, |b, p| b.u32(p.id).u32(p.instance).u32(p.orientation).f64s(&p.at))
            .ids(&plan.unplaced)
    }

    /// Calls of `try_place`, each with its answer, and the state after all.
    pub fn point_steps(self, calls: &[Call], done: &PointSteps) -> Self {
        let mut b = self.u32(calls.len() as u32);
        for (c, step) in calls.iter().zip(&done.steps) {
            let at = step.at.unwrap_or([0.0; 3]);
            b = b.call(c).u32(took(step.refused, step.at.is_some())).f64s(&at).u32(step.stored);
        }
        b = b.u32(done.boxes).f64(done.volume).f64(done.mass).u32(done.points.len() as u32);
        done.points.iter().fold(b, |b, p| b.f64s(p))
    }

    /// Calls of `place` and `place_best`, each with its answer, and the sums after all.
    pub fn layer_steps(self, calls: &[Call], done: &LayerSteps) -> Self {
        let mut b = self.u32(calls.len() as u32);
        for (c, step) in calls.iter().zip(&done.steps) {
            let (orientation, at) = step.placed.map_or((0, [0.0; 3]), |p| (p.orientation, p.at));
            b = b.call(c).u32(took(step.refused, step.placed.is_some())).u32(orientation).f64s(&at).f64s(&step.cursor);
        }
        b.u32(done.boxes).f64(done.utilization).f64(done.volume).f64(done.mass)
    }

    /// A cursor and lengths, and the spot: whether there is one, where, and the cursor after, which stays if there is none.
    pub fn spot(self, cursor: [f64; 5], size: [f64; 3], spot: Option<([f64; 3], [f64; 5])>) -> Self {
        let (at, next) = spot.unwrap_or(([0.0; 3], cursor));
        self.f64s(&cursor).f64s(&size).u32(spot.is_some() as u32).f64s(&at).f64s(&next)
    }

    pub fn findings(self, findings: &[[u64; 5]]) -> Self {
        let listed = &findings[..findings.len().min(MOST_LISTED)];
        let start = self.u32(findings.len() as u32).u32(listed.len() as u32);
        listed.iter().flatten().fold(start, |b, &word| b.u64(word))
    }
}

/// One case: its tag and its body.
pub type Case = (u32, Body);

/// A whole sample file.
pub fn file(cases: &[Case]) -> Vec<u8> {
    let mut out = (cases.len() as u32).to_le_bytes().to_vec();
    for (tag, body) in cases {
        out.extend(tag.to_le_bytes());
        out.extend((body.0.len() as u32).to_le_bytes());
        out.extend(&body.0);
    }
    out
}
