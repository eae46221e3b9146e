//! What is timed, on which inputs, and how: the shortest of many rounds, in one process.

use crate::boundary::Boundary3D;
use crate::check::{check_packing, PackingRules};
use crate::examples::{order, ANY, FIXED, UPRIGHT};
use crate::extreme_point::run_ep_packing;
use crate::geometry::Geometry3D;
use crate::load_file::{decode, Kind, Sheet};
use crate::packing_utils::layer_fill_in_order;
use crate::random::Random;
use crate::refusals::{MOST_BEFORE, MOST_BOXES, MOST_KINDS};
use crate::rust_side;
use crate::terms::planned_sheet;
use std::hint::black_box;
use std::time::Instant;
use u_nesting_core::solver::Config;
use u_nesting_core::Placement;

/// Which call an input is for.
#[derive(Debug, Clone, Copy, PartialEq)]
pub enum Engine {
    Points,
    Layers,
    Check,
}

/// One input with its name.
pub struct Input {
    pub name: &'static str,
    pub engine: Engine,
    pub boxes: u32,
    pub sheet: Sheet,
}

/// How many kinds so many boxes are of, and how many are of each: four, or more where there are as many kinds as there may be.
fn shared_out(boxes: u32) -> (u32, u32) {
    let kinds = (boxes / 4).min(MOST_KINDS as u32);
    (kinds, boxes / kinds)
}

/// The side of a case for so many boxes: one that does up to the bound of before, and a larger one past it.
fn side(boxes: u32, before: f64, past: f64) -> f64 {
    if boxes as usize <= MOST_BEFORE {
        before
    } else {
        past
    }
}

/// Equal ten-cubes into 100×100×100, or 120×120×120 where they are more than the bound of before: all fit.
pub fn cubes(boxes: u32) -> Sheet {
    order([side(boxes, 100.0, 120.0); 3], &[Kind::new(1, boxes, [10.0; 3], FIXED)])
}

/// Mixed boxes in all orientations, of which many don't fit.
pub fn mixed(boxes: u32) -> Sheet {
    let mut r = Random::of_case(964_377_074, u64::from(boxes));
    let (many, each) = shared_out(boxes);
    let kinds: Vec<Kind> =
        (0..many).map(|id| Kind::new(id, each, [0; 3].map(|_| r.from_to(5, 40) as f64), ANY)).collect();
    // Room for about a quarter of them, however many they are.
    let side = match boxes {
        0..=16 => 40.0,
        17..=64 => 64.0,
        65..=256 => 100.0,
        _ => 160.0,
    };
    order([side; 3], &kinds)
}

/// Boxes of many sizes in all orientations, for the layers.
pub fn turned(boxes: u32) -> Sheet {
    let mut r = Random::of_case(377_074_964, u64::from(boxes));
    let (many, each) = shared_out(boxes);
    let kinds: Vec<Kind> =
        (0..many).map(|id| Kind::new(id, each, [0; 3].map(|_| r.from_to(4, 12) as f64), ANY)).collect();
    order([side(boxes, 100.0, 160.0); 3], &kinds)
}

/// A plan of the layers for so many boxes at spacing 1, to be checked at it.
pub fn planned(boxes: u32) -> Sheet {
    let mut order = turned(boxes);
    order.container.size = [side(boxes, 140.0, 220.0); 3];
    order.container.spacing = 1.0;
    let plan = rust_side::plan_layers(&order, u64::MAX);
    planned_sheet(&order, &plan)
}

/// The same lines where every pair is closer than the spacing asks: each is a finding with its distance.
pub fn crowded(boxes: u32) -> Sheet {
    let mut sheet = planned(boxes);
    sheet.container.spacing = 1000.0;
    sheet
}

/// An order checked as a sheet: no line at all.
pub fn bare(boxes: u32) -> Sheet {
    turned(boxes)
}

/// As many equal flat boxes as there may be, stacked sixteen high: a full case without a gap.
pub fn flat() -> Sheet {
    order([1600.0, 800.0, 400.0], &[Kind::new(1, MOST_BOXES as u32, [200.0, 100.0, 25.0], FIXED)])
}

/// Flat boxes of as many kinds as there may be, and more of them than the case takes.
pub fn flat_kinds() -> Sheet {
    let mut r = Random::of_case(74_964_377, MOST_BOXES);
    let (many, each) = shared_out(MOST_BOXES as u32);
    let mut flat_kind = |id| {
        let size = [r.from_to(10, 30) as f64, r.from_to(10, 30) as f64, r.from_to(1, 4) as f64];
        Kind::new(id, each, size.map(|length| 10.0 * length), UPRIGHT)
    };
    let kinds: Vec<Kind> = (0..many).map(&mut flat_kind).collect();
    order([1600.0, 1200.0, 400.0], &kinds)
}

/// The full case of the examples, as its planned sheet is kept beside them.
pub fn full_case() -> Sheet {
    let mut s = decode(include_bytes!("../../examples/made/full_case_points.sheet")).expect("a load file");
    s.lines.clear();
    s
}

/// Full cases stacked flat, for the first placer: most neighbours are separated by their heights.
pub fn flat_inputs() -> Vec<Input> {
    let input = |name, sheet: Sheet| {
        let boxes = sheet.kinds.iter().map(|k| k.quantity).sum();
        Input { name, engine: Engine::Points, boxes, sheet }
    };
    vec![
        input("stacked flat, equal boxes", flat()),
        input("stacked flat, many kinds", flat_kinds()),
        input("stacked flat, full_case.txt", full_case()),
    ]
}

/// Every input at 16, 64, 256 and 1,024.
pub fn inputs() -> Vec<Input> {
    let mut all = Vec::new();
    for boxes in [16, 64, MOST_BEFORE as u32, MOST_BOXES as u32] {
        let input = |name, engine, sheet| Input { name, engine, boxes, sheet };
        all.push(input("equal cubes that all fit", Engine::Points, cubes(boxes)));
        all.push(input("mixed boxes, many don't fit", Engine::Points, mixed(boxes)));
        all.push(input("boxes in six orientations", Engine::Layers, turned(boxes)));
        all.push(input("equal cubes that all fit", Engine::Layers, cubes(boxes)));
        all.push(input("mixed boxes, many don't fit", Engine::Layers, mixed(boxes)));
        all.push(input("a layer plan at spacing 1", Engine::Check, planned(boxes)));
        all.push(input("no line", Engine::Check, bare(boxes)));
        all.push(input("every pair too close", Engine::Check, crowded(boxes)));
    }
    all
}

/// Words for all findings that a sheet of so many lines, kinds and ids can have: six a line, one a pair, one for the mass, a kind and an id.
pub fn room_for_all(s: &Sheet) -> usize {
    let n = s.lines.len();
    5 * (6 * n + n * n / 2 + 1 + s.kinds.len() + s.unplaced.len())
}

/// Calls that take less than this are timed several at a time, as the clock itself takes some tens of nanoseconds.
const NANOSECONDS: f64 = 5_000.0;

/// The shortest time of one call in nanoseconds, over rounds that fill about `milliseconds`.
pub fn shortest(milliseconds: u64, mut call: impl FnMut()) -> f64 {
    let mut round = |calls: u32| {
        let start = Instant::now();
        (0..calls).for_each(|_| call());
        start.elapsed().as_nanos() as f64 / f64::from(calls)
    };
    round(1);
    let calls = (NANOSECONDS / round(8)).ceil().max(1.0) as u32;
    let all = Instant::now();
    let mut best = f64::INFINITY;
    let mut rounds = 0;
    while rounds < 5 || all.elapsed().as_millis() < u128::from(milliseconds) {
        best = best.min(round(calls));
        rounds += 1;
    }
    best
}

/// What the Rust needs for an input, made before the clock runs: only its own call is timed.
struct Ready {
    geometries: Vec<Geometry3D>,
    boundary: Boundary3D,
    config: Config,
    limit: Option<f64>,
    placements: Vec<Placement<f64>>,
    unplaced: Vec<String>,
}

fn ready(s: &Sheet) -> Ready {
    Ready {
        geometries: rust_side::geometries(s),
        boundary: rust_side::boundary(s),
        config: rust_side::config(s),
        limit: s.container.limit(),
        placements: rust_side::placements(s),
        unplaced: s.unplaced.iter().map(u32::to_string).collect(),
    }
}

/// The unchanged Rust on an input, in nanoseconds.
pub fn time_rust(input: &Input, milliseconds: u64) -> f64 {
    let r = ready(&input.sheet);
    let (margin, spacing) = (r.config.margin, r.config.spacing);
    match input.engine {
        Engine::Points => shortest(milliseconds, || {
            let geometries = black_box(&r.geometries);
            black_box(run_ep_packing(geometries, &r.boundary, margin, spacing, r.limit, || false));
        }),
        Engine::Layers => shortest(milliseconds, || {
            let geometries = black_box(&r.geometries);
            black_box(layer_fill_in_order(geometries, &r.boundary, &r.config, || false, |_| ()));
        }),
        Engine::Check => shortest(milliseconds, || {
            let rules = PackingRules { spacing, margin };
            let placements = black_box(&r.placements);
            black_box(check_packing(&r.geometries, &r.boundary, &rules, placements, &r.unplaced));
        }),
    }
}
