//! The unchanged Rust asked in the terms of the rules: sheets in; plans, findings and states out.

use crate::boundary::Boundary3D;
use crate::check::{check_packing, PackingRules, PackingViolation as V};
use crate::extreme_point::{self, ExtremePointSet, PlacedBox};
use crate::geometry::{Geometry3D, OrientationConstraint};
use crate::load_file::{Kind, Line, Sheet};
use crate::packing_utils::{self, InstanceInfo, LayerFill, LayerPlacementResult, PlacementItem};
use crate::refusals;
use crate::terms::{Call, Item, LayerStep, LayerSteps, Placed, Plan, PointStep, PointSteps, Record, BEST};
use std::sync::atomic::AtomicBool;
use std::sync::Arc;
use u_nesting_core::geom::nalgebra_types::NaVector3;
use u_nesting_core::geometry::Geometry;
use u_nesting_core::solver::Config;
use u_nesting_core::Placement;

/// The sum of nothing is −0 in this Rust; the rules give +0.
pub fn plus_zero(x: f64) -> f64 {
    if x == 0.0 {
        0.0
    } else {
        x
    }
}

/// A kind as the Rust holds it: the id is its decimal text.
pub fn geometry(k: &Kind) -> Geometry3D {
    let rule = match k.rule {
        0 => OrientationConstraint::Any,
        1 => OrientationConstraint::Upright,
        _ => OrientationConstraint::Fixed,
    };
    let [w, d, h] = k.size;
    let geom = Geometry3D::new(k.id.to_string(), w, d, h).with_quantity(k.quantity as usize).with_orientation(rule);
    match k.mass() {
        Some(mass) => geom.with_mass(mass),
        None => geom,
    }
}

pub fn geometries(s: &Sheet) -> Vec<Geometry3D> {
    s.kinds.iter().map(geometry).collect()
}

pub fn boundary(s: &Sheet) -> Boundary3D {
    let [w, d, h] = s.container.size;
    let boundary = Boundary3D::new(w, d, h);
    match s.container.limit() {
        Some(limit) => boundary.with_max_mass(limit),
        None => boundary,
    }
}

pub fn config(s: &Sheet) -> Config {
    Config { spacing: s.container.spacing, margin: s.container.margin }
}

fn placement(l: &Line) -> Placement<f64> {
    let [x, y, z] = l.at;
    Placement::new_3d(l.id.to_string(), l.instance as usize, x, y, z, 0.0, 0.0, 0.0)
        .with_boundary(l.bin as usize)
        .with_rotation_index(l.orientation as usize)
}

pub fn placements(s: &Sheet) -> Vec<Placement<f64>> {
    s.lines.iter().map(placement).collect()
}

fn number(id: &str) -> u32 {
    id.parse().expect("ids are decimal numbers")
}

/// The unplaced list of the rules: the Rust's own, each id once.
fn unplaced(placed: &[Placement<f64>], geometries: &[Geometry3D]) -> Vec<u32> {
    let mut ids: Vec<u32> =
        packing_utils::build_unplaced_list(placed, geometries).iter().map(|id| number(id)).collect();
    ids.dedup();
    ids
}

/// The unplaced list of a sheet's own lines.
pub fn unplaced_of(s: &Sheet) -> Vec<u32> {
    unplaced(&placements(s), &geometries(s))
}

fn placed(p: &Placement<f64>) -> Placed {
    Placed {
        id: number(&p.geometry_id),
        instance: p.instance as u32,
        orientation: p.rotation_index.unwrap_or(0) as u32,
        at: [p.position[0], p.position[1], p.position[2]],
    }
}

/// Runs `f` with a closure that stops after `consider` boxes; also says how many it let through.
fn counted<T>(consider: u64, f: impl FnOnce(&mut dyn FnMut() -> bool) -> T) -> (T, u64) {
    let mut let_through = 0;
    let result = f(&mut || {
        let stop = let_through == consider;
        if !stop {
            let_through += 1;
        }
        stop
    });
    (result, let_through)
}

/// `run_ep_packing`.
pub fn plan_points(s: &Sheet, consider: u64) -> Plan {
    let (geoms, c) = (geometries(s), &s.container);
    let ((taken, utilization), considered) = counted(consider, |stop| {
        extreme_point::run_ep_packing(&geoms, &boundary(s), c.margin, c.spacing, c.limit(), stop)
    });
    let records: Vec<Placement<f64>> = taken
        .into_iter()
        .map(|(id, instance, at, orientation)| {
            Placement::new_3d(id, instance, at.x, at.y, at.z, 0.0, 0.0, 0.0).with_rotation_index(orientation)
        })
        .collect();
    Plan {
        considered,
        utilization: plus_zero(utilization),
        placed: records.iter().map(placed).collect(),
        unplaced: unplaced(&records, &geoms),
    }
}

fn layer_plan(result: LayerPlacementResult, considered: u64, geoms: &[Geometry3D]) -> Plan {
    assert_eq!(result.placed_count, result.placements.len());
    Plan {
        considered,
        utilization: plus_zero(result.utilization),
        placed: result.placements.iter().map(placed).collect(),
        unplaced: unplaced(&result.placements, geoms),
    }
}

/// `layer_fill_in_order`.
pub fn plan_layers(s: &Sheet, consider: u64) -> Plan {
    let geoms = geometries(s);
    let ((result, _), considered) =
        counted(consider, |stop| packing_utils::layer_fill_in_order(&geoms, &boundary(s), &config(s), stop, |_| ()));
    layer_plan(result, considered, &geoms)
}

fn infos(records: &[Record]) -> Vec<InstanceInfo> {
    let info = |r: &Record| InstanceInfo {
        geometry_idx: r.kind as usize,
        instance_num: r.instance as usize,
        orientation_count: r.count as usize,
    };
    records.iter().map(info).collect()
}

/// `layer_place_items` over the first `consider` items: before each item it asks only for its flag.
pub fn place_items(s: &Sheet, records: &[Record], items: &[Item], consider: u64) -> Plan {
    let geoms = geometries(s);
    let considered = consider.min(items.len() as u64);
    let items: Vec<PlacementItem> = items[..considered as usize]
        .iter()
        .map(|i| PlacementItem { instance_idx: i.place as usize, orientation_idx: i.orientation as usize })
        .collect();
    let go_on = Arc::new(AtomicBool::new(false));
    let result = packing_utils::layer_place_items(&items, &infos(records), &geoms, &boundary(s), &config(s), &go_on);
    layer_plan(result, considered, &geoms)
}

/// `build_instances`.
pub fn instances(s: &Sheet) -> Vec<Record> {
    packing_utils::build_instances(&geometries(s))
        .iter()
        .map(|i| Record {
            kind: i.geometry_idx as u32,
            instance: i.instance_num as u32,
            count: i.orientation_count as u32,
        })
        .collect()
}

/// `seed_orientations` of the sheet's own lines.
pub fn seeds(s: &Sheet, records: &[Record]) -> Vec<u32> {
    packing_utils::seed_orientations(&infos(records), &geometries(s), &placements(s))
        .iter()
        .map(|&o| o as u32)
        .collect()
}

/// `packing_fitness`.
pub fn fitness(placed: u32, total: u32, fill: f64) -> f64 {
    packing_utils::packing_fitness(placed as usize, total as usize, fill)
}

/// A fresh state, and `try_place` for each call.
pub fn point_steps(s: &Sheet, calls: &[Call]) -> PointSteps {
    let geoms = geometries(s);
    let mut set = ExtremePointSet::new(&boundary(s), s.container.margin, s.container.spacing);
    let mut steps = Vec::new();
    for c in calls {
        let refused = refusals::of_place(set.placed_count());
        let at = match refused {
            0 => set.try_place(&geoms[c.kind as usize], c.instance as usize, c.orientation as usize),
            _ => None,
        };
        steps.push(PointStep { refused, at: at.map(|p| [p.x, p.y, p.z]), stored: set.len() as u32 });
    }
    PointSteps {
        steps,
        boxes: set.placed_count() as u32,
        volume: plus_zero(set.total_volume()),
        mass: plus_zero(set.total_mass()),
        points: extreme_point::peek::points(&set),
    }
}

/// A new `LayerFill`, and `place` or `place_best` for each call.
pub fn layer_steps(s: &Sheet, calls: &[Call]) -> LayerSteps {
    let (geoms, container, config) = (geometries(s), boundary(s), config(s));
    let mut fill = LayerFill::new(&container, &config);
    let mut steps = Vec::new();
    for c in calls {
        let geom = &geoms[c.kind as usize];
        let refused = refusals::of_place(fill.placed());
        let took = match c.orientation {
            _ if refused != 0 => false,
            BEST => fill.place_best(geom, c.instance as usize),
            index => fill.place(geom, c.instance as usize, index as usize),
        };
        let last = packing_utils::peek::last(&fill).filter(|_| took).map(placed);
        steps.push(LayerStep { refused, placed: last, cursor: packing_utils::peek::cursor(&fill) });
    }
    let (volume, mass) = packing_utils::peek::sums(&fill);
    LayerSteps { steps, boxes: fill.placed() as u32, utilization: fill.utilization(), volume, mass }
}

/// `spot` at any cursor.
pub fn spot(s: &Sheet, cursor: [f64; 5], size: [f64; 3]) -> Option<([f64; 3], [f64; 5])> {
    let (container, config) = (boundary(s), config(s));
    packing_utils::peek::spot_at(&mut LayerFill::new(&container, &config), cursor, size)
}

/// `PlacedBox::overlaps`; each box is its near corner and its lengths.
pub fn overlaps(a: [[f64; 3]; 2], b: [[f64; 3]; 2]) -> bool {
    let vector = |v: [f64; 3]| NaVector3::new(v[0], v[1], v[2]);
    let placed = |c: [[f64; 3]; 2]| PlacedBox {
        id: String::new(),
        instance: 0,
        position: vector(c[0]),
        dimensions: vector(c[1]),
        mass: None,
    };
    placed(a).overlaps(&placed(b))
}

/// The number of orientations, the lengths in one, and the volume.
pub fn measures(k: &Kind, orientation: u32) -> (u32, [f64; 3], f64) {
    let geom = geometry(k);
    let lengths = geom.dimensions_for_orientation(orientation as usize);
    (geom.allowed_orientations().len() as u32, [lengths.x, lengths.y, lengths.z], geom.measure())
}

/// The five words of one finding.
fn words(v: &V) -> [u64; 5] {
    let id = |s: &String| u64::from(number(s));
    let n = |x: &usize| *x as u64;
    match v {
        V::UnknownGeometry { placement, id: i } => [1, n(placement), id(i), 0, 0],
        V::InstanceOutOfRange { placement, id: i, instance, quantity } => {
            [2, n(placement), id(i), n(instance), n(quantity)]
        }
        V::InstanceRepeated { placement, id: i, instance } => [3, n(placement), id(i), n(instance), 0],
        V::OrientationNotAllowed { placement, id: i, orientation } => [4, n(placement), id(i), n(orientation), 0],
        V::BinNotAllowed { placement, bin } => [5, n(placement), n(bin), 0, 0],
        V::OutsideBoundary { placement, id: i } => [6, n(placement), id(i), 0, 0],
        V::Overlap { placement, other } => [7, n(placement), n(other), 0, 0],
        V::TooClose { placement, other, distance, spacing } => {
            [8, n(placement), n(other), distance.to_bits(), spacing.to_bits()]
        }
        V::MassExceeded { mass, max_mass } => [9, mass.to_bits(), max_mass.to_bits(), 0, 0],
        V::MissingFromUnplaced { id: i } => [10, id(i), 0, 0, 0],
        V::WronglyUnplaced { id: i } => [11, id(i), 0, 0, 0],
        V::Unsupported { .. } => unreachable!("the support part is off"),
    }
}

/// `check_packing`, each finding as its five words.
pub fn check(s: &Sheet) -> Vec<[u64; 5]> {
    let rules = PackingRules { spacing: s.container.spacing, margin: s.container.margin };
    let listed: Vec<String> = s.unplaced.iter().map(u32::to_string).collect();
    check_packing(&geometries(s), &boundary(s), &rules, &placements(s), &listed).iter().map(words).collect()
}

/// The container's volume as the Rust multiplies it.
pub fn container_volume(s: &Sheet) -> f64 {
    u_nesting_core::geometry::Boundary::measure(&boundary(s))
}
