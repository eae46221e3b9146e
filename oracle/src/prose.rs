//! The rules of the two placers and of the checker (docs/RULES.md), written out once more from their words.
//!
//! It shows whether the words and the unchanged Rust say the same. It is built otherwise on purpose:
//! no heap, no maps, no text ids.

use crate::load_file::{Kind, Line, Sheet};
use crate::refusals;
use crate::terms::{Call, Item, LayerStep, LayerSteps, Placed, Plan, PointStep, PointSteps, Record, BEST};

/// The slack of the first placer.
pub(crate) const E: f64 = 1e-9;
const AXES: [usize; 3] = [0, 1, 2];

/// "These six axis orders stand in one constant table."
const TABLE: [[usize; 3]; 6] = [[0, 1, 2], [0, 2, 1], [1, 0, 2], [1, 2, 0], [2, 0, 1], [2, 1, 0]];

/// Each rule's share of the table: any, upright, fixed.
pub(crate) fn share(rule: u8) -> &'static [usize] {
    match rule {
        0 => &[0, 1, 2, 3, 4, 5],
        1 => &[0, 2],
        _ => &[0],
    }
}

/// "An index past the list gives the unrotated lengths."
pub(crate) fn lengths(k: &Kind, index: u32) -> [f64; 3] {
    match share(k.rule).get(index as usize) {
        Some(&row) => TABLE[row].map(|axis| k.size[axis]),
        None => k.size,
    }
}

fn volume(v: [f64; 3]) -> f64 {
    v[0] * v[1] * v[2]
}

/// How the extreme-point placer treats a new point strictly inside an earlier box. The document
/// says `Drop`; `Keep` shows which inputs can tell the two apart.
#[derive(Debug, Clone, Copy, PartialEq)]
pub enum Inside {
    Drop,
    Keep,
}

struct Points<'a> {
    sheet: &'a Sheet,
    inside: Inside,
    points: Vec<[f64; 3]>,
    boxes: Vec<([f64; 3], [f64; 3])>,
}

impl<'a> Points<'a> {
    /// "The first point is (margin, margin, margin)."
    fn fresh(sheet: &'a Sheet, inside: Inside) -> Self {
        Self { sheet, inside, points: vec![[sheet.container.margin; 3]], boxes: Vec::new() }
    }

    fn passes(&self, at: [f64; 3], size: [f64; 3]) -> bool {
        let c = &self.sheet.container;
        let within = |a: usize| at[a] >= c.margin - E && at[a] + size[a] <= c.size[a] - c.margin + E;
        let apart = |&(near, long): &([f64; 3], [f64; 3])| {
            AXES.iter()
                .any(|&a| at[a] >= near[a] + long[a] + c.spacing - E || at[a] + size[a] <= near[a] - c.spacing + E)
        };
        AXES.iter().all(|&a| within(a)) && self.boxes.iter().all(apart)
    }

    /// "Kept only if every axis is below container − margin − E and the point isn't strictly inside a box placed earlier."
    fn kept(&self, point: [f64; 3]) -> bool {
        let c = &self.sheet.container;
        let below = AXES.iter().all(|&a| point[a] < c.size[a] - c.margin - E);
        let inside = |&(near, long): &([f64; 3], [f64; 3])| {
            AXES.iter().all(|&a| point[a] > near[a] + E && point[a] < near[a] + long[a] - E)
        };
        below && (self.inside == Inside::Keep || !self.boxes.iter().any(inside))
    }

    /// "Points are tried by z, then y, then x, least first. The first that passes is removed. Three points follow."
    fn place(&mut self, size: [f64; 3]) -> Option<[f64; 3]> {
        let key = |p: &[f64; 3]| [p[2], p[1], p[0]];
        let passing = (0..self.points.len()).filter(|&i| self.passes(self.points[i], size));
        let least = passing.min_by(|&i, &j| key(&self.points[i]).partial_cmp(&key(&self.points[j])).unwrap())?;
        let at = self.points.remove(least);
        for axis in AXES {
            let mut point = at;
            point[axis] = at[axis] + size[axis] + self.sheet.container.spacing;
            if self.kept(point) {
                self.points.push(point);
            }
        }
        self.boxes.push((at, size));
        Some(at)
    }
}

/// A fresh state and the calls in turn.
pub fn point_steps(s: &Sheet, calls: &[Call], inside: Inside) -> PointSteps {
    let mut state = Points::fresh(s, inside);
    let (mut steps, mut whole, mut mass) = (Vec::new(), 0.0, 0.0);
    for c in calls {
        let kind = &s.kinds[c.kind as usize];
        let size = lengths(kind, c.orientation);
        let refused = refusals::of_place(state.boxes.len());
        let at = if refused == 0 { state.place(size) } else { None };
        if at.is_some() {
            whole += volume(size);
            mass += kind.mass().unwrap_or(0.0);
        }
        steps.push(PointStep { refused, at, stored: state.points.len() as u32 });
    }
    let mut points = state.points;
    points.sort_by(|p, q| [p[2], p[1], p[0]].partial_cmp(&[q[2], q[1], q[0]]).unwrap());
    PointSteps { steps, boxes: state.boxes.len() as u32, volume: whole, mass, points }
}

/// Each instance of each kind in listing order.
fn listing(s: &Sheet) -> Vec<(usize, u32)> {
    let copies = |k: usize| (0..s.kinds[k].quantity).map(move |i| (k, i));
    (0..s.kinds.len()).flat_map(copies).collect()
}

/// "By falling volume, equal volumes in listing order."
pub(crate) fn by_falling_volume(s: &Sheet) -> Vec<(usize, u32)> {
    let mut sorted: Vec<(usize, u32)> = Vec::new();
    for one in listing(s) {
        let smaller = |other: &(usize, u32)| volume(s.kinds[other.0].size) < volume(s.kinds[one.0].size);
        let place = sorted.iter().position(smaller).unwrap_or(sorted.len());
        sorted.insert(place, one);
    }
    sorted
}

/// "Each kind with fewer distinct instances in range placed than its quantity, once, in kind order."
pub fn unplaced(s: &Sheet, placed: &[(u32, u32)]) -> Vec<u32> {
    let short = |k: &&Kind| {
        let has = |instance: u32| placed.iter().any(|&p| p == (k.id, instance));
        ((0..k.quantity).filter(|&i| has(i)).count() as u32) < k.quantity
    };
    s.kinds.iter().filter(short).map(|k| k.id).collect()
}

fn plan(s: &Sheet, considered: usize, filled: f64, placed: Vec<Placed>) -> Plan {
    let pairs: Vec<(u32, u32)> = placed.iter().map(|p| (p.id, p.instance)).collect();
    Plan {
        considered: considered as u64,
        utilization: filled / volume(s.container.size),
        unplaced: unplaced(s, &pairs),
        placed,
    }
}

/// The extreme-point run over the first `consider` boxes.
pub fn plan_points(s: &Sheet, consider: u64) -> Plan {
    let order = by_falling_volume(s);
    let considered = consider.min(order.len() as u64) as usize;
    let mut state = Points::fresh(s, Inside::Drop);
    let (mut placed, mut mass, mut filled) = (Vec::new(), 0.0, 0.0);
    for &(k, instance) in &order[..considered] {
        let kind = &s.kinds[k];
        if let (Some(limit), Some(m)) = (s.container.limit(), kind.mass()) {
            if mass + m > limit {
                continue;
            }
        }
        for orientation in 0..share(kind.rule).len() as u32 {
            if let Some(at) = state.place(lengths(kind, orientation)) {
                placed.push(Placed { id: kind.id, instance, orientation, at });
                mass += kind.mass().unwrap_or(0.0);
                filled += volume(lengths(kind, orientation));
                break;
            }
        }
    }
    plan(s, considered, filled, placed)
}

/// Where the layer placer stands, with what it has placed.
struct Layers<'a> {
    sheet: &'a Sheet,
    cursor: [f64; 5],
    placed: Vec<Placed>,
    filled: f64,
    mass: f64,
}

impl<'a> Layers<'a> {
    fn fresh(sheet: &'a Sheet) -> Self {
        let m = sheet.container.margin;
        Self { sheet, cursor: [m, m, m, 0.0, 0.0], placed: Vec::new(), filled: 0.0, mass: 0.0 }
    }

    /// "If x + width is over the far limit: x to margin, y forward by row depth + spacing, row depth 0. Then .."
    fn spot(&self, [w, d, h]: [f64; 3]) -> Option<([f64; 3], [f64; 5])> {
        let c = &self.sheet.container;
        let far = c.size.map(|length| length - c.margin);
        let [mut x, mut y, mut z, mut depth, mut height] = self.cursor;
        if x + w > far[0] {
            (x, y, depth) = (c.margin, y + (depth + c.spacing), 0.0);
        }
        if y + d > far[1] {
            (x, y, z) = (c.margin, c.margin, z + (height + c.spacing));
            (depth, height) = (0.0, 0.0);
        }
        if x + w > far[0] || y + d > far[1] || z + h > far[2] {
            return None;
        }
        let higher = |old: f64, new: f64| if old < new { new } else { old };
        Some(([x, y, z], [x + w + c.spacing, y, z, higher(depth, d), higher(height, h)]))
    }

    fn mass_allows(&self, k: &Kind) -> bool {
        match (self.sheet.container.limit(), k.mass()) {
            (Some(limit), Some(mass)) => !(self.mass + mass > limit),
            _ => true,
        }
    }

    fn take(&mut self, k: &Kind, instance: u32, orientation: u32, at: [f64; 3], next: [f64; 5]) {
        self.placed.push(Placed { id: k.id, instance, orientation, at });
        self.cursor = next;
        self.filled += volume(k.size);
        self.mass += k.mass().unwrap_or(0.0);
    }

    fn place(&mut self, k: &Kind, instance: u32, orientation: u32) -> bool {
        let found = if self.mass_allows(k) { self.spot(lengths(k, orientation)) } else { None };
        if let Some((at, next)) = found {
            self.take(k, instance, orientation, at, next);
        }
        found.is_some()
    }

    /// "The orientation of strictly least z·1,000,000 + y·1,000 + x + height·0.1; the first wins a tie."
    fn place_best(&mut self, k: &Kind, instance: u32) -> bool {
        let mut best: Option<(f64, u32)> = None;
        for o in 0..share(k.rule).len() as u32 {
            if let Some(([x, y, z], _)) = self.spot(lengths(k, o)) {
                let score = z * 1_000_000.0 + y * 1_000.0 + x + lengths(k, o)[2] * 0.1;
                if best.map_or(true, |(least, _)| score < least) {
                    best = Some((score, o));
                }
            }
        }
        match best {
            Some((_, o)) => self.place(k, instance, o),
            None => false,
        }
    }
}

/// Where a box would go at any cursor, and the cursor after it.
pub fn spot(s: &Sheet, cursor: [f64; 5], size: [f64; 3]) -> Option<([f64; 3], [f64; 5])> {
    let mut layers = Layers::fresh(s);
    layers.cursor = cursor;
    layers.spot(size)
}

/// The fill in listing order over the first `consider` boxes.
pub fn plan_layers(s: &Sheet, consider: u64) -> Plan {
    let order = listing(s);
    let considered = consider.min(order.len() as u64) as usize;
    let mut layers = Layers::fresh(s);
    for &(k, instance) in &order[..considered] {
        layers.place_best(&s.kinds[k], instance);
    }
    plan(s, considered, layers.filled, layers.placed)
}

/// "Skips an item whose place is past the instance list."
pub fn place_items(s: &Sheet, records: &[Record], items: &[Item], consider: u64) -> Plan {
    let considered = consider.min(items.len() as u64) as usize;
    let mut layers = Layers::fresh(s);
    for item in &items[..considered] {
        if let Some(r) = records.get(item.place as usize) {
            layers.place(&s.kinds[r.kind as usize], r.instance, item.orientation % r.count.max(1));
        }
    }
    plan(s, considered, layers.filled, layers.placed)
}

/// A new fill and the calls in turn.
pub fn layer_steps(s: &Sheet, calls: &[Call]) -> LayerSteps {
    let mut layers = Layers::fresh(s);
    let mut steps = Vec::new();
    for c in calls {
        let kind = &s.kinds[c.kind as usize];
        let refused = refusals::of_place(layers.placed.len());
        let took = match c.orientation {
            _ if refused != 0 => false,
            BEST => layers.place_best(kind, c.instance),
            o => layers.place(kind, c.instance, o),
        };
        let last = layers.placed.last().copied().filter(|_| took);
        steps.push(LayerStep { refused, placed: last, cursor: layers.cursor });
    }
    LayerSteps {
        steps,
        boxes: layers.placed.len() as u32,
        utilization: layers.filled / volume(s.container.size),
        volume: layers.filled,
        mass: layers.mass,
    }
}

/// An instance record for each copy in listing order.
pub fn instances(s: &Sheet) -> Vec<Record> {
    let record =
        |(k, instance): (usize, u32)| Record { kind: k as u32, instance, count: share(s.kinds[k].rule).len() as u32 };
    listing(s).into_iter().map(record).collect()
}

/// The last line of a kind and instance wins; 0 where there is none.
pub fn seeds(s: &Sheet, records: &[Record]) -> Vec<u32> {
    let seed = |r: &Record| {
        let of = |l: &&Line| l.id == s.kinds[r.kind as usize].id && l.instance == r.instance;
        s.lines.iter().rev().find(of).map_or(0, |l| l.orientation)
    };
    records.iter().map(seed).collect()
}

/// The larger of the two differences on each axis.
fn gaps(a: &([f64; 3], [f64; 3]), b: &([f64; 3], [f64; 3])) -> [f64; 3] {
    AXES.map(|x| {
        let (after, before) = (b.0[x] - a.1[x], a.0[x] - b.1[x]);
        if after < before {
            before
        } else {
            after
        }
    })
}

/// The findings on one line, and its corners if its kind is known.
fn line_findings(s: &Sheet, i: usize, tolerance: f64, out: &mut Vec<[u64; 5]>) -> Option<([f64; 3], [f64; 3])> {
    let l = &s.lines[i];
    let (n, id) = (i as u64, u64::from(l.id));
    let Some(k) = s.kinds.iter().find(|k| k.id == l.id) else {
        out.push([1, n, id, 0, 0]);
        return None;
    };
    if l.instance >= k.quantity {
        out.push([2, n, id, l.instance.into(), k.quantity.into()]);
    } else if s.lines[..i].iter().any(|e| (e.id, e.instance) == (l.id, l.instance)) {
        out.push([3, n, id, l.instance.into(), 0]);
    }
    if l.orientation as usize >= share(k.rule).len() {
        out.push([4, n, id, l.orientation.into(), 0]);
    }
    if l.bin > 0 {
        out.push([5, n, l.bin.into(), 0, 0]);
    }
    let size = lengths(k, l.orientation);
    let far = AXES.map(|a| l.at[a] + size[a]);
    let c = &s.container;
    let fits = |a: usize| l.at[a] >= c.margin - tolerance && far[a] <= c.size[a] - c.margin + tolerance;
    if !AXES.iter().all(|&a| fits(a)) {
        out.push([6, n, id, 0, 0]);
    }
    Some((l.at, far))
}

/// "Overlap when all three are below −T, else too close when the rounded square root .. is below spacing − T."
fn pair_finding(s: &Sheet, i: u64, j: u64, gap: [f64; 3], tolerance: f64) -> Option<[u64; 5]> {
    if gap.iter().all(|&g| g < -tolerance) {
        return Some([7, i, j, 0, 0]);
    }
    let squares = gap.map(|g| if g > 0.0 { g * g } else { 0.0 });
    let distance = (squares[0] + squares[1] + squares[2]).sqrt();
    let spacing = s.container.spacing;
    (distance < spacing - tolerance).then(|| [8, i, j, distance.to_bits(), spacing.to_bits()])
}

/// The checker's findings in their order.
pub fn check(s: &Sheet) -> Vec<[u64; 5]> {
    let larger = |m: f64, &v: &f64| if v > m { v } else { m };
    let tolerance = 1e-9 * s.container.size.iter().fold(1.0, larger) + 1e-9;
    let mut out = Vec::new();
    let corners: Vec<_> = (0..s.lines.len()).map(|i| line_findings(s, i, tolerance, &mut out)).collect();
    for i in 0..corners.len() {
        for j in i + 1..corners.len() {
            if let (Some(a), Some(b)) = (&corners[i], &corners[j]) {
                out.extend(pair_finding(s, i as u64, j as u64, gaps(a, b), tolerance));
            }
        }
    }
    let known = |l: &Line| s.kinds.iter().find(|k| k.id == l.id);
    let mass: f64 = s.lines.iter().filter_map(known).fold(0.0, |m, k| m + k.mass().unwrap_or(0.0));
    if let Some(limit) = s.container.limit() {
        if mass > limit + tolerance {
            out.push([9, mass.to_bits(), limit.to_bits(), 0, 0]);
        }
    }
    out.extend(list_findings(s));
    out
}

/// Missing kinds in order, then wrongly listed ids in list order.
fn list_findings(s: &Sheet) -> Vec<[u64; 5]> {
    let pairs: Vec<(u32, u32)> = s.lines.iter().map(|l| (l.id, l.instance)).collect();
    let short = unplaced(s, &pairs);
    let missing = short.iter().filter(|id| !s.unplaced.contains(id)).map(|&id| [10, id.into(), 0, 0, 0]);
    let wrong = s.unplaced.iter().enumerate().filter_map(|(i, id)| {
        let right = short.contains(id) && !s.unplaced[..i].contains(id);
        (!right).then_some([11, (*id).into(), 0, 0, 0])
    });
    missing.chain(wrong).collect()
}
