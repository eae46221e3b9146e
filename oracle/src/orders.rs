//! Orders of every kind: what the placers are asked for.

use crate::load_file::{Kind, Line, Sheet};
use crate::random::{stepped, Random};
use crate::refusals;

/// How many boxes an order has.
#[derive(Debug, Clone, Copy, PartialEq)]
pub enum Scale {
    Small,
    Medium,
    /// Up to the bound of before.
    Full,
    /// Up to the bound.
    Most,
}

impl Scale {
    /// Mostly small ones: they say as much, and more of them go into a sample.
    pub fn draw(r: &mut Random) -> Self {
        match r.below(100) {
            0 if r.once_in(20) => Scale::Most,
            0 => Scale::Full,
            1..=14 => Scale::Medium,
            _ => Scale::Small,
        }
    }

    /// The most boxes of an order.
    pub fn boxes(self) -> i64 {
        match self {
            Scale::Small => 10,
            Scale::Medium => 48,
            Scale::Full => refusals::MOST_BEFORE as i64,
            Scale::Most => refusals::MOST_BOXES as i64,
        }
    }

    /// Whether an order of this scale is to have as many boxes as the scale allows.
    fn filled(self) -> bool {
        matches!(self, Scale::Full | Scale::Most)
    }
}

type Family = fn(&mut Random, Scale) -> Sheet;

/// The families of orders; a case takes them in turn.
pub const FAMILIES: [Family; 15] =
    [whole, tenths, wide, slack, edges, turned, products, tables, exact, inside, ties, misfits, close, edges, few];

/// One order of the family of that number, with masses, ids and now and then lines of its own.
pub fn order(r: &mut Random, family: u64, scale: Scale) -> Sheet {
    let mut s = FAMILIES[(family % FAMILIES.len() as u64) as usize](r, scale);
    masses(r, &mut s);
    limit(r, &mut s);
    name(r, &mut s);
    if r.once_in(10) {
        stray(r, &mut s);
    }
    assert_eq!(refusals::of_sheet(&s), 0, "a generated order is accepted: {s:?}");
    s
}

/// A number of boxes to consider: all, or any number up to a little past all.
pub fn consider(r: &mut Random, total: u64) -> u64 {
    match r.below(6) {
        0 => total,
        1 => u32::MAX as u64,
        _ => r.below(total + 3),
    }
}

/// How many of each kind.
fn quantities(r: &mut Random, scale: Scale) -> Vec<u32> {
    let (kinds, most) = match scale {
        Scale::Small => (r.from_to(1, 4), 4),
        Scale::Medium => (r.from_to(2, 12), 8),
        _ => (r.from_to(1, refusals::MOST_KINDS as i64), scale.boxes()),
    };
    let mut left = scale.boxes();
    let mut list = Vec::new();
    for _ in 0..kinds {
        let share = if scale.filled() { scale.boxes() / kinds } else { r.from_to(1, most) };
        if left > 0 {
            list.push(share.min(left) as u32);
            left -= share.min(left);
        }
    }
    list
}

/// Kinds of these quantities, each with the lengths that `size` gives and a rule drawn for it.
fn kinds(r: &mut Random, scale: Scale, mut size: impl FnMut(&mut Random) -> [f64; 3]) -> Vec<Kind> {
    quantities(r, scale)
        .into_iter()
        .enumerate()
        .map(|(i, quantity)| {
            let size = size(r);
            Kind::new(i as u32, quantity, size, r.below(3) as u8)
        })
        .collect()
}

fn three(r: &mut Random, mut one: impl FnMut(&mut Random) -> f64) -> [f64; 3] {
    [one(r), one(r), one(r)]
}

/// Spacing and margin: mostly none, else one of those given.
fn gaps(r: &mut Random, s: &mut Sheet, of: &[f64]) {
    if r.once_in(2) {
        s.container.spacing = r.pick(of);
    }
    if r.once_in(3) {
        s.container.margin = r.pick(of);
    }
    // Now and then so large that next to nothing fits.
    if r.once_in(40) {
        s.container.margin = s.container.size[0] / 2.0;
    }
    if r.once_in(40) {
        s.container.spacing = s.container.size[2];
    }
}

fn whole(r: &mut Random, scale: Scale) -> Sheet {
    let most = if scale == Scale::Small { 14 } else { 30 };
    let mut s = Sheet::empty(three(r, |r| r.from_to(3, most) as f64));
    s.kinds = kinds(r, scale, |r| three(r, |r| r.from_to(1, 7) as f64));
    gaps(r, &mut s, &[1.0, 2.0, 0.5, 3.0]);
    s
}

/// So many tenths, in one of three ways that round differently.
fn tenth(r: &mut Random, most: i64) -> f64 {
    let n = r.from_to(1, most);
    match r.below(3) {
        0 => n as f64 / 10.0,
        1 => n as f64 * 0.1,
        _ => (0..n).fold(0.0, |sum, _| sum + 0.1),
    }
}

fn tenths(r: &mut Random, scale: Scale) -> Sheet {
    let most = if scale == Scale::Small { 16 } else { 40 };
    let mut s = Sheet::empty(three(r, |r| tenth(r, most)));
    s.kinds = kinds(r, scale, |r| three(r, |r| tenth(r, 6)));
    gaps(r, &mut s, &[0.1, 0.2, 0.3, 0.05]);
    s
}

/// Lengths from 0.000001 to 1,000,000,000, free or as a share of the container's.
fn wide(r: &mut Random, scale: Scale) -> Sheet {
    let size = three(r, |r| r.log_uniform());
    let mut s = Sheet::empty(size);
    let free = r.once_in(3);
    s.kinds = kinds(r, scale, |r| {
        let mut axis = 0;
        three(r, |r| {
            let share = size[axis] * (0.02 + 0.6 * r.unit());
            axis += 1;
            if free {
                r.log_uniform()
            } else {
                share.clamp(1e-6, 1e9)
            }
        })
    });
    let small = [size[0] * 0.01, size[1] * 0.1, 1e-9, r.log_uniform()];
    gaps(r, &mut s, &small);
    s
}

/// Lengths and gaps within a few times the slack of a tight fit.
fn slack(r: &mut Random, scale: Scale) -> Sheet {
    let off = |r: &mut Random| r.from_to(-8, 8) as f64 * 2.5e-10;
    let lengths = [1.0, 0.1, 0.3, 2.0];
    let unit = r.pick(&lengths);
    let mut s = Sheet::empty([1.0; 3]);
    gaps(r, &mut s, &[1e-9, 3e-10, 0.1, 1.0]);
    let (m, g) = (s.container.margin.min(1.0), s.container.spacing.min(1.0));
    (s.container.margin, s.container.spacing) = (m, g);
    s.container.size = three(r, |r| {
        let n = r.from_to(1, 4) as f64;
        unit * n + g * (n - 1.0) + 2.0 * m + off(r)
    });
    s.kinds = kinds(r, scale, |r| {
        let long = if r.once_in(5) { r.pick(&lengths) } else { unit };
        three(r, |r| if r.once_in(2) { long } else { long + off(r) })
    });
    s
}

/// A number within a few units in the last place of `x`; mostly one that `split` is true of, if there is one.
pub fn near_by(r: &mut Random, x: f64, split: impl Fn(&f64) -> bool) -> f64 {
    let all: Vec<f64> = (-6..=6).map(|k| stepped(x, k)).collect();
    let telling: Vec<f64> = all.iter().copied().filter(split).collect();
    if telling.is_empty() || r.once_in(3) {
        r.pick(&all)
    } else {
        r.pick(&telling)
    }
}

/// A row of boxes along one axis, and a container that ends within a few units in the last place of
/// where a test of the far side, or of a new point, changes its answer.
fn edges(r: &mut Random, _: Scale) -> Sheet {
    let mut s = row(r);
    let (axis, edge) = (r.below(3) as usize, r.below(4));
    for _ in 0..12 {
        let (m, far) = (s.container.margin, far_side(&s, axis));
        // Where the order of the sums decides.
        let split = |c: &f64| (far <= c - m + 1e-9) != (far <= c - (m - 1e-9));
        s.container.size[axis] = match edge {
            0 | 1 => near_by(r, far - 1e-9 + m, split),
            2 => near_by(r, far + s.container.spacing + 1e-9 + m, |c| far + s.container.spacing == c - m - 1e-9),
            _ => near_by(r, far + m, |c| far == c - m),
        };
        if edge > 1 || split(&s.container.size[axis]) {
            break;
        }
        s = row(r);
    }
    s
}

/// One kind, a margin, a spacing, and a container with room for a single box.
fn row(r: &mut Random) -> Sheet {
    let length = three(r, |r| if r.once_in(2) { tenth(r, 20) } else { 0.01 + 5.0 * r.unit() });
    let mut s = Sheet::empty([0.0; 3]);
    s.container.margin = r.pick(&[0.0, 0.1, 0.3, r.clone().unit()]);
    s.container.spacing = r.pick(&[0.0, 0.0, 0.1, 0.7, r.clone().unit()]);
    s.container.size = length.map(|l| l + 2.0 * s.container.margin + 0.001);
    s.kinds = vec![Kind::new(0, r.from_to(1, 3) as u32, length, r.pick(&[2, 2, 2, 0]))];
    s
}

/// Where the last box of such a row ends.
fn far_side(s: &Sheet, axis: usize) -> f64 {
    let length = s.kinds[0].size[axis];
    let next = |near: f64, _| near + length + s.container.spacing;
    (1..s.kinds[0].quantity).fold(s.container.margin, next) + length
}

/// Two boxes side by side that differ in height by about the slack, and a board across both: whether
/// it may lie on the lower one is decided within the slack, at times within the last place. Axes in any order.
fn tables(r: &mut Random, _: Scale) -> Sheet {
    let axes = r.pick(&[[0, 1, 2], [0, 2, 1], [1, 0, 2], [1, 2, 0], [2, 0, 1], [2, 1, 0]]);
    let turn = |v: [f64; 3]| axes.map(|a| v[a]);
    let mut s = Sheet::empty([0.0; 3]);
    let (low, high) = two_heights(r, &mut s);
    let (g, m) = (s.container.spacing, s.container.margin);
    s.container.size = turn([8.0 + g, 2.0, low * 2.0 + g].map(|x| x + 2.0 * m + 0.01));
    s.kinds = vec![
        Kind::new(0, 1, turn([4.0, 2.0, low]), 2),
        // A little narrower, so that by falling volume the lower one comes first.
        Kind::new(1, 1, turn([3.5, 2.0, high]), 2),
        Kind::new(2, r.from_to(1, 3) as u32, turn([8.0 + g, 2.0, low / 4.0]), 2),
    ];
    s
}

/// A spacing and a margin for the sheet, and two heights: where the order of the sums decides, or within the slack.
fn two_heights(r: &mut Random, s: &mut Sheet) -> (f64, f64) {
    for _ in 0..12 {
        s.container.spacing = r.pick(&[0.0, 0.1, 0.25, r.clone().unit()]);
        s.container.margin = r.pick(&[0.0, 0.0, 0.3]);
        let (g, m) = (s.container.spacing, s.container.margin);
        let low = if r.once_in(2) { tenth(r, 20) + 1.0 } else { 1.0 + 3.0 * r.unit() };
        let split = |h: &f64| (m + low + g >= m + h + g - 1e-9) != (m + low + g >= m + h + (g - 1e-9));
        let high = near_by(r, low + 1e-9, split);
        if split(&high) {
            return (low, high);
        }
        if r.once_in(8) {
            return (low, low + r.from_to(0, 10) as f64 * 2.5e-10);
        }
    }
    (2.0, 2.0)
}

/// Turned copies of one box: their volumes can differ in the last bit.
fn turned(r: &mut Random, scale: Scale) -> Sheet {
    let base = three(r, |r| if r.once_in(2) { tenth(r, 30) } else { 3.0 * r.unit() + 0.01 });
    let mut s = Sheet::empty(three(r, |r| 4.0 + 6.0 * r.unit()));
    s.kinds = kinds(r, scale, |r| {
        let mut size = base;
        r.shuffle(&mut size);
        size
    });
    gaps(r, &mut s, &[0.1, 0.25, 1.0 / 3.0]);
    s
}

/// Different boxes of one whole volume: the order among them is the listing's.
fn products(r: &mut Random, scale: Scale) -> Sheet {
    let shapes =
        [[1.0, 1.0, 12.0], [2.0, 2.0, 3.0], [1.0, 3.0, 4.0], [12.0, 1.0, 1.0], [2.0, 1.0, 6.0], [3.0, 2.0, 2.0]];
    let mut s = Sheet::empty(three(r, |r| r.from_to(3, 14) as f64));
    s.kinds = kinds(r, scale, |r| r.pick(&shapes));
    gaps(r, &mut s, &[1.0, 0.5]);
    s
}

/// Boxes that fill the container exactly.
fn exact(r: &mut Random, scale: Scale) -> Sheet {
    let one = three(r, |r| if r.once_in(2) { tenth(r, 9) } else { r.from_to(1, 9) as f64 });
    // along each axis: a cube of them is about as many as there may be
    let longest = if scale.filled() { (scale.boxes() as f64).cbrt().ceil() as i64 } else { 3 };
    let n = three(r, |r| r.from_to(1, longest) as f64);
    let mut s = Sheet::empty([one[0] * n[0], one[1] * n[1], one[2] * n[2]]);
    let most = if scale.filled() { scale.boxes() as f64 } else { 30.0 };
    let all = (n[0] * n[1] * n[2]).min(most) as u32;
    let rule = r.below(3) as u8;
    s.kinds = vec![Kind::new(0, all, one, rule)];
    if r.once_in(4) && u64::from(all) < refusals::MOST_BOXES {
        s.kinds.push(Kind::new(1, 1, one, rule));
    }
    s
}

/// A length and a spacing of up to so many tenths whose sum is just past 2^24, mostly such that a box
/// one unit in the last place longer still passes, and its new point shows it.
pub fn ending_at_a_power(r: &mut Random, tenths: i64) -> (f64, f64) {
    loop {
        let spacing = r.from_to(100, tenths) as f64 / 10.0;
        let long = 16_777_216.0 - r.from_to(1, spacing as i64 - 1) as f64;
        let (near, longer) = (long + spacing, long.next_up());
        let passes = longer <= near - spacing + 1e-9;
        let shows = longer + spacing > near + 1e-9;
        if (passes && shows) || r.once_in(10) {
            return (long, spacing);
        }
    }
}

/// Where rounding is coarser than the slack, a new point can come to lie strictly inside an earlier
/// box (`samples::inside_calls` says how). By falling volume: a long box A, a block Q just past its
/// end, more long boxes beside A, and at last P, longer than A by a unit in the last place.
fn inside(r: &mut Random, _: Scale) -> Sheet {
    let (long, spacing) = ending_at_a_power(r, 250);
    let block = (long / 90.0).floor();
    let p = stepped(long, r.pick(&[0, 1, 1, 1, 2]));
    let mut s = Sheet::empty([long + spacing + block + 5.0, 60.0, 200.0]);
    s.container.spacing = spacing;
    s.kinds = vec![
        Kind::new(0, 1, [long, 10.0, 10.0], 2),
        Kind::new(1, 1, [block, 50.0, 100.0], 2),
        Kind::new(2, 2, [long, 7.0, 7.0], 2),
        Kind::new(3, r.from_to(1, 4) as u32, [p, 6.5, 7.0], 2),
    ];
    s
}

/// A tall first layer, and on it boxes so flat that their heights vanish in the score's rounding, or
/// fall on the half of a unit in its last place.
fn ties(r: &mut Random, scale: Scale) -> Sheet {
    let side = r.from_to(3, 9) as f64;
    let mut tall = 1e3 * (1.0 + 4.0 * r.unit());
    for _ in 0..r.below(6) {
        tall *= 10.0;
    }
    let unit = (tall * 1e6).next_up() - tall * 1e6;
    let mut s = Sheet::empty([side, side, (tall * 2.0).min(1e9)]);
    s.kinds = kinds(r, scale, |r| {
        three(r, |r| {
            let free = 40.0 * r.unit();
            let steps = 2.5 * r.from_to(1, 12) as f64;
            (unit * r.pick(&[5.0, 15.0, 2.0, steps, free])).clamp(1e-6, 2.0)
        })
    });
    // One box of the total goes to the first layer.
    s.kinds.truncate(63);
    if s.total() >= refusals::MOST_BOXES {
        s.kinds[0].quantity -= 1;
    }
    s.kinds.retain(|k| k.quantity > 0);
    s.kinds.insert(0, Kind::new(0, 1, [side, side, tall], 2));
    gaps(r, &mut s, &[0.1, 1e-3]);
    s
}

/// Boxes that are cubes but for the last places: heights that differ by next to nothing, mostly so
/// that a tenth of them and a ten-fold part of them would not compare alike.
fn close(r: &mut Random, scale: Scale) -> Sheet {
    let side = if r.once_in(2) { tenth(r, 40) } else { 0.1 + 5.0 * r.unit() };
    let mut s = Sheet::empty(three(r, |r| side * (1.0 + 3.0 * r.unit()) + 0.1));
    let telling = |a: f64, b: f64| (a * 0.1 < b * 0.1) != (a / 10.0 < b / 10.0);
    s.kinds = kinds(r, scale, |r| {
        let mut size = three(r, |r| r.nudged(side, 4));
        for _ in 0..10 {
            let [x, y, z] = size;
            if telling(y, z) || telling(x, z) || telling(x, y) {
                break;
            }
            size = three(r, |r| r.nudged(side, 4));
        }
        size
    });
    for k in &mut s.kinds {
        k.rule = r.pick(&[0, 0, 0, 1]);
    }
    if r.once_in(2) {
        gaps(r, &mut s, &[0.1, side / 3.0]);
    }
    s
}

/// Many boxes that fit in few orientations or in none.
fn misfits(r: &mut Random, scale: Scale) -> Sheet {
    let mut s = Sheet::empty(three(r, |r| r.from_to(2, 20) as f64));
    s.kinds = kinds(r, scale, |r| three(r, |r| r.from_to(1, 22) as f64 / 2.0));
    gaps(r, &mut s, &[1.0, 0.1, 0.7]);
    s
}

/// No kind at all, or one box.
fn few(r: &mut Random, _: Scale) -> Sheet {
    let mut s = Sheet::empty(three(r, |r| tenth(r, 40)));
    if r.once_in(2) {
        s.kinds = vec![Kind::new(0, r.from_to(1, 3) as u32, three(r, |r| tenth(r, 40)), r.below(3) as u8)];
    }
    gaps(r, &mut s, &[0.1, 0.2]);
    s
}

/// Masses for all kinds, for some or for none; whole, in tenths, zero or anything.
fn masses(r: &mut Random, s: &mut Sheet) {
    let way = r.below(7);
    for k in &mut s.kinds {
        let mass = match way {
            0 | 1 => continue,
            2 => r.from_to(0, 20) as f64,
            3 => r.from_to(0, 20) as f64 / 10.0,
            4 => r.from_to(1, 9) as f64 * 0.1,
            5 => r.log_uniform(),
            _ if r.once_in(2) => continue,
            _ => r.from_to(1, 50) as f64,
        };
        *k = k.weighing(mass);
    }
}

/// A limit that bites: the sum of some of the masses, or a little off it.
fn limit(r: &mut Random, s: &mut Sheet) {
    if r.once_in(3) {
        return;
    }
    let mut sum = 0.0;
    for k in &s.kinds {
        for _ in 0..r.below(u64::from(k.quantity) + 1) {
            sum += k.mass().unwrap_or(0.0);
        }
    }
    let near = match r.below(3) {
        0 => sum,
        1 => r.nudged(sum, 3),
        _ => sum * (0.3 + r.unit()),
    };
    s.container.limit = if near > 0.0 && near <= 1e12 { near } else { 1.0 };
}

/// Ids that differ, in no order; the least and the greatest among them.
fn name(r: &mut Random, s: &mut Sheet) {
    let step = r.pick(&[1, 1, 7, 60_000_000]);
    let mut ids: Vec<u32> = (0..s.kinds.len() as u32).map(|i| i * step + r.below(2) as u32 * (step - 1)).collect();
    if r.once_in(8) {
        if let Some(last) = ids.last_mut() {
            *last = u32::MAX;
        }
    }
    if r.once_in(2) {
        r.shuffle(&mut ids);
    }
    for (k, id) in s.kinds.iter_mut().zip(ids) {
        k.id = id;
    }
}

/// Lines and unplaced ids in the order itself: they are tested and then ignored.
fn stray(r: &mut Random, s: &mut Sheet) {
    for _ in 0..r.from_to(1, 3) {
        let at = three(r, |r| r.from_to(-9, 9) as f64);
        s.lines.push(Line { id: r.below(4) as u32, instance: 0, orientation: 7, bin: r.below(3) as u32, at });
        s.unplaced.push(r.below(5) as u32);
    }
}
