//! Sheets for the checker: plans of both placers, bent in every way a sheet can come back from the road.

use crate::load_file::{Kind, Line, Sheet};
use crate::orders::{self, near_by, Scale};
use crate::random::Random;
use crate::terms::planned_sheet;
use crate::{refusals, rust_side};

/// One accepted sheet. More than half begin as a plan, the others are made up.
pub fn sheet(r: &mut Random, case: u64) -> Sheet {
    loop {
        let mut s = match case % 12 {
            0 => scattered(r),
            1 => whole_gaps(r),
            2 => tiny_gaps(r),
            3 => vast(r),
            4 => corners(r),
            5 => walls(r),
            n => plan(r, n),
        };
        if !r.once_in(8) {
            for _ in 0..r.from_to(0, 5) {
                bend(r, &mut s);
            }
            lists(r, &mut s);
            mass_edge(r, &mut s);
        }
        if refusals::of_sheet(&s) == 0 {
            return s;
        }
    }
}

/// The checker's tolerance, to come near it.
fn tolerance(s: &Sheet) -> f64 {
    1e-9 * s.container.size.iter().fold(1.0_f64, |m, v| m.max(*v)) + 1e-9
}

fn plan(r: &mut Random, n: u64) -> Sheet {
    let scale = match r.below(3000) {
        0 => Scale::Most,
        1..=50 => Scale::Medium,
        _ => Scale::Small,
    };
    let family = r.next();
    let order = orders::order(r, family, scale);
    let consider = orders::consider(r, order.total());
    let plan = match n % 2 {
        0 => rust_side::plan_points(&order, consider),
        _ => rust_side::plan_layers(&order, consider),
    };
    let mut s = planned_sheet(&order, &plan);
    // The sheet may be held against another spacing than it was planned for.
    if r.once_in(4) {
        s.container.spacing = r.nudged(s.container.spacing + tolerance(&s), 2).max(0.0);
    }
    if r.once_in(8) {
        s.container.spacing = r.pick(&[1.0, 0.5, 0.1, 2.0]);
    }
    s
}

/// Boxes anywhere in and around the container.
fn scattered(r: &mut Random) -> Sheet {
    let mut s = Sheet::empty([10.0, 12.0, 8.0]);
    s.container.spacing = r.pick(&[0.0, 1.0, 2.5, 6.0]);
    s.container.margin = r.pick(&[0.0, 0.0, 1.0]);
    for id in 0..r.from_to(1, 4) as u32 {
        let size = [0; 3].map(|_| r.from_to(1, 5) as f64);
        s.kinds.push(Kind::new(id * 3, r.from_to(1, 3) as u32, size, r.below(3) as u8));
    }
    for _ in 0..r.from_to(0, 9) {
        let at = [0; 3].map(|_| r.from_to(-4, 44) as f64 / 4.0);
        let line = Line {
            id: r.below(13) as u32,
            instance: r.below(4) as u32,
            orientation: r.below(7) as u32,
            bin: if r.once_in(6) { r.next() as u32 } else { 0 },
            at,
        };
        s.lines.push(line);
    }
    s
}

/// Two or three boxes with whole gaps and a spacing that makes their distance show.
fn whole_gaps(r: &mut Random) -> Sheet {
    let mut s = Sheet::empty([40.0; 3]);
    s.container.spacing = r.from_to(3, 14) as f64;
    s.kinds.push(Kind::new(5, 3, [4.0; 3], 2));
    for instance in 0..r.from_to(2, 3) as u32 {
        let scale = r.pick(&[1.0, 1.0, 0.1]);
        let at = [0; 3].map(|_| f64::from(instance) * 4.0 + r.from_to(-4, 5) as f64 * scale);
        s.lines.push(Line { id: 5, instance, orientation: 0, bin: 0, at });
    }
    s
}

/// Gaps so small that their squares lose bits or vanish: a far side exactly at 0, a near side just past it.
fn tiny_gaps(r: &mut Random) -> Sheet {
    let mut s = Sheet::empty([10.0; 3]);
    s.container.spacing = r.pick(&[0.5, 1.0, 1e-7]);
    s.kinds.push(Kind::new(1, 4, [1.0, 0.5, 0.25], 2));
    let tiny = |r: &mut Random| f64::from_bits(r.below(0x3FF0_0000_0000_0000));
    let gap = |r: &mut Random| match r.below(5) {
        0 => 0.0,
        1 => -0.0,
        2 => 1e-160 * r.unit(),
        3 => 1e-8 * r.unit(),
        _ => tiny(r).min(1.0),
    };
    for instance in 0..r.from_to(2, 4) as u32 {
        let size = [1.0, 0.5, 0.25];
        let mut at = [0; 3].map(|_| gap(r));
        for a in 0..3 {
            if instance == 0 || r.once_in(3) {
                at[a] = -size[a];
            }
        }
        s.lines.push(Line { id: 1, instance, orientation: 0, bin: 0, at });
    }
    s
}

/// Two boxes corner to corner: at a distance within the last places of spacing − T, mostly where the
/// root and its square, or the two sides of the comparison, would answer differently; or nearer, where
/// the order of the squares shows in the distance.
fn corners(r: &mut Random) -> Sheet {
    let mut s = Sheet::empty([10.0; 3]);
    let t = tolerance(&s);
    // Just above a power of two, spacing and spacing − T are rounded differently.
    let spacing = r.pick(&[1.0, 2.0, 4.0]) + r.pick(&[0.0, 0.3, t]) * r.unit();
    s.container.spacing = spacing;
    s.kinds.push(Kind::new(6, 2, [1.0; 3], 2));
    let d = spacing - t;
    let (x, y) = (d * r.unit() * 0.7, d * r.unit() * 0.7);
    let squares = x * x + y * y;
    let z = (d * d - squares).max(0.0).sqrt();
    let apart = |z: &f64| (squares + z * z).sqrt();
    let z = match r.below(4) {
        0 => near_by(r, z, |z| (apart(z) < d) != (squares + z * z < d * d)),
        1 => near_by(r, z, |z| (apart(z) < d) != (apart(z) + t < spacing)),
        2 => near_by(r, z, |z| apart(z) == d),
        _ => near_by(r, z * 0.6, |z| apart(z) != (z * z + y * y + x * x).sqrt()),
    };
    // The first box ends at 0 on each axis, so the gaps are the second one's place, to the last bit.
    let line = |instance, at| Line { id: 6, instance, orientation: 0, bin: 0, at };
    s.lines = vec![line(0, [-1.0; 3]), line(1, [x, y, z])];
    r.shuffle(&mut s.lines);
    s
}

/// One or two lines at the far wall, and a mass at the limit: both within the last places of the
/// tolerance, and mostly where the order of the sums decides.
fn walls(r: &mut Random) -> Sheet {
    let mut s = Sheet::empty([0; 3].map(|_| 5.0 + 4.0 * r.unit()));
    let (t, power) = (tolerance(&s), r.pick(&[2.0, 8.0, 64.0]));
    let mass = power + t * r.unit();
    s.container.limit = near_by(r, mass - t, |limit| (mass > limit + t) != (mass - t > *limit));
    s.kinds.push(Kind::new(8, 2, [0; 3].map(|_| 0.5 + r.unit()), 2).weighing(mass / 2.0));
    s.lines = [0, 1].map(|instance| Line { id: 8, instance, orientation: 0, bin: 0, at: [2.0; 3] }).to_vec();
    // Whatever is wrong with a line of a known kind, its mass counts.
    match r.below(6) {
        0 => s.lines[1].instance = 5,
        1 => s.lines[1].instance = 0,
        2 => s.lines[1].bin = 1,
        3 => s.lines[1].orientation = 1,
        _ => (),
    }
    let a = r.below(3) as usize;
    let (l, size) = (s.container.size[a], s.kinds[0].size[a]);
    for _ in 0..12 {
        let m = r.unit();
        let split = |x: &f64| (x + size <= l - m + t) != (x + size <= l - (m - t));
        let x = near_by(r, l - m + t - size, split);
        s.container.margin = m;
        s.lines[0].at[a] = x;
        if split(&x) {
            break;
        }
    }
    s
}

/// A container so large that the tolerance is larger than some boxes; positions out to the bound.
fn vast(r: &mut Random) -> Sheet {
    let side = r.pick(&[1e9, 1e8, 123_456_789.0]);
    let mut s = Sheet::empty([side, 1e6, 10.0]);
    s.container.spacing = r.pick(&[0.0, 0.5, 2.0, 1e9]);
    s.kinds.push(Kind::new(2, 6, [0.5, 0.5, 0.5], 0).weighing(1e9));
    s.kinds.push(Kind::new(9, 6, [2.5, 3.0, 2.5], 1));
    for _ in 0..r.from_to(2, 7) {
        let far = r.once_in(5);
        let at = [0; 3].map(|_| {
            let near = r.from_to(0, 12) as f64 / 4.0;
            if far {
                r.pick(&[1e9, -1e9, side, near])
            } else {
                near
            }
        });
        let id = r.pick(&[2, 9]);
        s.lines.push(Line { id, instance: r.below(6) as u32, orientation: r.below(3) as u32, bin: 0, at });
    }
    s
}

/// One change to the lines.
fn bend(r: &mut Random, s: &mut Sheet) {
    let n = s.lines.len() as u64;
    if n == 0 {
        return;
    }
    let i = r.below(n) as usize;
    match r.below(12) {
        0 => r.shuffle(&mut s.lines),
        1 | 2 => repeat(r, s, i),
        3 => to_wall(r, s, i),
        4 | 5 => to_neighbour(r, s, i),
        6 => s.lines[i].orientation = r.pick(&[0, 1, 2, 3, 4, 5, 6, 7, u32::MAX]),
        7 => rename(r, s, i),
        8 => s.lines[i].bin = r.pick(&[0, 1, 2, u32::MAX]),
        9 => s.lines[i].instance = r.below(6) as u32,
        10 => {
            s.lines.remove(i);
        }
        _ => {
            let a = r.below(3) as usize;
            s.lines[i].at[a] = if s.lines[i].at[a] == 0.0 { -0.0 } else { r.nudged(s.lines[i].at[a], 2) };
        }
    }
}

/// A line once more, where it stood or elsewhere in the list.
fn repeat(r: &mut Random, s: &mut Sheet, i: usize) {
    let mut line = s.lines[i];
    if r.once_in(2) {
        line.at[r.below(3) as usize] += r.pick(&[1.0, 0.1, -1.0]);
    }
    let place = r.below(s.lines.len() as u64 + 1) as usize;
    s.lines.insert(place, line);
}

/// The lengths of a line's box, as the Rust turns it.
fn size_of(s: &Sheet, i: usize) -> Option<[f64; 3]> {
    let kind = s.kinds.iter().find(|k| k.id == s.lines[i].id)?;
    Some(rust_side::measures(kind, s.lines[i].orientation).1)
}

/// To a wall and the tolerance past it, a few units in the last place either way: mostly where the
/// test holds with equality, or where the sums' order decides.
fn to_wall(r: &mut Random, s: &mut Sheet, i: usize) {
    let (t, c) = (tolerance(s), s.container);
    let Some(size) = size_of(s, i) else { return };
    let a = r.below(3) as usize;
    let (l, m) = (c.size[a], c.margin);
    s.lines[i].at[a] = match r.below(3) {
        0 => near_by(r, m - t, |&x| x == m - t),
        1 => near_by(r, l - m + t - size[a], |x| x + size[a] == l - m + t),
        _ => near_by(r, l - m + t - size[a], |x| (x + size[a] <= l - m + t) != (x + size[a] <= l - (m - t))),
    };
}

/// To a distance of about spacing − T, T or 0 from another box, a few units in the last place either
/// way: mostly exactly that distance.
fn to_neighbour(r: &mut Random, s: &mut Sheet, i: usize) {
    let j = r.below(s.lines.len() as u64) as usize;
    let (Some(mine), Some(other)) = (size_of(s, i), size_of(s, j)) else { return };
    let (t, spacing) = (tolerance(s), s.container.spacing);
    let gap = r.pick(&[spacing - t, spacing - t, spacing, -t, -t, 0.0, t, spacing / 2.0]);
    let a = r.below(3) as usize;
    let at = s.lines[j].at;
    let beside = match r.below(2) {
        0 => near_by(r, at[a] + other[a] + gap, |x| x - (at[a] + other[a]) == gap),
        _ => near_by(r, at[a] - gap - mine[a], |x| at[a] - (x + mine[a]) == gap),
    };
    s.lines[i].at = at;
    s.lines[i].at[a] = beside;
}

/// Another kind's id, or one that no kind has.
fn rename(r: &mut Random, s: &mut Sheet, i: usize) {
    s.lines[i].id = match r.below(3) {
        0 => r.next() as u32,
        _ if s.kinds.is_empty() => 4,
        _ => s.kinds[r.below(s.kinds.len() as u64) as usize].id,
    };
}

/// The unplaced list: as it was, right for the lines as they are now, or wrong in some way.
fn lists(r: &mut Random, s: &mut Sheet) {
    match r.below(6) {
        0 | 1 => s.unplaced = rust_side::unplaced_of(s),
        2 => s.unplaced.clear(),
        3 => s.unplaced = s.kinds.iter().map(|k| k.id).collect(),
        _ => (),
    }
    for _ in 0..r.below(3) {
        let id = match r.below(3) {
            0 => r.next() as u32,
            _ if s.kinds.is_empty() => 0,
            _ => s.kinds[r.below(s.kinds.len() as u64) as usize].id,
        };
        let place = r.below(s.unplaced.len() as u64 + 1) as usize;
        s.unplaced.insert(place, id);
    }
}

/// A limit at the mass on the sheet less the tolerance, mostly where the test holds with equality or
/// where the sums' order decides; or one that is clearly too low.
fn mass_edge(r: &mut Random, s: &mut Sheet) {
    if !r.once_in(2) {
        return;
    }
    let known = |l: &Line| s.kinds.iter().find(|k| k.id == l.id);
    let mass: f64 = s.lines.iter().filter_map(known).filter_map(Kind::mass).sum();
    let t = tolerance(s);
    let near = match r.below(4) {
        0 => mass * 0.75,
        1 => near_by(r, mass - t, |limit| mass == limit + t),
        _ => near_by(r, mass - t, |limit| (mass > limit + t) != (mass - t > *limit)),
    };
    if near > 0.0 && near <= 1e12 {
        s.container.limit = near;
    }
}

/// So many lines of unit cubes on a grid, clean but for the last ones: a repeat, an unknown kind, an instance out of range, a wrong
/// orientation, another bin, a box too close to the first and upon the second, and one outside.
pub fn sprinkled(lines: u32) -> Sheet {
    let side = f64::from(lines).cbrt().ceil();
    let spot = |i: u32| {
        let n = side as u32;
        [i % n, i / n % n, i / (n * n)].map(|steps| 2.0 * f64::from(steps))
    };
    let mut s = Sheet::empty([2.0 * side; 3]);
    s.container.spacing = 0.5;
    s.kinds.push(Kind::new(3, lines, [1.0; 3], 2));
    s.lines = (0..lines).map(|i| Line { id: 3, instance: i, orientation: 0, bin: 0, at: spot(i) }).collect();
    let last = s.lines.len() - 1;
    s.lines[last].instance = 0;
    s.lines[last - 1].id = 4;
    s.lines[last - 2].instance = lines;
    s.lines[last - 3].orientation = 1;
    s.lines[last - 4].bin = 1;
    s.lines[last - 5].at = [1.25, 0.0, 0.0];
    s.lines[last - 6].at[0] = -1.0;
    s
}

/// Boxes in one place: more findings than the check program has slots for, from 58 lines on.
pub fn crowd(lines: u32) -> Sheet {
    let mut s = Sheet::empty([10.0; 3]);
    s.kinds.push(Kind::new(3, lines, [1.0; 3], 0));
    s.lines = (0..lines).map(|instance| Line { id: 3, instance, orientation: 0, bin: 0, at: [1.0; 3] }).collect();
    s
}
