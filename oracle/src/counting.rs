//! How many comparisons of floats the first placer makes where it tries a point against placed boxes, by each order of the axes.
//! The Rust takes its points from a heap and has no hints, so this is the port's own way written out once more: the points as
//! they are stored, the hint's box first, each form of the tests counted beside the others.

use crate::load_file::Sheet;
use crate::prose::{by_falling_volume, lengths, share, E};
use crate::terms::Placed;

type Three = [f64; 3];

/// Tests of a point against a placed box, and the comparisons that each form makes in them.
#[derive(Debug, Clone, Copy, Default, PartialEq)]
pub struct Asked {
    pub tests: u64,
    /// Tests that z settles, that y settles where z does not, and x where neither does; the others are not settled by any.
    pub settled: [u64; 3],
    /// All six, whatever the first ones say.
    pub six: u64,
    /// x, y, z, and nothing after the comparison that settles it: the order of the Rust.
    pub x_first: u64,
    /// z, y, x, and nothing after the comparison that settles it: the order of the port.
    pub z_first: u64,
}

impl Asked {
    /// One test, by whether each of the two comparisons of x, y and z settles it, as the Rust has them; `pair` is the order in
    /// which the port asks the two.
    fn note(&mut self, settles: [[bool; 2]; 3], pair: [usize; 2]) {
        let until = |axes: [usize; 3], pair: [usize; 2]| {
            let mut all = axes.iter().flat_map(|&a| pair.map(|side| settles[a][side]));
            all.position(|s| s).map_or(6, |n| n as u64 + 1)
        };
        self.tests += 1;
        self.six += 6;
        self.x_first += until([0, 1, 2], [0, 1]);
        self.z_first += until([2, 1, 0], pair);
        if let Some(n) = [2, 1, 0].iter().position(|&a| settles[a].contains(&true)) {
            self.settled[n] += 1;
        }
    }
}

/// What is counted: the separation test, and whether a new point is strictly inside a box.
#[derive(Debug, Clone, Copy, Default, PartialEq)]
pub struct Counts {
    pub apart: Asked,
    pub buried: Asked,
}

/// A placed box moved out by the distance asked, less the slack: past `far`, or before `near`.
struct Walls {
    far: Three,
    near: Three,
}

/// The state of the placer: all that its test of a point asks.
struct State<'a> {
    order: &'a Sheet,
    points: Vec<Three>,
    hints: Vec<usize>,
    boxes: Vec<(Three, Three)>,
    walls: Vec<Walls>,
    counts: Counts,
}

impl State<'_> {
    /// Whether a box with these corners is apart from placed box i.
    fn apart(&mut self, i: usize, at: Three, far: Three) -> bool {
        let w = &self.walls[i];
        let settles = [0, 1, 2].map(|a| [at[a] >= w.far[a], far[a] <= w.near[a]]);
        self.counts.apart.note(settles, [0, 1]);
        settles.iter().flatten().any(|&s| s)
    }

    /// Whether a new point is strictly inside placed box i.
    fn buried(&mut self, i: usize, at: Three) -> bool {
        let (near, size) = self.boxes[i];
        let inside = [0, 1, 2].map(|a| [at[a] > near[a] + E, at[a] < near[a] + size[a] - E]);
        self.counts.buried.note(inside.map(|both| both.map(|s| !s)), [1, 0]);
        inside.iter().flatten().all(|&s| s)
    }

    /// Whether a box of these lengths fits at point k.
    fn fits(&mut self, k: usize, size: Three) -> bool {
        let (at, c) = (self.points[k], &self.order.container);
        let far = [0, 1, 2].map(|a| at[a] + size[a]);
        let inside = |a: usize| !(at[a] < c.margin - E || far[a] > c.size[a] - c.margin + E);
        if !(0..3).all(inside) {
            return false;
        }
        let hint = self.hints[k];
        if hint < self.boxes.len() && !self.apart(hint, at, far) {
            return false;
        }
        match (0..self.boxes.len()).find(|&i| !self.apart(i, at, far)) {
            Some(i) => {
                self.hints[k] = i;
                false
            }
            None => {
                self.hints[k] = self.boxes.len();
                true
            }
        }
    }

    /// The least point at which a box of these lengths fits; one that does not stand before the choice so far is not tested.
    fn least(&mut self, size: Three) -> Option<usize> {
        let by_height = |p: Three| [p[2], p[1], p[0]];
        let mut chosen: Option<usize> = None;
        for k in 0..self.points.len() {
            let behind = chosen.is_some_and(|c| by_height(self.points[k]) >= by_height(self.points[c]));
            if !behind && self.fits(k, size) {
                chosen = Some(k);
            }
        }
        chosen
    }

    /// The box stands at point k: that point goes, and up to three come.
    fn stand(&mut self, k: usize, size: Three) -> Three {
        let (at, c) = (self.points.swap_remove(k), &self.order.container);
        let past = [0, 1, 2].map(|a| at[a] + size[a] + c.spacing);
        let ends = c.size.map(|length| length - c.margin - E);
        for axis in (0..3).filter(|&a| past[a] < ends[a]) {
            let mut new = at;
            new[axis] = past[axis];
            if (0..3).all(|a| new[a] < ends[a]) && !(0..self.boxes.len()).any(|i| self.buried(i, new)) {
                self.points.push(new);
            }
        }
        self.hints.resize(self.hints.len().max(self.points.len()), 0);
        self.boxes.push((at, size));
        let far = [0, 1, 2].map(|a| at[a] + size[a] + c.spacing - E);
        self.walls.push(Walls { far, near: at.map(|v| v - c.spacing + E) });
        at
    }
}

/// Lays a whole order, and counts. A box like the one before it, which found no place, is not tried.
pub fn count(order: &Sheet) -> (Vec<Placed>, Counts) {
    let mut state = State {
        order,
        points: vec![[order.container.margin; 3]],
        hints: vec![0],
        boxes: Vec::new(),
        walls: Vec::new(),
        counts: Counts::default(),
    };
    let (mut placed, mut mass, mut passed_over) = (Vec::new(), 0.0, None);
    for (place, instance) in by_falling_volume(order) {
        let kind = &order.kinds[place];
        if passed_over == Some(kind.id) {
            continue;
        }
        passed_over = Some(kind.id);
        let heavier = mass + kind.mass().unwrap_or(0.0);
        if kind.mass().is_some() && order.container.limit().is_some_and(|limit| heavier > limit) {
            continue;
        }
        let mut turns = 0..share(kind.rule).len() as u32;
        if let Some((orientation, k)) = turns.find_map(|o| state.least(lengths(kind, o)).map(|k| (o, k))) {
            let at = state.stand(k, lengths(kind, orientation));
            placed.push(Placed { id: kind.id, instance, orientation, at });
            (mass, passed_over) = (heavier, None);
        }
    }
    (placed, state.counts)
}
