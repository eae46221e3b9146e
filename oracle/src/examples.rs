//! The measured examples (crate `examples`) as orders, calls and sheets, with the known point inside a box.

use crate::load_file::{Kind, Line, Sheet};
use crate::refusals::MOST_BOXES;
use crate::terms::Call;

const TEN: [f64; 3] = [10.0; 3];

/// Any, upright, fixed.
pub const ANY: u8 = 0;
pub const UPRIGHT: u8 = 1;
pub const FIXED: u8 = 2;

/// A container with these kinds.
pub fn order(size: [f64; 3], kinds: &[Kind]) -> Sheet {
    let mut s = Sheet::empty(size);
    s.kinds = kinds.to_vec();
    s
}

fn cube(id: u32, quantity: u32, side: f64) -> Kind {
    Kind::new(id, quantity, [side; 3], FIXED)
}

/// P2: a 4-cube, then a fixed 7×3×3.
pub fn p2() -> Sheet {
    order(TEN, &[cube(1, 1, 4.0), Kind::new(2, 1, [7.0, 3.0, 3.0], FIXED)])
}

/// P3: two 6-cubes.
pub fn p3() -> Sheet {
    order(TEN, &[cube(1, 2, 6.0)])
}

/// P4: two 4-cubes at a spacing.
pub fn p4(spacing: f64) -> Sheet {
    let mut s = order(TEN, &[cube(1, 2, 4.0)]);
    s.container.spacing = spacing;
    s
}

/// P5: three 0.1-cubes, container 0.3×0.1×0.1.
pub fn p5() -> Sheet {
    order([0.3, 0.1, 0.1], &[cube(1, 3, 0.1)])
}

/// P6 and P1: kind 1×2×3, any.
pub fn p6() -> Sheet {
    order(TEN, &[Kind::new(1, 1, [1.0, 2.0, 3.0], ANY)])
}

/// The orders of the examples, and the fill that rounds by halves.
pub fn orders() -> Vec<Sheet> {
    vec![p2(), p3(), p4(2.0), p4(2.5), p5(), p6(), halves()]
}

/// An order to run at every number to consider: masses that bite, a box that fits nowhere, equal volumes.
pub fn counted() -> Sheet {
    let mut s = order(
        TEN,
        &[
            Kind::new(4, 2, [2.0, 3.0, 4.0], ANY).weighing(2.5),
            Kind::new(9, 1, [12.0, 1.0, 2.0], ANY),
            Kind::new(2, 3, [4.0, 6.0, 1.0], UPRIGHT).weighing(2.0),
            Kind::new(7, 1, [11.0, 0.5, 0.5], FIXED).weighing(0.5),
        ],
    );
    s.container.limit = 7.0;
    s
}

/// A fill whose last box is judged at a score that rounds by halves: z·1,000,000 is so large that y·1,000
/// and x are half a unit in its last place each, and so is a tenth of the box's height in its first
/// orientation. Summed from the left, the halves vanish and the first orientation wins by a tie.
pub fn halves() -> Sheet {
    let unit = 0.015625;
    let kinds = [
        Kind::new(1, 1, [1.0, 1.0, 1e8], FIXED),
        Kind::new(2, 1, [1.0, unit / 2000.0, 0.001], FIXED),
        Kind::new(3, 1, [unit / 2.0, 0.01, 0.001], FIXED),
        Kind::new(4, 1, [0.05, 2.0 * unit, 5.0 * unit], ANY),
    ];
    order([1.0, 1.0, 2e8], &kinds)
}

/// Calls of the first orientation, one for each place in the list of kinds.
fn calls(kinds: &[u32]) -> Vec<Call> {
    kinds.iter().map(|&kind| Call { kind, instance: 0, orientation: 0 }).collect()
}

/// The boxes of the known point inside a box: P longer than A by one unit in the last place, or as long.
fn inside(p: f64) -> Sheet {
    let (a, q) = ([16_777_196.0, 10.0, 10.0], [100.0, 50.0, 100.0]);
    let kinds = [Kind::new(1, 3, a, FIXED), Kind::new(2, 1, q, FIXED), Kind::new(3, 1, [p, 10.0, 10.0], FIXED)];
    let mut s = order([16_800_000.0, 60.0, 200.0], &kinds);
    s.container.spacing = 20.2;
    s
}

/// The boxes of the known point inside a box with the axes in each order, and a block whose faces stand just so far out
/// that the new point is on a face, within the slack of it, or inside.
pub fn faces() -> Vec<(Sheet, Vec<Call>)> {
    let (long, spacing) = (16_777_196.0_f64, 20.2);
    let side = 10.0 + spacing;
    let (out, on, near, past) = (side + 10.0, side, side + 5e-10, side + 2e-9);
    let blocks = [[out, out], [on, out], [out, on], [near, out], [out, near], [past, out], [out, past]];
    let mut all = Vec::new();
    for axes in [[0, 1, 2], [0, 2, 1], [1, 0, 2], [1, 2, 0], [2, 0, 1], [2, 1, 0]] {
        for block in blocks {
            let turn = |v: [f64; 3]| axes.map(|a: usize| v[a]);
            let sizes = [[long, 10.0, 10.0], [100.0, block[0], block[1]], [long.next_up(), 10.0, 10.0]];
            let kinds: Vec<Kind> = (1..4).zip(sizes).map(|(id, v)| Kind::new(id, 3, turn(v), FIXED)).collect();
            let mut s = order(turn([long + spacing + 200.0, side + 10.5, side + 10.5]), &kinds);
            s.container.spacing = spacing;
            all.push((s, calls(&[0, 1, 2, 2, 2])));
        }
    }
    all
}

/// So many ten-cubes, one behind the other in a case that they fill.
pub fn row(boxes: u32) -> Sheet {
    order([10.0 * f64::from(boxes), 10.0, 10.0], &[cube(1, boxes, 10.0)])
}

/// As many boxes of two kinds as an order may have, in a case that they fill layer by layer.
pub fn full() -> Sheet {
    let half = MOST_BOXES as u32 / 2;
    let layers = MOST_BOXES as f64 / 128.0;
    order(
        [160.0, 80.0, 5.0 * layers],
        &[Kind::new(1, half, [10.0, 10.0, 5.0], FIXED), Kind::new(2, half, [10.0, 10.0, 5.0], UPRIGHT)],
    )
}

/// Calls of a placer until it is full, and one more.
pub fn one_more() -> (Sheet, Vec<Call>) {
    (order([1e9; 3], &[cube(1, MOST_BOXES as u32, 1.0)]), calls(&[0; MOST_BOXES as usize + 1]))
}

/// Calls of `try_place`: the known two, P2, P3, and as many boxes as a state holds, which keep every point, with a call that finds it full.
pub fn point_calls() -> Vec<(Sheet, Vec<Call>)> {
    vec![
        (inside(16_777_196.000000002), calls(&[0, 1, 0, 0, 2])),
        (inside(16_777_196.0), calls(&[0, 1, 0, 0, 2])),
        (p2(), calls(&[0, 1])),
        (p3(), calls(&[0, 0])),
        (p6(), vec![]),
        one_more(),
    ]
}

fn line(id: u32, instance: u32, at: [f64; 3]) -> Line {
    Line { id, instance, orientation: 0, bin: 0, at }
}

/// The sheet that the check program is shown on.
pub fn worked() -> Sheet {
    let mut s = order(TEN, &[cube(7, 2, 4.0)]);
    s.container.spacing = 1.0;
    s.lines = vec![line(7, 0, [0.0; 3]), line(7, 0, [4.5, 0.0, 0.0])];
    s
}

/// P7: one line at this x.
pub fn p7(x: f64) -> Sheet {
    let mut s = order(TEN, &[cube(7, 1, 4.0)]);
    s.lines = vec![line(7, 0, [x, 0.0, 0.0])];
    s
}

/// P8: a kind of so many with one placed, listed unplaced so often.
pub fn p8(quantity: u32, listed: usize) -> Sheet {
    let mut s = order(TEN, &[cube(7, quantity, 4.0)]);
    s.lines = vec![line(7, 0, [0.0; 3])];
    s.unplaced = vec![7; listed];
    s
}

/// P9: two unit cubes with these gaps, spacing 6.
pub fn p9(gaps: [f64; 3]) -> Sheet {
    let mut s = order(TEN, &[cube(7, 2, 1.0)]);
    s.container.spacing = 6.0;
    s.lines = vec![line(7, 0, [0.0; 3]), line(7, 1, gaps.map(|g| if g > 0.0 { g + 1.0 } else { g }))];
    s
}

/// The sheets of the examples, named.
pub fn sheets() -> Vec<(&'static str, Sheet)> {
    vec![
        ("worked", worked()),
        ("p7_inside", p7(-0.00000001)),
        ("p7_outside", p7(-0.00000002)),
        ("p8_complete", p8(1, 1)),
        ("p8_short", p8(2, 1)),
        ("p8_short_twice", p8(2, 2)),
        ("p9_five", p9([3.0, 4.0, 0.0])),
        ("p9_root_of_two", p9([1.0, 1.0, 0.0])),
    ]
}
