//! The timed inputs are what their names say, and what is counted of them is what is said.

use oracle::counting::{count, Asked};
use oracle::examples::FIXED;
use oracle::load_file::Kind;
use oracle::orders::{order, Scale, FAMILIES};
use oracle::random::Random;
use oracle::rust_side::{check, plan_layers, plan_points};
use oracle::terms::Placed;
use oracle::timing::{cubes, flat_inputs, mixed, planned, turned};

#[test]
fn the_inputs_are_what_they_are_called() {
    for boxes in [16, 64, 256, 1024] {
        let placed = |s| plan_points(&s, u64::MAX).placed.len() as u32;
        assert_eq!(placed(cubes(boxes)), boxes);
        let fit = placed(mixed(boxes));
        println!("mixed {boxes}: {fit} fit");
        assert!(fit >= boxes / 8 && fit <= boxes / 2);
        println!("turned {boxes}: {} fit", plan_layers(&turned(boxes), u64::MAX).placed.len());
        let sheet = planned(boxes);
        assert_eq!((sheet.lines.len() as u32, check(&sheet).len()), (boxes, 0));
    }
}

#[test]
fn the_flat_cases_are_full() {
    for input in flat_inputs() {
        let plan = plan_points(&input.sheet, u64::MAX);
        println!("{}: {} of {} fit, {:.3} full", input.name, plan.placed.len(), input.boxes, plan.utilization);
        assert!(plan.utilization > 0.8);
    }
}

#[test]
fn what_is_counted_lays_as_the_rust_does() {
    let laid = |s: &_| {
        let told = |p: &Placed| (p.id, p.instance, p.orientation, p.at.map(f64::to_bits));
        assert_eq!(
            count(s).0.iter().map(told).collect::<Vec<_>>(),
            plan_points(s, u64::MAX).placed.iter().map(told).collect::<Vec<_>>()
        );
    };
    flat_inputs().iter().for_each(|input| laid(&input.sheet));
    for case in 0..3000 {
        let mut r = Random::of_case(20_261_116, case);
        let scale = Scale::draw(&mut r);
        laid(&order(&mut r, case % FAMILIES.len() as u64, scale));
    }
}

/// Worked out by hand: three ten-cubes in a row, or one on the other. The second box is tested against the first as the hint's
/// box and again in the scan, the third against the second by the hint and then against both; one new point is tested against
/// the first box.
#[test]
fn three_boxes_are_counted_as_by_hand() {
    let counted = |size| count(&oracle::examples::order(size, &[Kind::new(1, 3, [10.0; 3], FIXED)])).1;
    let asked = |tests, settled, x_first, z_first| Asked { tests, settled, six: 6 * tests, x_first, z_first };
    let row = counted([30.0, 10.0, 10.0]);
    assert_eq!(row.apart, asked(5, [0, 0, 5], 5, 25));
    assert_eq!(row.buried, asked(1, [1, 0, 0], 2, 2));
    let tower = counted([10.0, 10.0, 30.0]);
    assert_eq!(tower.apart, asked(5, [5, 0, 0], 25, 5));
    assert_eq!(tower.buried, asked(1, [1, 0, 0], 1, 1));
}
