//! The measured examples, out of the unchanged Rust.

use oracle::examples::*;
use oracle::load_file::{decode, encode, Sheet};
use oracle::terms::{Call, Placed, BEST};
use oracle::{damage, refusals, rust_side, text};

fn positions(placed: &[Placed]) -> Vec<[f64; 3]> {
    placed.iter().map(|p| p.at).collect()
}

fn points(s: &Sheet) -> Vec<[f64; 3]> {
    positions(&rust_side::plan_points(s, u64::MAX).placed)
}

fn layers(s: &Sheet) -> Vec<[f64; 3]> {
    positions(&rust_side::plan_layers(s, u64::MAX).placed)
}

#[test]
fn p1_lengths_in_an_orientation() {
    let kind = p6().kinds[0];
    assert_eq!(rust_side::measures(&kind, 3).1, [2.0, 3.0, 1.0]);
    assert_eq!(rust_side::measures(&kind, 6).1, [1.0, 2.0, 3.0]);
}

#[test]
fn p2_beside_the_cube() {
    // Once as a run, which takes the larger box first, and once as two calls.
    assert_eq!(points(&p2()), [[0.0; 3], [0.0, 4.0, 0.0]]);
    let (s, calls) = point_calls().swap_remove(2);
    let done = rust_side::point_steps(&s, &calls);
    assert_eq!(done.steps[1].at, Some([0.0, 4.0, 0.0]));
}

#[test]
fn p3_one_of_two() {
    assert_eq!(points(&p3()).len(), 1);
    assert_eq!(layers(&p3()).len(), 1);
    let (s, calls) = point_calls().swap_remove(3);
    assert_eq!(rust_side::point_steps(&s, &calls).points.len(), 3);
}

#[test]
fn p4_spacing() {
    assert_eq!(points(&p4(2.0)), [[0.0; 3], [6.0, 0.0, 0.0]]);
    assert_eq!(points(&p4(2.5)), [[0.0; 3]]);
}

#[test]
fn p5_three_and_two() {
    assert_eq!(points(&p5()).len(), 3);
    assert_eq!(layers(&p5()).len(), 2);
}

#[test]
fn p6_first_place_best() {
    let done = rust_side::layer_steps(&p6(), &[Call { kind: 0, instance: 0, orientation: BEST }]);
    assert_eq!(done.steps[0].placed.unwrap().orientation, 3);
}

#[test]
fn p7_the_tolerance_at_a_wall() {
    assert!(rust_side::check(&p7(-0.00000001)).is_empty());
    assert_eq!(rust_side::check(&p7(-0.00000002)), [[6, 0, 7, 0, 0]]);
}

#[test]
fn p8_wrongly_unplaced() {
    assert_eq!(rust_side::check(&p8(1, 1)), [[11, 7, 0, 0, 0]]);
    assert_eq!(rust_side::check(&p8(2, 1)), [[0; 5]; 0]);
    assert_eq!(rust_side::check(&p8(2, 2)), [[11, 7, 0, 0, 0]]);
}

#[test]
fn p9_distances() {
    let six = 6.0_f64.to_bits();
    assert_eq!(rust_side::check(&p9([3.0, 4.0, 0.0])), [[8, 0, 1, 5.0_f64.to_bits(), six]]);
    assert_eq!(rust_side::check(&p9([1.0, 1.0, 0.0])), [[8, 0, 1, 0x3FF6_A09E_667F_3BCD, six]]);
}

#[test]
fn the_worked_example() {
    let expected = "findings 3\nrepeated 1 7 0\ntoo-close 0 1 3FE0000000000000 3FF0000000000000\nmissing 7\n";
    assert_eq!(text::check(&encode(&worked())), expected);
    assert_eq!(text::fill(&encode(&worked())), "fill 128\n");
}

#[test]
fn bounds_of_the_examples() {
    let at_most = |lines: u32| {
        let mut s = worked();
        s.lines = vec![s.lines[0]; lines as usize];
        refusals::of_file(&encode(&s))
    };
    let most = refusals::MOST_LINES as u32;
    assert_eq!((at_most(most), at_most(most + 1)), (0, 2));
    let of_length = |x: f64| {
        let mut s = worked();
        s.kinds[0].size[1] = x;
        refusals::of_file(&encode(&s))
    };
    assert_eq!((of_length(0.0), of_length(0.000001)), (3, 0));
}

#[test]
fn a_point_strictly_inside_a_box_is_dropped() {
    let all = point_calls();
    let stored = |i: usize| rust_side::point_steps(&all[i].0, &all[i].1).points.len();
    assert_eq!((stored(0), stored(1)), (7, 8));
    // The bound is reached: 1 plus twice the boxes.
    assert_eq!(stored(5), 1 + 2 * refusals::MOST_BOXES as usize);
}

#[test]
fn known_files_get_the_number_written_beside_them() {
    for (bytes, number) in damage::known() {
        assert_eq!(refusals::of_file(&bytes), number, "{bytes:?}");
    }
}

#[test]
fn reading_then_writing_gives_the_same_bytes() {
    for (bytes, number) in damage::known() {
        if number != 1 {
            assert_eq!(encode(&decode(&bytes).unwrap()), bytes);
        }
    }
}
