//! The inputs that FINDINGS.md names, run.

use oracle::examples::{order, FIXED};
use oracle::extreme_point::{run_ep_packing, ExtremePointSet};
use oracle::load_file::{Kind, Sheet};
use oracle::terms::{planned_sheet, Item, Plan};
use oracle::{damage, rust_side, samples};

const MINUS_ZERO: u64 = 0x8000_0000_0000_0000;

#[test]
fn the_sum_of_nothing_is_minus_zero_in_this_rust() {
    let none = rust_side::boundary(&Sheet::empty([10.0; 3]));
    let (placed, utilization) = run_ep_packing(&[], &none, 0.0, 0.0, None, || false);
    assert_eq!((placed.len(), utilization.to_bits()), (0, MINUS_ZERO));
    let fresh = ExtremePointSet::new(&none, 0.0, 0.0);
    assert_eq!(fresh.total_volume().to_bits(), MINUS_ZERO);
    assert_eq!(fresh.total_mass().to_bits(), MINUS_ZERO);
    // The layer placer starts its sums at 0.0.
    let steps = rust_side::layer_steps(&Sheet::empty([10.0; 3]), &[]);
    assert_eq!(steps.utilization.to_bits(), 0);
}

/// All instances placed in order with the seeds of a fill.
fn seeded(s: &Sheet, fill: &Plan) -> Plan {
    let records = rust_side::instances(s);
    let seeds = rust_side::seeds(&planned_sheet(s, fill), &records);
    let items: Vec<Item> = (0..).zip(seeds).map(|(place, orientation)| Item { place, orientation }).collect();
    rust_side::place_items(s, &records, &items, u64::MAX)
}

#[test]
fn seeds_reproduce_a_whole_fill_and_not_one_that_stopped_early() {
    let s = order([10.0; 3], &[Kind::new(1, 2, [1.0; 3], FIXED)]);
    let (whole, early) = (rust_side::plan_layers(&s, 2), rust_side::plan_layers(&s, 1));
    assert_eq!((whole.placed.len(), seeded(&s, &whole).placed.len()), (2, 2));
    assert_eq!((early.placed.len(), seeded(&s, &early).placed.len()), (1, 2));
}

#[test]
fn every_known_file_is_in_the_load_sample() {
    let (_, _, _, count) = samples::ALL.into_iter().find(|s| s.0 == "load").unwrap();
    assert!((damage::known().len() as u64) < count);
}
