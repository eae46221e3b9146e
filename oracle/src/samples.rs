//! What goes into each sample file. A case is made from the seed and its own number alone.

use crate::load_file::{Kind, Sheet};
use crate::orders::{self, Scale};
use crate::random::{stepped, Random, NAN};
use crate::terms::{Call, Item, Record, BEST};
use crate::vectors::{tag, Body, Case};
use crate::{damage, examples, refusals, rust_side, sheets, timing};

/// One sample file: its name, what makes its cases, its seed and its number of cases.
pub type Sample = (&'static str, fn(u64, u64) -> Vec<Case>, u64, u64);

/// Every sample file that stands in the repository.
pub const ALL: [Sample; 10] = [
    ("points", points, 1, 700),
    ("points_state", points_state, 2, 440),
    ("layers", layers, 3, 500),
    ("items", items_and_lists, 4, 700),
    ("check", check, 5, 430),
    ("load", load, 6, 1000),
    ("load_long", load_long, 7, 3),
    ("measures", measures, 8, 200),
    ("root", root, 9, 150),
    ("kinds", kinds, 10, 300),
];

fn of_cases(seed: u64, count: u64, case: impl Fn(&mut Random, u64) -> Case) -> Vec<Case> {
    (0..count).map(|i| case(&mut Random::of_case(seed, i), i)).collect()
}

/// `fixed` cases first, then drawn ones up to the count.
fn after(fixed: Vec<Case>, seed: u64, count: u64, case: impl Fn(&mut Random, u64) -> Case) -> Vec<Case> {
    let left = count.saturating_sub(fixed.len() as u64);
    let mut all = fixed;
    all.extend(of_cases(seed, left, case));
    all.truncate(count as usize);
    all
}

/// The measured examples' orders, orders of as many boxes as are next to a bound, and a full case.
fn known_orders() -> Vec<Sheet> {
    let mut all = examples::orders();
    all.extend(refusals::around(refusals::MOST_BOXES as usize)[..3].iter().map(|&boxes| examples::row(boxes as u32)));
    all.push(examples::full());
    all
}

// Points.

fn points_case(s: &Sheet, consider: u64) -> Case {
    let plan = rust_side::plan_points(s, consider);
    (tag::POINTS, Body::default().sheet(s).u32(consider as u32).plan(&plan))
}

/// Runs of the extreme-point placer: the measured examples, one order at every number to consider, then drawn orders.
pub fn points(seed: u64, count: u64) -> Vec<Case> {
    let mut fixed: Vec<Case> = known_orders().iter().map(|s| points_case(s, s.total())).collect();
    let counted = examples::counted();
    fixed.extend((0..=counted.total() + 2).map(|n| points_case(&counted, n)));
    after(fixed, seed, count, |r, i| {
        let scale = Scale::draw(r);
        let s = orders::order(r, i, scale);
        let consider = orders::consider(r, s.total());
        points_case(&s, consider)
    })
}

/// A box of some kind in some orientation, one past the kind's list among them.
fn call(r: &mut Random, s: &Sheet) -> Call {
    let kind = r.below(s.kinds.len() as u64) as u32;
    let orientation = if r.once_in(30) { r.next() as u32 >> 1 } else { r.below(7) as u32 };
    Call { kind, instance: r.below(300) as u32, orientation }
}

/// Calls for an order, never more than a state holds.
pub fn calls(r: &mut Random, s: &Sheet, scale: Scale) -> Vec<Call> {
    let most = match scale {
        Scale::Small => 12,
        Scale::Medium => 40,
        _ => scale.boxes(),
    };
    let n = if s.kinds.is_empty() { 0 } else { r.from_to(0, most) };
    (0..n).map(|_| call(r, s)).collect()
}

fn state_case(s: &Sheet, calls: &[Call]) -> Case {
    let done = rust_side::point_steps(s, calls);
    (tag::POINTS_STATE, Body::default().sheet(s).point_steps(calls, &done))
}

/// Calls that bring a new point strictly inside an earlier box, or onto a face of it, with the axes in any order.
///
/// The long box A ends just below 2^24 and the block Q begins just above it. There the slack is more
/// than half a unit in the last place on the one side and less on the other, so a box one unit longer
/// than A still passes beside Q, and its new point rounds to one unit past Q's near face.
pub fn inside_calls(r: &mut Random) -> (Sheet, Vec<Call>) {
    let (long, spacing) = orders::ending_at_a_power(r, 300);
    let axes = r.pick(&[[0, 1, 2], [0, 2, 1], [1, 0, 2], [1, 2, 0], [2, 0, 1], [2, 1, 0]]);
    let turn = |v: [f64; 3]| axes.map(|a| v[a]);
    let p = stepped(long, r.pick(&[0, 1, 1, 1, 2]));
    let side = 10.0 + spacing;
    let faces = [side, side + 5e-10, side + 2e-9, side + 5.0, side + 10.0];
    let block = [100.0, r.pick(&faces), r.pick(&faces)];
    // Across, there is room for two long boxes each way, and for Q only past the end of A.
    let mut s = Sheet::empty(turn([long + spacing + 200.0, side + 10.5, side + 10.5]));
    s.container.spacing = spacing;
    let sizes = [[long, 10.0, 10.0], block, [p, 10.0, 10.0], [p, 4.0, 6.0]];
    let kind = |(i, v): (usize, &[f64; 3])| Kind::new(i as u32, 9, turn(*v), 2);
    s.kinds = sizes.iter().enumerate().map(kind).collect();
    let mut order = vec![0, 1];
    order.extend((0..r.from_to(3, 5)).map(|_| r.pick(&[0, 2, 2, 3])));
    let calls = order.into_iter().map(|kind| Call { kind, instance: 0, orientation: 0 }).collect();
    (s, calls)
}

/// Two boxes that overlap on two axes and touch, nearly touch or overlap a little on the third.
fn overlap_case(r: &mut Random) -> Case {
    let quarter = |r: &mut Random, from, to| r.from_to(from, to) as f64 / 4.0;
    let a = [0; 3].map(|_| quarter(r, -20, 20));
    let (size, other) = ([0; 3].map(|_| quarter(r, 1, 12)), [0; 3].map(|_| quarter(r, 1, 12)));
    // Halfway into the first box: an overlap, whatever the lengths.
    let mut b = [0, 1, 2].map(|i| a[i] + size[i] / 2.0);
    let (i, edge) = (r.below(3) as usize, r.pick(&[0.0, -1e-9, -1e-9, 1e-9]));
    b[i] = match r.below(2) {
        0 => r.nudged(a[i] + size[i] + edge, 3),
        _ => r.nudged(a[i] - other[i] - edge, 3),
    };
    if r.once_in(6) {
        b[r.below(3) as usize] += quarter(r, -20, 20);
    }
    let hit = rust_side::overlaps([a, size], [b, other]);
    let body = Body::default().f64s(&a).f64s(&size).f64s(&b).f64s(&other).u32(hit as u32);
    (tag::OVERLAPS, body)
}

/// States of the extreme-point placer, and pairs for `overlaps`.
pub fn points_state(seed: u64, count: u64) -> Vec<Case> {
    let known = examples::point_calls().into_iter().chain(examples::faces());
    let fixed = known.map(|(s, calls)| state_case(&s, &calls)).collect();
    after(fixed, seed, count, |r, i| match i % 16 {
        3 | 7 | 11 | 15 => overlap_case(r),
        5 => {
            let (s, calls) = inside_calls(r);
            state_case(&s, &calls)
        }
        _ => {
            let scale = Scale::draw(r);
            let s = orders::order(r, i, scale);
            let calls = calls(r, &s, scale);
            state_case(&s, &calls)
        }
    })
}

// Layers.

fn layers_case(s: &Sheet, consider: u64) -> Case {
    let plan = rust_side::plan_layers(s, consider);
    (tag::LAYERS, Body::default().sheet(s).u32(consider as u32).plan(&plan))
}

fn layer_state_case(s: &Sheet, calls: &[Call]) -> Case {
    let done = rust_side::layer_steps(s, calls);
    (tag::LAYERS_STATE, Body::default().sheet(s).layer_steps(calls, &done))
}

/// A cursor anywhere, also where no fill would bring it, and lengths that end near the far limits.
pub fn cursor_and_size(r: &mut Random, s: &Sheet) -> ([f64; 5], [f64; 3]) {
    let far = s.container.size.map(|length| length - s.container.margin);
    let mut part = |a: usize, most: f64| if r.once_in(6) { 0.0 } else { far[a].abs() * most * r.unit() };
    // Low ones, so that there is room for another layer.
    let cursor = [part(0, 1.0), part(1, 1.0), part(2, 0.4), part(1, 1.0), part(2, 0.4)];
    let starts = [r.pick(&[cursor[0], s.container.margin]), r.pick(&[cursor[1], s.container.margin]), cursor[2]];
    let size = [0, 1, 2].map(|a| {
        let share = far[a] * r.unit() / 2.0;
        let rest = far[a] - starts[a];
        let flat = if a == 2 { share / 2.0 } else { share };
        r.pick(&[share, flat, rest, r.clone().nudged(rest, 2)]).clamp(1e-6, 1e9)
    });
    (cursor, size)
}

fn spot_case(r: &mut Random, s: &Sheet) -> Case {
    let (cursor, size) = cursor_and_size(r, s);
    let spot = rust_side::spot(s, cursor, size);
    (tag::SPOT, Body::default().sheet(s).spot(cursor, size, spot))
}

/// Fills in order, calls with the cursor after each, and spots at any cursor.
pub fn layers(seed: u64, count: u64) -> Vec<Case> {
    let mut fixed: Vec<Case> = known_orders().iter().map(|s| layers_case(s, s.total())).collect();
    let counted = examples::counted();
    fixed.extend((0..=counted.total() + 2).map(|n| layers_case(&counted, n)));
    let (s, mut past) = examples::one_more();
    past.push(Call { orientation: BEST, ..past[0] });
    fixed.push(layer_state_case(&s, &past));
    after(fixed, seed, count, |r, i| {
        let scale = Scale::draw(r);
        let s = orders::order(r, i, scale);
        if i % 4 == 3 {
            let mut s = s;
            s.kinds.clear();
            return spot_case(r, &s);
        }
        if r.once_in(2) {
            let consider = orders::consider(r, s.total());
            return layers_case(&s, consider);
        }
        let mut calls = calls(r, &s, scale);
        for c in &mut calls {
            if r.once_in(2) {
                c.orientation = BEST;
            }
        }
        layer_state_case(&s, &calls)
    })
}

/// A list of instance records: the order's own, or made up, with counts that are not the kind's.
pub fn records(r: &mut Random, s: &Sheet) -> Vec<Record> {
    let mut list = rust_side::instances(s);
    match r.below(4) {
        0 => (),
        1 => r.shuffle(&mut list),
        2 => list.truncate(r.below(list.len() as u64 + 1) as usize),
        _ => {
            for record in &mut list {
                record.count = r.pick(&[0, 1, 2, 3, 5, 6, 7, 9, 1000, u32::MAX]);
                record.instance = r.below(5) as u32;
            }
        }
    }
    if !list.is_empty() && list.len() < refusals::MOST_INSTANCES && r.once_in(4) {
        list.push(list[0]);
    }
    if !list.is_empty() && r.once_in(12) {
        let place = r.below(list.len() as u64) as usize;
        list[place].kind = s.kinds.len() as u32 + r.pick(&[0, 1, 1000]);
    }
    list
}

/// Items in any order: some twice, some past the list.
pub fn items(r: &mut Random, n: usize) -> Vec<Item> {
    let mut places: Vec<u32> = (0..n as u32).collect();
    if r.once_in(2) {
        r.shuffle(&mut places);
    }
    for _ in 0..r.below(3) {
        places.push(r.pick(&[n as u32, n as u32 + 1, u32::MAX, 0]));
    }
    places.truncate(refusals::MOST_ITEMS);
    let orientation = |r: &mut Random| if r.once_in(8) { r.next() as u32 } else { r.below(8) as u32 };
    places.into_iter().map(|place| Item { place, orientation: orientation(r) }).collect()
}

/// The refusal of an instance list and an item list: 2 for their counts, then 9.
fn list_refusal(s: &Sheet, records: &[Record], items: usize) -> u32 {
    if items > refusals::MOST_ITEMS || records.len() > refusals::MOST_INSTANCES {
        2
    } else {
        refusals::of_instances(s.kinds.len(), records.iter().map(|r| r.kind))
    }
}

fn items_case(s: &Sheet, records: &[Record], items: &[Item], consider: u64) -> Case {
    let asked = Body::default().sheet(s).records(records).items(items).u32(consider as u32);
    let refusal = list_refusal(s, records, items.len());
    let body = match refusal {
        0 => asked.u32(0).plan(&rust_side::place_items(s, records, items, consider)),
        number => asked.u32(number),
    };
    (tag::ITEMS, body)
}

fn seeds_case(s: &Sheet, records: &[Record]) -> Case {
    let asked = Body::default().sheet(s).records(records);
    let body = match list_refusal(s, records, 0) {
        0 => asked.u32(0).ids(&rust_side::seeds(s, records)),
        number => asked.u32(number),
    };
    (tag::SEEDS, body)
}

fn instances_case(s: &Sheet) -> Case {
    (tag::INSTANCES, Body::default().sheet(s).records(&rust_side::instances(s)))
}

fn unplaced_case(s: &Sheet) -> Case {
    (tag::UNPLACED, Body::default().sheet(s).ids(&rust_side::unplaced_of(s)))
}

fn fitness_case(placed: u32, total: u32, fill: f64) -> Case {
    let refusal = refusals::of_fitness(placed, total, fill);
    let fitness = if refusal == 0 { rust_side::fitness(placed, total, fill) } else { 0.0 };
    (tag::FITNESS, Body::default().u32(placed).u32(total).f64(fill).u32(refusal).f64(fitness))
}

/// Lists one past their bounds, and fitness at the ends of its ranges.
fn item_edges() -> Vec<Case> {
    let mut s = Sheet::empty([100.0; 3]);
    s.kinds.push(Kind::new(1, 2, [1.0, 2.0, 3.0], 0));
    let records = vec![Record { kind: 0, instance: 0, count: 6 }; refusals::MOST_INSTANCES + 1];
    let items = vec![Item { place: 0, orientation: 1 }; refusals::MOST_ITEMS + 1];
    let most = refusals::MOST_ITEMS;
    let mut all = vec![
        items_case(&s, &records[..refusals::MOST_INSTANCES], &items[..most], most as u64 + 44),
        items_case(&s, &[], &[], 0),
    ];
    all.extend(refusals::around(refusals::MOST_INSTANCES).map(|n| items_case(&s, &records[..n], &items[..1], 1)));
    // as many as there may be are considered above
    let consider = |n: usize| if n < most { n as u64 } else { 1 };
    all.extend(refusals::around(most).map(|n| items_case(&s, &records[..1], &items[..n], consider(n))));
    all.extend(refusals::around(refusals::MOST_INSTANCES).map(|n| seeds_case(&s, &records[..n])));
    for n in [refusals::MOST_BEFORE as u32 + 1, refusals::MOST_BOXES as u32] {
        all.push(instances_case(&examples::row(n)));
        all.push(unplaced_case(&sheets::sprinkled(n)));
    }
    let fills = [0.0, -0.0, 0.5, 1.0, 1e9, 1e9_f64.next_up(), 5e-324, -5e-324, NAN, f64::INFINITY];
    all.extend(fills.into_iter().map(|fill| fitness_case(3, 7, fill)));
    let (most, past) = (refusals::MOST_BOXES as u32, refusals::MOST_BOXES as u32 + 1);
    let counts = [(0, 0), (1, 0), (most, 0), (most, most), (past, 1), (1, past), (past, past), (most, 1), (0, most)];
    all.extend(counts.into_iter().map(|(placed, total)| fitness_case(placed, total, 0.3)));
    let near = refusals::around(refusals::MOST_BOXES as usize).map(|n| n as u32);
    all.extend(near.into_iter().flat_map(|n| [fitness_case(n, 7, 0.3), fitness_case(7, n, 0.3)]));
    all.push(fitness_case(past, 1, NAN));
    all
}

/// Items, instances, seeds, fitness and unplaced lists.
pub fn items_and_lists(seed: u64, count: u64) -> Vec<Case> {
    after(item_edges(), seed, count, |r, i| {
        let scale = if r.once_in(60) { Scale::Medium } else { Scale::Small };
        let s = orders::order(r, i, scale);
        match i % 10 {
            0 => instances_case(&s),
            1 | 2 => {
                let s = sheets::sheet(r, i);
                let records = records(r, &s);
                seeds_case(&s, &records)
            }
            3 => unplaced_case(&sheets::sheet(r, i)),
            4 => {
                let fill = r.pick(&[r.clone().unit(), r.clone().log_uniform(), 0.0]);
                fitness_case(r.below(refusals::MOST_BOXES + 1) as u32, r.below(refusals::MOST_BOXES + 1) as u32, fill)
            }
            _ => {
                let records = records(r, &s);
                let items = items(r, records.len());
                let consider = orders::consider(r, items.len() as u64);
                items_case(&s, &records, &items, consider)
            }
        }
    })
}

// Checker.

fn check_case(s: &Sheet) -> Case {
    let (refusal, fill) = match refusals::fill_per_thousand(s) {
        Ok(fill) => (0, fill),
        Err(number) => (number, 0),
    };
    let body = Body::default().sheet(s).findings(&rust_side::check(s)).u32(refusal).u64(fill);
    (tag::CHECK, body)
}

/// Checks: the measured examples, crowds around 1,600 findings, crowds and mostly clean sheets of as many lines as are next to a bound, a clean
/// one of as many lines as there may be, then drawn sheets.
pub fn check(seed: u64, count: u64) -> Vec<Case> {
    let mut fixed: Vec<Case> = examples::sheets().iter().map(|(_, s)| check_case(s)).collect();
    fixed.extend([57, 58].map(|lines| check_case(&sheets::crowd(lines))));
    for &lines in &refusals::around(refusals::MOST_LINES)[..3] {
        fixed.push(check_case(&sheets::crowd(lines as u32)));
        fixed.push(check_case(&sheets::sprinkled(lines as u32)));
    }
    fixed.push(check_case(&timing::planned(refusals::MOST_BOXES as u32)));
    after(fixed, seed, count, |r, i| check_case(&sheets::sheet(r, i)))
}

// Load files and records.

fn load_case(bytes: &[u8]) -> Case {
    (tag::LOAD, Body::default().bytes(bytes).u32(refusals::of_file(bytes)))
}

/// Load files, right and damaged.
pub fn load(seed: u64, count: u64) -> Vec<Case> {
    let known = damage::known();
    for (bytes, number) in &known {
        assert_eq!(refusals::of_file(bytes), *number, "a known file: {bytes:?}");
    }
    let fixed = known.iter().map(|(bytes, _)| load_case(bytes)).collect();
    after(fixed, seed, count, |r, i| load_case(&damage::random(r, i)))
}

/// Load files around the greatest length.
pub fn load_long(seed: u64, count: u64) -> Vec<Case> {
    let fixed = damage::longest().iter().map(|(bytes, _)| load_case(bytes)).collect();
    after(fixed, seed, count, |r, _| load_case(&damage::long(r.from_to(59_900, 60_100) as usize)))
}

fn kinds_case(kinds: &[Kind]) -> Case {
    let asked = Body::default().kinds(kinds);
    if kinds.len() > refusals::MOST_KINDS {
        return (tag::KINDS, asked.u32(2).u64(0).u32(0).u32(0));
    }
    let total = kinds.iter().map(|k| u64::from(k.quantity)).sum();
    let (place, number) = refusals::first_faulty(kinds).unwrap_or((kinds.len(), 0));
    (tag::KINDS, asked.u32(0).u64(total).u32(place as u32).u32(number))
}

/// Slices of kind records, mostly with a fault or two.
pub fn kinds(seed: u64, count: u64) -> Vec<Case> {
    let many = |n: u32| (0..n).map(|id| Kind::new(id, u32::MAX, [1.0; 3], 0)).collect::<Vec<_>>();
    let most = refusals::MOST_KINDS as u32;
    let fixed = [0, 1, most - 1, most, most + 1].map(|n| kinds_case(&many(n))).to_vec();
    after(fixed, seed, count, |r, i| {
        let mut list = orders::order(r, i, Scale::Small).kinds;
        for _ in 0..r.below(3) {
            if !list.is_empty() {
                let place = r.below(list.len() as u64) as usize;
                spoil(r, &mut list, place);
            }
        }
        kinds_case(&list)
    })
}

/// One change to one record: a fault, or a quantity too large for 32 bits in sum.
fn spoil(r: &mut Random, list: &mut [Kind], place: usize) {
    let first = list[0].id;
    let k = &mut list[place];
    match r.below(8) {
        0 => k.quantity = r.pick(&[0, u32::MAX, 1 << 31]),
        1 => k.rule = r.below(256) as u8,
        2 => k.massed = r.below(4) as u8,
        3 => k.filler[r.below(2) as usize] = r.below(3) as u8,
        4 => k.id = first,
        5 => k.mass = r.pick(&[0.0, -0.0, 1.0, -1.0, 1e9, NAN]),
        _ => k.size[r.below(3) as usize] = r.pick(&[0.0, 1e-6, 1e9, 2e9, NAN, -1.0, f64::INFINITY]),
    }
}

/// Lengths in an orientation, and volumes.
pub fn measures(seed: u64, count: u64) -> Vec<Case> {
    of_cases(seed, count, |r, i| {
        let mut s = orders::order(r, i, Scale::Small);
        if s.kinds.is_empty() {
            s.kinds.push(Kind::new(1, 1, [1.0, 2.0, 3.0], r.below(3) as u8));
        }
        let kind = r.below(s.kinds.len() as u64) as u32;
        let orientation = if r.once_in(10) { r.next() as u32 } else { r.below(8) as u32 };
        let (allowed, lengths, volume) = rust_side::measures(&s.kinds[kind as usize], orientation);
        let asked = Body::default().sheet(&s).u32(kind).u32(orientation);
        (tag::MEASURES, asked.u32(allowed).f64s(&lengths).f64(volume).f64(rust_side::container_volume(&s)))
    })
}

/// Square roots of sixteen numbers a case: whole ones, squares and their neighbours, any bits that are not negative.
pub fn root(seed: u64, count: u64) -> Vec<Case> {
    let fixed = [0.0, -0.0, 1.0, 2.0, f64::from_bits(1), f64::MIN_POSITIVE, f64::MAX, f64::INFINITY, 25.0, 4.0];
    let case = |numbers: &[f64]| {
        let start = Body::default().u32(numbers.len() as u32);
        (tag::ROOT, numbers.iter().fold(start, |b, &x| b.f64(x).f64(x.sqrt())))
    };
    after(vec![case(&fixed)], seed, count, |r, _| {
        let numbers = [0; 16].map(|_| {
            let any = f64::from_bits(r.below(0x7FF0_0000_0000_0000));
            let y = r.log_uniform();
            match r.below(4) {
                0 => any,
                1 => r.nudged(y * y, 2),
                2 => f64::from_bits(r.below(1 << 52)),
                _ => r.below(1_000_000) as f64,
            }
        });
        case(&numbers)
    })
}
