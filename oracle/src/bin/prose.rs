//! Holds the rules' words (`src/prose.rs`) against the unchanged Rust: `prose SEED COUNT`.
//!
//! COUNT cases for each sort of question. It prints how many were compared, the first difference of
//! each sort, and how often the rarer rules came up.

use oracle::load_file::Sheet;
use oracle::orders::{self, Scale};
use oracle::prose::{self, Inside};
use oracle::random::Random;
use oracle::terms::{planned_sheet, Call, Item, BEST};
use oracle::vectors::Body;
use oracle::{command, rust_side, samples, sheets};

/// The tally of one sort of question.
struct Tally {
    name: &'static str,
    compared: u64,
    different: u64,
}

impl Tally {
    fn new(name: &'static str) -> Self {
        Self { name, compared: 0, different: 0 }
    }

    fn hold(&mut self, asked: &dyn std::fmt::Debug, rust: Body, words: Body) {
        self.compared += 1;
        if rust != words {
            self.different += 1;
            if self.different == 1 {
                println!("{}: first difference at {asked:?}", self.name);
            }
        }
    }

    fn print(&self) {
        println!("{}: {} compared, {} different", self.name, self.compared, self.different);
    }
}

fn draw(seed: u64, i: u64) -> (Random, Sheet, Scale) {
    let mut r = Random::of_case(seed, i);
    let scale = Scale::draw(&mut r);
    let order = orders::order(&mut r, i, scale);
    (r, order, scale)
}

fn runs(seed: u64, count: u64) {
    let (mut points, mut layers) = (Tally::new("points, runs"), Tally::new("layers, runs"));
    for i in 0..count {
        let (mut r, s, _) = draw(seed, i);
        let n = orders::consider(&mut r, s.total());
        let body = |plan| Body::default().plan(&plan);
        points.hold(&(&s, n), body(rust_side::plan_points(&s, n)), body(prose::plan_points(&s, n)));
        layers.hold(&(&s, n), body(rust_side::plan_layers(&s, n)), body(prose::plan_layers(&s, n)));
    }
    points.print();
    layers.print();
}

fn states(seed: u64, count: u64) {
    let (mut points, mut layers) = (Tally::new("points, calls"), Tally::new("layers, calls"));
    let mut spots = Tally::new("spots at any cursor");
    let mut dropped = 0;
    for i in 0..count {
        let (mut r, mut s, scale) = draw(seed ^ 1, i);
        let mut calls = samples::calls(&mut r, &s, scale);
        if i % 4 == 0 {
            (s, calls) = samples::inside_calls(&mut r);
        }
        let done = rust_side::point_steps(&s, &calls);
        let said = prose::point_steps(&s, &calls, Inside::Drop);
        let kept = prose::point_steps(&s, &calls, Inside::Keep);
        dropped += u64::from(kept.points.len() > done.points.len());
        let body = |steps| Body::default().point_steps(&calls, steps);
        points.hold(&(&s, &calls), body(&done), body(&said));
        let best: Vec<Call> =
            calls.iter().map(|c| Call { orientation: r.pick(&[BEST, c.orientation]), ..*c }).collect();
        let body = |steps| Body::default().layer_steps(&best, &steps);
        layers.hold(&(&s, &best), body(rust_side::layer_steps(&s, &best)), body(prose::layer_steps(&s, &best)));
        let (cursor, size) = samples::cursor_and_size(&mut r, &s);
        let body = |spot| Body::default().spot(cursor, size, spot);
        let (rust, words) = (rust_side::spot(&s, cursor, size), prose::spot(&s, cursor, size));
        spots.hold(&(&s, cursor, size), body(rust), body(words));
    }
    points.print();
    println!("  a point strictly inside a box was dropped in {dropped}");
    layers.print();
    spots.print();
}

fn lists(seed: u64, count: u64) {
    let (mut items, mut seeds) = (Tally::new("items"), Tally::new("seeds"));
    let (mut instances, mut unplaced) = (Tally::new("instances"), Tally::new("unplaced lists"));
    for i in 0..count {
        let (mut r, s, _) = draw(seed ^ 2, i);
        let records: Vec<_> =
            samples::records(&mut r, &s).into_iter().filter(|record| (record.kind as usize) < s.kinds.len()).collect();
        let list = samples::items(&mut r, records.len());
        let n = orders::consider(&mut r, list.len() as u64);
        let body = |plan| Body::default().plan(&plan);
        let (rust, words) =
            (rust_side::place_items(&s, &records, &list, n), prose::place_items(&s, &records, &list, n));
        items.hold(&(&s, &records, &list, n), body(rust), body(words));
        let body = |records: Vec<_>| Body::default().records(&records);
        instances.hold(&s, body(rust_side::instances(&s)), body(prose::instances(&s)));
        let mut bent = sheets::sheet(&mut r, i);
        bent.kinds.truncate(63);
        let own = rust_side::instances(&bent);
        let ids = |ids: &[u32]| Body::default().ids(ids);
        seeds.hold(&bent, ids(&rust_side::seeds(&bent, &own)), ids(&prose::seeds(&bent, &own)));
        let placed: Vec<(u32, u32)> = bent.lines.iter().map(|l| (l.id, l.instance)).collect();
        unplaced.hold(&bent, ids(&rust_side::unplaced_of(&bent)), ids(&prose::unplaced(&bent, &placed)));
    }
    for tally in [items, instances, seeds, unplaced] {
        tally.print();
    }
}

/// The Rust's comment on `seed_orientations`: placing all instances in order with the seeds of a fill gives that fill.
/// Asked of fills over all boxes, and of fills that stopped early.
fn seeded(seed: u64, count: u64) {
    let (mut whole, mut early) =
        (Tally::new("seeded after a whole fill"), Tally::new("seeded after a fill that stopped early"));
    for i in 0..count {
        let (mut r, s, _) = draw(seed ^ 4, i);
        for (tally, n) in [(&mut whole, s.total()), (&mut early, r.below(s.total() + 1))] {
            let fill = rust_side::plan_layers(&s, n);
            let records = rust_side::instances(&s);
            let seeds = rust_side::seeds(&planned_sheet(&s, &fill), &records);
            let items: Vec<Item> = (0..).zip(seeds).map(|(place, orientation)| Item { place, orientation }).collect();
            let again = rust_side::place_items(&s, &records, &items, u64::MAX);
            let lines = |plan| Body::default().sheet(&planned_sheet(&s, plan)).f64(plan.utilization);
            tally.hold(&(&s, n), lines(&fill), lines(&again));
        }
    }
    whole.print();
    early.print();
}

/// Plans held against the checker as they are.
fn checked(seed: u64, count: u64) {
    let mut found = 0;
    for i in 0..count {
        let (_, s, _) = draw(seed ^ 5, i);
        for plan in [rust_side::plan_points(&s, u64::MAX), rust_side::plan_layers(&s, u64::MAX)] {
            let findings = rust_side::check(&planned_sheet(&s, &plan));
            if !findings.is_empty() && found == 0 {
                println!("first plan with findings: {s:?} {findings:?}");
            }
            found += u64::from(!findings.is_empty());
        }
    }
    println!("plans checked as they are: {}, with findings: {found}", 2 * count);
}

fn checks(seed: u64, count: u64) {
    let mut tally = Tally::new("checks");
    let mut of_each = [0; 12];
    for i in 0..count {
        let s = sheets::sheet(&mut Random::of_case(seed ^ 3, i), i);
        let found = rust_side::check(&s);
        for words in &found {
            of_each[words[0] as usize] += 1;
        }
        let body = |findings: &[[u64; 5]]| Body::default().findings(findings);
        tally.hold(&s, body(&found), body(&prose::check(&s)));
    }
    tally.print();
    println!("  findings 1 to 11: {:?}", &of_each[1..]);
}

fn main() {
    let (seed, count) = command::seed_and_count();
    runs(seed, count);
    states(seed, count);
    lists(seed, count);
    checks(seed, count);
    seeded(seed, count);
    checked(seed, count);
}
