//! The comparison at scale: one input, asked of the unchanged Rust and of the port, and every lent cell looked at.

use crate::load_file::{decode, encode, LONGEST};
use crate::orders::{self, Scale};
use crate::port::{answer, write_fill, write_findings, write_plan, Port};
use crate::random::Random;
use crate::{damage, examples, refusals, rust_side, sheets, timing};
use std::sync::OnceLock;

/// One question: a file, and for the planners a number of boxes to consider.
#[derive(Debug, Clone)]
pub struct Question {
    pub file: Vec<u8>,
    pub consider: u64,
}

/// Files next to a bound: the counts and totals of `damage`, rows of boxes, a full case, lines in one place, lines with findings on the last
/// ones, and a plan with every pair too close.
fn next_to_a_bound() -> &'static [Vec<u8>] {
    static FILES: OnceLock<Vec<Vec<u8>>> = OnceLock::new();
    FILES.get_or_init(|| {
        let mut all: Vec<Vec<u8>> = damage::bounds().into_iter().map(|(bytes, _)| bytes).collect();
        for n in refusals::around(refusals::MOST_LINES).map(|n| n as u32) {
            all.extend([examples::row(n), sheets::crowd(n), sheets::sprinkled(n)].iter().map(encode));
        }
        let most = refusals::MOST_BOXES as u32;
        all.extend(
            [examples::full(), timing::planned(most), timing::crowded(most), timing::mixed(most)].iter().map(encode),
        );
        all
    })
}

/// How often each of them is asked, with other rooms and another number to consider.
const TIMES: u64 = 8;

/// The question of a case: a file next to a bound first of all, then an order, a bent sheet, or a damaged file.
pub fn question(seed: u64, case: u64) -> Question {
    let mut r = Random::of_case(seed, case);
    let scale = Scale::draw(&mut r);
    let known = next_to_a_bound();
    let file = match case % 4 {
        _ if case < TIMES * known.len() as u64 => known[(case / TIMES) as usize].clone(),
        0 | 1 => encode(&orders::order(&mut r, case / 4, scale)),
        2 => encode(&sheets::sheet(&mut r, case / 4)),
        _ => damage::random(&mut r, case / 4),
    };
    let total = decode(&file).map_or(0, |s| s.total().min(refusals::MOST_BOXES));
    let consider = if r.once_in(20) { r.next() } else { orders::consider(&mut r, total) };
    Question { file, consider }
}

/// Room for `needed` cells: just enough, too little, none, or more; `sure` is enough whatever is found.
fn room(r: &mut Random, needed: usize, sure: usize) -> usize {
    match r.below(7) {
        0 => needed.saturating_sub(1),
        1 => 0,
        2 => r.below(needed as u64 + 1) as usize,
        3 => needed,
        // far more than is needed: a call may then write without counting first
        4 => needed + sure,
        _ => needed + r.below(64) as usize,
    }
}

/// Cells with something in them before the call: enough for `needed`, or not.
fn old_cells(r: &mut Random, needed: usize, sure: usize) -> Vec<u64> {
    (0..room(r, needed, sure)).map(|_| r.next()).collect()
}

/// Which calls differ on this question; the two sides start from the same cells.
pub fn differences(port: &dyn Port, q: &Question, r: &mut Random) -> Vec<&'static str> {
    let mut out = Vec::new();
    let accepted = refusals::of_file(&q.file) == 0;
    let sheet = decode(&q.file);
    let findings = if accepted { rust_side::check(sheet.as_ref().unwrap()) } else { Vec::new() };
    let sure = if accepted { timing::room_for_all(sheet.as_ref().unwrap()) } else { 64 };
    let mut ours = old_cells(r, 5 * findings.len(), sure);
    let mut theirs = ours.clone();
    let said = write_findings(&q.file, || findings.clone(), &mut ours);
    if port.check(&q.file, &mut theirs) != said || theirs != ours {
        out.push("check");
    }
    let old = r.next();
    let (mut ours, mut theirs) = (old, old);
    if port.fill(&q.file, &mut theirs) != write_fill(&q.file, &mut ours) || theirs != ours {
        out.push("fill");
    }
    let points = |s: &_, n| rust_side::plan_points(s, n);
    if plan_differs(q, r, points, |sheet, figures| port.plan_points(&q.file, q.consider, sheet, figures)) {
        out.push("points");
    }
    let layers = |s: &_, n| rust_side::plan_layers(s, n);
    if plan_differs(q, r, layers, |sheet, figures| port.plan_layers(&q.file, q.consider, sheet, figures)) {
        out.push("layers");
    }
    out
}

/// Whether a plan call of the port differs in its answer, in a byte of the sheet or in a figure.
fn plan_differs(
    q: &Question,
    r: &mut Random,
    plan: impl Fn(&crate::load_file::Sheet, u64) -> crate::terms::Plan,
    ask: impl Fn(&mut [u8], &mut [u64; 2]) -> u64,
) -> bool {
    let mut probe = (Vec::new(), [0; 2]);
    let make = || plan(&decode(&q.file).unwrap(), q.consider);
    let needed = write_plan(&q.file, make, &mut probe.0, &mut probe.1);
    let length = if needed >> 32 == 6 { needed as u32 as usize } else { 0 };
    let mut ours: Vec<u8> = old_cells(r, length, LONGEST).iter().map(|&w| w as u8).collect();
    let mut figures = [r.next(), r.next()];
    let (mut theirs, mut their_figures) = (ours.clone(), figures);
    let said = write_plan(&q.file, make, &mut ours, &mut figures);
    ask(&mut theirs, &mut their_figures) != said || theirs != ours || their_figures != figures
}

/// An answer in words.
pub fn shown(word: u64) -> String {
    match (word >> 32, word as u32) {
        (0, count) => format!("accepted, {count}"),
        (number, count) => format!("refused {number}, {count}"),
    }
}

/// The answer that a file's reading alone gives, for a report.
pub fn reading(q: &Question) -> u64 {
    answer(refusals::of_file(&q.file), 0)
}
