//! What the check program and the planner's list have to print, from the Rust's answers.

use crate::load_file::{decode, Sheet};
use crate::terms::Plan;
use crate::{refusals, rust_side};

const NAMES: [&str; 11] = [
    "unknown",
    "out-of-range",
    "repeated",
    "orientation",
    "bin",
    "outside",
    "overlap",
    "too-close",
    "mass",
    "missing",
    "wrongly-unplaced",
];

/// How many fields each finding has, and from which of them on they are floats.
const FIELDS: [(usize, usize); 11] =
    [(2, 9), (4, 9), (3, 9), (3, 9), (2, 9), (2, 9), (2, 9), (4, 2), (2, 0), (1, 9), (1, 9)];

/// The slots that the check program lends.
pub const SLOTS: usize = 1_600;

fn finding(words: &[u64; 5]) -> String {
    let at = words[0] as usize - 1;
    let (fields, floats) = FIELDS[at];
    let mut line = NAMES[at].to_string();
    for (i, word) in words[1..=fields].iter().enumerate() {
        line += &if i >= floats { format!(" {word:016X}") } else { format!(" {word}") };
    }
    line + "\n"
}

/// The sheet in an accepted file, or the line that refuses it.
fn accepted(bytes: &[u8]) -> Result<Sheet, String> {
    match refusals::of_file(bytes) {
        0 => Ok(decode(bytes).unwrap()),
        number => Err(format!("refused {number}\n")),
    }
}

/// What the check program prints for a file.
pub fn check(bytes: &[u8]) -> String {
    let sheet = match accepted(bytes) {
        Ok(sheet) => sheet,
        Err(line) => return line,
    };
    let findings = rust_side::check(&sheet);
    if findings.len() > SLOTS {
        return format!("refused 6 {}\n", findings.len());
    }
    let lines: String = findings.iter().map(finding).collect();
    format!("findings {}\n{lines}", findings.len())
}

/// What the fill program prints for a file.
pub fn fill(bytes: &[u8]) -> String {
    match accepted(bytes).map(|sheet| refusals::fill_per_thousand(&sheet)) {
        Ok(Ok(fill)) => format!("fill {fill}\n"),
        Ok(Err(number)) => format!("refused {number}\n"),
        Err(line) => line,
    }
}

/// What the planner's `list` prints.
pub fn list(plan: &Plan) -> String {
    let mut out = format!("placed {} considered {}\n", plan.placed.len(), plan.considered);
    for p in &plan.placed {
        let [x, y, z] = p.at.map(f64::to_bits);
        out += &format!("{} {} {} {x:016X} {y:016X} {z:016X}\n", p.id, p.instance, p.orientation);
    }
    out += &format!("utilization {:016X}\nunplaced", plan.utilization.to_bits());
    for id in &plan.unplaced {
        out += &format!(" {id}");
    }
    out + "\n"
}
