//! The port's side of a comparison: four calls over bytes, as its boundary for other languages has them.
//!
//! `Prose` answers them from the rules' words, so that the comparison itself can be tried now.
//! `Library` is the port: build with `--features port` and `WAIKURPEHO_LIB` set to the folder of
//! `libwaikurpeho.a`. Each answer is a refusal number times 2^32 plus a count.

use crate::load_file::decode;
use crate::terms::{planned_file, Plan};
use crate::{prose, refusals};

/// The four calls. A refusal leaves every lent cell as it was.
pub trait Port {
    /// Findings of five words each; the count of findings, or 6 and the slots needed.
    fn check(&self, sheet: &[u8], findings: &mut [u64]) -> u64;
    /// The planned sheet; its length, or 6 and the length needed. Figures: boxes considered, utilization bits.
    fn plan_points(&self, order: &[u8], consider: u64, sheet: &mut [u8], figures: &mut [u64; 2]) -> u64;
    /// The same by layers.
    fn plan_layers(&self, order: &[u8], consider: u64, sheet: &mut [u8], figures: &mut [u64; 2]) -> u64;
    /// The fill per thousand.
    fn fill(&self, sheet: &[u8], fill: &mut u64) -> u64;
}

/// A refusal number and a count in one word.
pub fn answer(number: u32, count: usize) -> u64 {
    (u64::from(number) << 32) + count as u64
}

/// What a plan call does, given the plan.
pub fn write_plan(order: &[u8], plan: impl Fn() -> Plan, sheet: &mut [u8], figures: &mut [u64; 2]) -> u64 {
    let number = refusals::of_file(order);
    if number != 0 {
        return answer(number, 0);
    }
    let plan = plan();
    let bytes = planned_file(&decode(order).unwrap(), &plan);
    if bytes.len() > sheet.len() {
        return answer(6, bytes.len());
    }
    sheet[..bytes.len()].copy_from_slice(&bytes);
    *figures = [plan.considered, plan.utilization.to_bits()];
    answer(0, bytes.len())
}

/// What the check call does, given the findings.
pub fn write_findings(sheet: &[u8], found: impl Fn() -> Vec<[u64; 5]>, findings: &mut [u64]) -> u64 {
    let number = refusals::of_file(sheet);
    if number != 0 {
        return answer(number, 0);
    }
    let found = found();
    if 5 * found.len() > findings.len() {
        return answer(6, found.len());
    }
    for (slot, words) in findings.chunks_mut(5).zip(&found) {
        slot.copy_from_slice(words);
    }
    answer(0, found.len())
}

/// What the fill call does.
pub fn write_fill(sheet: &[u8], fill: &mut u64) -> u64 {
    let number = refusals::of_file(sheet);
    if number != 0 {
        return answer(number, 0);
    }
    match refusals::fill_per_thousand(&decode(sheet).unwrap()) {
        Ok(value) => {
            *fill = value;
            answer(0, 0)
        }
        Err(number) => answer(number, 0),
    }
}

/// The rules' words.
pub struct Prose;

impl Port for Prose {
    fn check(&self, sheet: &[u8], findings: &mut [u64]) -> u64 {
        write_findings(sheet, || prose::check(&decode(sheet).unwrap()), findings)
    }

    fn plan_points(&self, order: &[u8], consider: u64, sheet: &mut [u8], figures: &mut [u64; 2]) -> u64 {
        write_plan(order, || prose::plan_points(&decode(order).unwrap(), consider), sheet, figures)
    }

    fn plan_layers(&self, order: &[u8], consider: u64, sheet: &mut [u8], figures: &mut [u64; 2]) -> u64 {
        write_plan(order, || prose::plan_layers(&decode(order).unwrap(), consider), sheet, figures)
    }

    fn fill(&self, sheet: &[u8], fill: &mut u64) -> u64 {
        write_fill(sheet, fill)
    }
}

/// The port, through its static library.
#[cfg(feature = "port")]
pub struct Library;

#[cfg(feature = "port")]
mod linked {
    //! The names and shapes of the library's calls: a slice is a pointer and a number of elements.
    extern "C" {
        pub fn wk_check(sheet: *const u8, sheet_len: usize, findings: *mut u64, findings_len: usize) -> u64;
        pub fn wk_plan_points(
            order: *const u8,
            order_len: usize,
            consider: u64,
            sheet: *mut u8,
            sheet_len: usize,
            figures: *mut [u64; 2],
        ) -> u64;
        pub fn wk_plan_layers(
            order: *const u8,
            order_len: usize,
            consider: u64,
            sheet: *mut u8,
            sheet_len: usize,
            figures: *mut [u64; 2],
        ) -> u64;
        pub fn wk_fill(sheet: *const u8, sheet_len: usize, fill: *mut u64) -> u64;
    }
}

#[cfg(feature = "port")]
impl Port for Library {
    fn check(&self, sheet: &[u8], findings: &mut [u64]) -> u64 {
        // Safe: both slices are whole and lent for the call only.
        unsafe { linked::wk_check(sheet.as_ptr(), sheet.len(), findings.as_mut_ptr(), findings.len()) }
    }

    fn plan_points(&self, order: &[u8], consider: u64, sheet: &mut [u8], figures: &mut [u64; 2]) -> u64 {
        let (bytes, room) = (sheet.as_mut_ptr(), sheet.len());
        // Safe: as above.
        unsafe { linked::wk_plan_points(order.as_ptr(), order.len(), consider, bytes, room, figures) }
    }

    fn plan_layers(&self, order: &[u8], consider: u64, sheet: &mut [u8], figures: &mut [u64; 2]) -> u64 {
        let (bytes, room) = (sheet.as_mut_ptr(), sheet.len());
        // Safe: as above.
        unsafe { linked::wk_plan_layers(order.as_ptr(), order.len(), consider, bytes, room, figures) }
    }

    fn fill(&self, sheet: &[u8], fill: &mut u64) -> u64 {
        // Safe: as above.
        unsafe { linked::wk_fill(sheet.as_ptr(), sheet.len(), fill) }
    }
}
