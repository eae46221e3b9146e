//! The four calls of the library, over load files as bytes ([`file`](mod@crate::file)). Every call takes every input; a bad one is refused, and nothing
//! is changed then.
use crate::bounds::MOST_BYTES;
use crate::finding::{Finding, WORDS};
use crate::{Placer, Refusal};

mod linked {
    extern "C" {
        pub fn wk_check(sheet: *const u8, sheet_len: usize, findings: *mut u64, findings_len: usize) -> u64;
        pub fn wk_plan_points(order: *const u8, order_len: usize, consider: u64, sheet: *mut u8, sheet_len: usize, figures: *mut [u64; 2]) -> u64;
        pub fn wk_plan_layers(order: *const u8, order_len: usize, consider: u64, sheet: *mut u8, sheet_len: usize, figures: *mut [u64; 2]) -> u64;
        pub fn wk_fill(sheet: *const u8, sheet_len: usize, fill: *mut u64) -> u64;
    }
}

/// A plan as the library writes it.
#[derive(Clone, Debug, PartialEq)]
pub struct Planned {
    /// the planned sheet, a load file
    pub file: Vec<u8>,
    /// how many boxes were considered
    pub considered: u64,
    /// the volume of the boxes placed by the container's
    pub utilization: f64,
}

/// The findings written into lent words, five a finding: how many there are. With [`Refusal::Room`] comes how many there is to be room for.
pub fn check_into(sheet: &[u8], findings: &mut [u64]) -> Result<usize, Refusal> {
    // Safe: both slices are whole, do not overlap, and are lent for the call only.
    Refusal::told(unsafe { linked::wk_check(sheet.as_ptr(), sheet.len(), findings.as_mut_ptr(), findings.len()) })
}

/// The findings on a sheet. It asks how much room they need, and then for them.
///
/// ```
/// use waikurpeho::{calls, Refusal};
///
/// assert_eq!(calls::check(b"no load file"), Err(Refusal::Shape));
/// ```
pub fn check(sheet: &[u8]) -> Result<Vec<Finding>, Refusal> {
    let mut words = Vec::new();
    let count = match check_into(sheet, &mut words) {
        Err(Refusal::Room { needed }) => {
            words = vec![0; needed * WORDS];
            check_into(sheet, &mut words)?
        }
        other => other?,
    };
    // it is proved that no finding has a number but 1 to 11, so none is left out here
    Ok(words.chunks_exact(WORDS).take(count).filter_map(|w| Finding::from_words(w.try_into().ok()?)).collect())
}

/// The planned sheet written into lent bytes: its length. The figures are the boxes considered and the utilization's bits. With [`Refusal::Room`]
/// comes the length needed; [`MOST_BYTES`] are always enough.
pub fn plan_into(placer: Placer, order: &[u8], consider: u64, sheet: &mut [u8], figures: &mut [u64; 2]) -> Result<usize, Refusal> {
    let call = match placer {
        Placer::Points => linked::wk_plan_points,
        Placer::Layers => linked::wk_plan_layers,
    };
    // Safe: as above.
    Refusal::told(unsafe { call(order.as_ptr(), order.len(), consider, sheet.as_mut_ptr(), sheet.len(), figures) })
}

/// The plan of an order over at most `consider` of its boxes.
pub fn plan(placer: Placer, order: &[u8], consider: u64) -> Result<Planned, Refusal> {
    let (mut file, mut figures) = (vec![0; MOST_BYTES], [0; 2]);
    let length = plan_into(placer, order, consider, &mut file, &mut figures)?;
    file.truncate(length);
    Ok(Planned { file, considered: figures[0], utilization: f64::from_bits(figures[1]) })
}

/// The fill per thousand of a sheet: the boxes' volume times 1,000 by the container's, rounded down.
pub fn fill(sheet: &[u8]) -> Result<u64, Refusal> {
    let mut fill = 0;
    // Safe: as above.
    Refusal::told(unsafe { linked::wk_fill(sheet.as_ptr(), sheet.len(), &mut fill) })?;
    Ok(fill)
}
