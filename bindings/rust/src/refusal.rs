//! Why a call was refused.
use std::{error, fmt};

/// Why a call was refused. Nothing was changed then.
///
/// The first that holds is given, tested in this order: `Shape`; `Count` for the counts; `Range` for the container; for each kind in turn `Record`,
/// `Range`, `RepeatedId`; `Count` for the total quantity; `Range` for each line in turn; `Uneven`; `Room`.
///
/// ```
/// use waikurpeho::{Container, Kind, Order, Placer, Refusal};
///
/// let mut order = Order::new(Container::new(10.0, 10.0, 10.0));
/// order.kinds.push(Kind::new(7, 1, [4.0, 4.0, 0.0]));
/// let refusal = order.plan(Placer::Points).unwrap_err();
/// assert_eq!((refusal, refusal.number()), (Refusal::Range, 3));
/// assert_eq!(refusal.to_string(), "refused 3: a measure or a position is outside its range");
/// ```
#[derive(Clone, Copy, Debug, PartialEq, Eq, Hash)]
pub enum Refusal {
    /// 1: the load file's shape is wrong.
    Shape,
    /// 2: a count or the total quantity is over its bound.
    Count,
    /// 3: a measure or a position is outside its range. -0 is in range as a position only.
    Range,
    /// 4: a kind has quantity 0, or its record a wrong rule, mass flag, filler or mass.
    Record,
    /// 5: an id repeats an earlier kind's.
    RepeatedId,
    /// 6: too little room was lent.
    Room {
        /// the slots for findings, or the bytes for a sheet, that are needed
        needed: usize,
    },
    /// 8: the fill is asked, and a length isn't whole or is over [`MOST_SIDE`](crate::bounds::MOST_SIDE).
    Uneven,
    /// 7 and 9 are for calls that are not at this boundary; no call here gives another number.
    Other(u32),
}

impl Refusal {
    /// Its number.
    pub fn number(self) -> u32 {
        match self {
            Refusal::Shape => 1,
            Refusal::Count => 2,
            Refusal::Range => 3,
            Refusal::Record => 4,
            Refusal::RepeatedId => 5,
            Refusal::Room { .. } => 6,
            Refusal::Uneven => 8,
            Refusal::Other(number) => number,
        }
    }

    /// The count that an answer holds, or the refusal: the number times 2^32, plus the count.
    pub(crate) fn told(answer: u64) -> Result<usize, Refusal> {
        let count = answer as u32 as usize;
        Err(match (answer >> 32) as u32 {
            0 => return Ok(count),
            1 => Refusal::Shape,
            2 => Refusal::Count,
            3 => Refusal::Range,
            4 => Refusal::Record,
            5 => Refusal::RepeatedId,
            6 => Refusal::Room { needed: count },
            8 => Refusal::Uneven,
            number => Refusal::Other(number),
        })
    }
}

impl fmt::Display for Refusal {
    fn fmt(&self, f: &mut fmt::Formatter<'_>) -> fmt::Result {
        write!(f, "refused {}: ", self.number())?;
        match self {
            Refusal::Shape => write!(f, "the shape of the load file is wrong"),
            Refusal::Count => write!(f, "a count or the total quantity is over its bound"),
            Refusal::Range => write!(f, "a measure or a position is outside its range"),
            Refusal::Record => write!(f, "a kind has quantity 0, or its record has a wrong rule, mass flag, filler or mass"),
            Refusal::RepeatedId => write!(f, "an id repeats an earlier kind's"),
            Refusal::Room { needed } => write!(f, "too little room is lent, and {needed} are needed"),
            Refusal::Uneven => write!(f, "a length of the container or of a kind is not whole or is too long, so there is no fill per thousand"),
            Refusal::Other(_) => write!(f, "a number that no call of this boundary gives"),
        }
    }
}

impl error::Error for Refusal {}
