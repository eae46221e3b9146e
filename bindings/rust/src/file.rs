//! The load file, form 1: orders and sheets as bytes.
//!
//! These parts in turn, without gaps. Numbers are little-endian, f64 is an IEEE 754 binary64 float.
//!
//! | part | at | bytes | field |
//! |---|---|---|---|
//! | container, 48 bytes | 0 | 8 | width, f64 |
//! | | 8 | 8 | depth, f64 |
//! | | 16 | 8 | height, f64 |
//! | | 24 | 8 | margin, f64 |
//! | | 32 | 8 | spacing, f64 |
//! | | 40 | 8 | mass limit, f64; all bits 0: none |
//! | each kind, 44 bytes | 0 | 4 | id, u32 |
//! | | 4 | 4 | quantity, u32 |
//! | | 8 | 24 | width, depth, height, f64 |
//! | | 32 | 8 | mass, f64; all bits 0 where there is none |
//! | | 40 | 1 | rule, u8: 0 any, 1 upright, 2 fixed |
//! | | 41 | 1 | mass flag, u8: 1 where there is a mass, else 0 |
//! | | 42 | 2 | filler, 0 |
//! | each line, 40 bytes | 0 | 4 | the kind's id, u32 |
//! | | 4 | 4 | instance, u32 |
//! | | 8 | 4 | orientation, u32 |
//! | | 12 | 4 | bin, u32 |
//! | | 16 | 24 | x, y, z, f64 |
//! | each unplaced id, 4 bytes | 0 | 4 | id, u32 |
//! | trailer, 20 bytes | 0 | 4 | where the kinds start, u32: 48 |
//! | | 4 | 4 | where the lines start, u32 |
//! | | 8 | 4 | where the unplaced ids start, u32 |
//! | | 12 | 4 | where the trailer starts, u32: the length less 20 |
//! | | 16 | 2 | form, u16: 1 |
//! | | 18 | 2 | the bytes 76 and 83 |
use crate::bounds::MOST_BYTES;
use crate::load::{Container, Kind, Line, Order, Rule, Sheet};

/// Bytes of the container.
pub const CONTAINER: usize = 48;
/// Bytes of each kind.
pub const KIND: usize = 44;
/// Bytes of each line.
pub const LINE: usize = 40;
/// Bytes of each unplaced id.
pub const UNPLACED: usize = 4;
/// Bytes of the trailer.
pub const TRAILER: usize = 20;
/// The trailer's end: the form, and the last two bytes.
pub const END: [u8; 4] = [1, 0, 76, 83];

impl Order {
    /// As a load file.
    pub fn to_bytes(&self) -> Vec<u8> {
        written(self, &[], &[])
    }
}

impl Sheet {
    /// As a load file. One that is too long for a load file is written all the same, and refused by its shape.
    pub fn to_bytes(&self) -> Vec<u8> {
        written(&self.order, &self.lines, &self.unplaced)
    }

    /// The sheet that a load file holds: none where the file's shape is wrong, or a kind's record is one that no [`Kind`] writes. Every file that a
    /// call accepts is read, and writing it gives the same bytes.
    ///
    /// ```
    /// use waikurpeho::{Container, Order, Sheet};
    ///
    /// let bytes = Order::new(Container::new(3.0, 2.0, 1.0)).to_bytes();
    /// assert_eq!(bytes.len(), 48 + 20);
    /// assert_eq!(Sheet::from_bytes(&bytes).unwrap().to_bytes(), bytes);
    /// assert_eq!(Sheet::from_bytes(&bytes[1..]), None);
    /// ```
    pub fn from_bytes(bytes: &[u8]) -> Option<Sheet> {
        let [kinds_at, lines_at, unplaced_at, trailer_at] = starts(bytes)?;
        let container = container(Fields(&bytes[..CONTAINER]));
        let kinds = records(&bytes[kinds_at..lines_at], KIND)?.map(|r| kind(Fields(r))).collect::<Option<_>>()?;
        let lines = records(&bytes[lines_at..unplaced_at], LINE)?.map(|r| line(Fields(r))).collect();
        let unplaced = records(&bytes[unplaced_at..trailer_at], UNPLACED)?.map(|r| Fields(r).u32()).collect();
        Some(Sheet { order: Order { container, kinds }, lines, unplaced })
    }
}

// ---- writing

fn written(order: &Order, lines: &[Line], unplaced: &[u32]) -> Vec<u8> {
    let (mut out, c) = (Vec::new(), &order.container);
    put_floats(&mut out, &[c.width, c.depth, c.height, c.margin, c.spacing, c.limit.unwrap_or(0.0)]);
    let kinds_at = out.len();
    for kind in &order.kinds {
        put_words(&mut out, &[kind.id, kind.quantity]);
        put_floats(&mut out, &kind.size);
        put_floats(&mut out, &[kind.mass.unwrap_or(0.0)]);
        out.extend([kind.rule as u8, kind.mass.is_some() as u8, 0, 0]);
    }
    let lines_at = out.len();
    for line in lines {
        put_words(&mut out, &[line.id, line.instance, line.orientation, line.bin]);
        put_floats(&mut out, &line.at);
    }
    let unplaced_at = out.len();
    put_words(&mut out, unplaced);
    let starts = [kinds_at, lines_at, unplaced_at, out.len()];
    put_words(&mut out, &starts.map(|start| start as u32));
    out.extend(END);
    out
}

fn put_floats(out: &mut Vec<u8>, values: &[f64]) {
    out.extend(values.iter().flat_map(|value| value.to_le_bytes()));
}

fn put_words(out: &mut Vec<u8>, values: &[u32]) {
    out.extend(values.iter().flat_map(|value| value.to_le_bytes()));
}

// ---- reading

/// Takes the fields of a record off its front, in turn. A record is as long as its fields together.
struct Fields<'a>(&'a [u8]);

impl Fields<'_> {
    fn take<const N: usize>(&mut self) -> [u8; N] {
        let (field, rest) = self.0.split_at(N);
        self.0 = rest;
        field.try_into().expect("as long as it was split")
    }

    fn u32(&mut self) -> u32 {
        u32::from_le_bytes(self.take())
    }

    fn f64(&mut self) -> f64 {
        f64::from_le_bytes(self.take())
    }

    fn triple(&mut self) -> [f64; 3] {
        [self.f64(), self.f64(), self.f64()]
    }
}

/// Where kinds, lines, unplaced ids and the trailer start, if they can be followed.
fn starts(bytes: &[u8]) -> Option<[usize; 4]> {
    if bytes.len() < CONTAINER + TRAILER || bytes.len() > MOST_BYTES {
        return None;
    }
    let mut end = Fields(&bytes[bytes.len() - TRAILER..]);
    let starts = [(); 4].map(|_| end.u32() as usize);
    let in_turn = starts[0] == CONTAINER && starts.windows(2).all(|w| w[0] <= w[1]) && starts[3] == bytes.len() - TRAILER;
    (in_turn && end.take() == END).then_some(starts)
}

fn records(part: &[u8], size: usize) -> Option<std::slice::ChunksExact<'_, u8>> {
    (part.len() % size == 0).then(|| part.chunks_exact(size))
}

fn container(mut fields: Fields<'_>) -> Container {
    let [width, depth, height] = fields.triple();
    let (margin, spacing, limit) = (fields.f64(), fields.f64(), fields.f64());
    Container { width, depth, height, margin, spacing, limit: (limit.to_bits() != 0).then_some(limit) }
}

fn kind(mut fields: Fields<'_>) -> Option<Kind> {
    let (id, quantity, size, mass) = (fields.u32(), fields.u32(), fields.triple(), fields.f64());
    let [rule, flag, filler @ ..] = fields.take::<4>();
    let rule = *[Rule::Any, Rule::Upright, Rule::Fixed].get(rule as usize)?;
    let mass = match (flag, mass.to_bits()) {
        (0, 0) => None,
        (1, _) => Some(mass),
        _ => return None,
    };
    (filler == [0, 0]).then_some(Kind { id, quantity, size, mass, rule })
}

fn line(mut fields: Fields<'_>) -> Line {
    let (id, instance, orientation, bin) = (fields.u32(), fields.u32(), fields.u32(), fields.u32());
    Line { id, instance, orientation, bin, at: fields.triple() }
}
