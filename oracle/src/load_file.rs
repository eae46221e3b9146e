//! Load file, form 1 (docs/RULES.md, Load file): sheets to bytes and back.

/// Bytes of the container block, of a kind, of a line and of the trailer.
pub const CONTAINER: usize = 48;
pub const KIND: usize = 44;
pub const LINE: usize = 40;
pub const ID: usize = 4;
pub const TRAILER: usize = 20;
/// The longest file whose shape is right.
pub const LONGEST: usize = 60_000;

/// A container block. A limit whose bits are all 0 means none.
#[derive(Debug, Clone, Copy, PartialEq)]
pub struct Container {
    pub size: [f64; 3],
    pub margin: f64,
    pub spacing: f64,
    pub limit: f64,
}

impl Container {
    /// The mass limit, if there is one.
    pub fn limit(&self) -> Option<f64> {
        (self.limit.to_bits() != 0).then_some(self.limit)
    }
}

/// A kind record, fields as they stand in the file.
#[derive(Debug, Clone, Copy, PartialEq)]
pub struct Kind {
    pub id: u32,
    pub quantity: u32,
    pub size: [f64; 3],
    pub mass: f64,
    pub rule: u8,
    pub massed: u8,
    pub filler: [u8; 2],
}

impl Kind {
    /// A kind without a mass.
    pub fn new(id: u32, quantity: u32, size: [f64; 3], rule: u8) -> Self {
        Self { id, quantity, size, mass: 0.0, rule, massed: 0, filler: [0, 0] }
    }

    /// The same kind with a mass.
    pub fn weighing(mut self, mass: f64) -> Self {
        self.mass = mass;
        self.massed = 1;
        self
    }

    /// The mass, if there is one.
    pub fn mass(&self) -> Option<f64> {
        (self.massed == 1).then_some(self.mass)
    }
}

/// A placement line.
#[derive(Debug, Clone, Copy, PartialEq)]
pub struct Line {
    pub id: u32,
    pub instance: u32,
    pub orientation: u32,
    pub bin: u32,
    pub at: [f64; 3],
}

/// A whole load sheet. An order is a sheet whose lines and unplaced ids don't matter.
#[derive(Debug, Clone, PartialEq)]
pub struct Sheet {
    pub container: Container,
    pub kinds: Vec<Kind>,
    pub lines: Vec<Line>,
    pub unplaced: Vec<u32>,
}

impl Sheet {
    /// A sheet of one container with no spacing, no margin and no limit, and nothing in it.
    pub fn empty(size: [f64; 3]) -> Self {
        let container = Container { size, margin: 0.0, spacing: 0.0, limit: 0.0 };
        Self { container, kinds: Vec::new(), lines: Vec::new(), unplaced: Vec::new() }
    }

    /// The total quantity over all kinds.
    pub fn total(&self) -> u64 {
        self.kinds.iter().map(|k| u64::from(k.quantity)).sum()
    }
}

fn put_f64s(out: &mut Vec<u8>, numbers: &[f64]) {
    for x in numbers {
        out.extend(x.to_bits().to_le_bytes());
    }
}

fn put_u32s(out: &mut Vec<u8>, numbers: &[u32]) {
    for n in numbers {
        out.extend(n.to_le_bytes());
    }
}

/// The 44 bytes of a kind record.
pub fn put_kind(out: &mut Vec<u8>, k: &Kind) {
    put_u32s(out, &[k.id, k.quantity]);
    put_f64s(out, &k.size);
    put_f64s(out, &[k.mass]);
    out.extend([k.rule, k.massed, k.filler[0], k.filler[1]]);
}

/// The bytes of any sheet, also of one that is refused.
pub fn encode(sheet: &Sheet) -> Vec<u8> {
    let mut out = Vec::new();
    let c = &sheet.container;
    put_f64s(&mut out, &c.size);
    put_f64s(&mut out, &[c.margin, c.spacing, c.limit]);
    for k in &sheet.kinds {
        put_kind(&mut out, k);
    }
    let lines = out.len();
    for l in &sheet.lines {
        put_u32s(&mut out, &[l.id, l.instance, l.orientation, l.bin]);
        put_f64s(&mut out, &l.at);
    }
    let unplaced = out.len();
    put_u32s(&mut out, &sheet.unplaced);
    let trailer = out.len();
    put_u32s(&mut out, &[CONTAINER as u32, lines as u32, unplaced as u32, trailer as u32]);
    out.extend([1, 0, 76, 83]);
    out
}

fn u32_at(bytes: &[u8], at: usize) -> u32 {
    u32::from_le_bytes(bytes[at..at + 4].try_into().unwrap())
}

fn f64_at(bytes: &[u8], at: usize) -> f64 {
    f64::from_bits(u64::from_le_bytes(bytes[at..at + 8].try_into().unwrap()))
}

fn three_at(bytes: &[u8], at: usize) -> [f64; 3] {
    [0, 8, 16].map(|i| f64_at(bytes, at + i))
}

/// The four starts, if the shape is right.
pub fn starts(bytes: &[u8]) -> Option<[usize; 4]> {
    let n = bytes.len();
    if n > LONGEST || n < TRAILER {
        return None;
    }
    let [kinds, lines, unplaced, trailer] = [20, 16, 12, 8].map(|back| u32_at(bytes, n - back) as usize);
    let ordered = kinds == CONTAINER && kinds <= lines && lines <= unplaced && unplaced <= trailer;
    let whole =
        ordered && (lines - kinds) % KIND == 0 && (unplaced - lines) % LINE == 0 && (trailer - unplaced) % ID == 0;
    let ends = trailer == n - TRAILER && bytes[n - 4..] == [1, 0, 76, 83];
    (whole && ends).then_some([kinds, lines, unplaced, trailer])
}

/// The 44 bytes at a place as a kind.
pub fn kind_at(bytes: &[u8], at: usize) -> Kind {
    let b = &bytes[at..at + KIND];
    Kind {
        id: u32_at(b, 0),
        quantity: u32_at(b, 4),
        size: three_at(b, 8),
        mass: f64_at(b, 32),
        rule: b[40],
        massed: b[41],
        filler: [b[42], b[43]],
    }
}

fn line_at(bytes: &[u8], at: usize) -> Line {
    let [id, instance, orientation, bin] = [0, 4, 8, 12].map(|i| u32_at(bytes, at + i));
    Line { id, instance, orientation, bin, at: three_at(bytes, at + 16) }
}

/// The sheet in a file whose shape is right; its content is not tested.
pub fn decode(bytes: &[u8]) -> Option<Sheet> {
    let [kinds, lines, unplaced, trailer] = starts(bytes)?;
    let container = Container {
        size: three_at(bytes, 0),
        margin: f64_at(bytes, 24),
        spacing: f64_at(bytes, 32),
        limit: f64_at(bytes, 40),
    };
    Some(Sheet {
        container,
        kinds: (kinds..lines).step_by(KIND).map(|at| kind_at(bytes, at)).collect(),
        lines: (lines..unplaced).step_by(LINE).map(|at| line_at(bytes, at)).collect(),
        unplaced: (unplaced..trailer).step_by(ID).map(|at| u32_at(bytes, at)).collect(),
    })
}
