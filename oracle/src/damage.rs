//! Load files, right and damaged, with the refusal that the rules give each.
//!
//! The known ones carry a number written down here by hand; `samples` holds it against `refusals`.

use crate::load_file::{encode, Kind, Line, Sheet, CONTAINER, ID, KIND, LINE, LONGEST, TRAILER};
use crate::orders::{self, Scale};
use crate::random::{Random, NAN};
use crate::refusals::{MOST_BEFORE, MOST_BOXES, MOST_KINDS, MOST_LINES, MOST_UNPLACED};
use crate::sheets;

/// A file and its refusal (0: accepted).
pub type Known = (Vec<u8>, u32);

/// A small sheet with something in every section.
pub fn base() -> Sheet {
    let mut s = Sheet::empty([10.0, 20.0, 30.0]);
    s.container.margin = 0.5;
    s.container.spacing = 0.25;
    s.container.limit = 100.0;
    s.kinds = vec![
        Kind::new(7, 2, [4.0, 4.0, 4.0], 2).weighing(1.5),
        Kind::new(0, 1, [1.0, 2.0, 3.0], 0),
        Kind::new(4_294_967_295, 3, [0.1, 0.2, 0.3], 1).weighing(0.0),
    ];
    let line = |id, instance, x| Line { id, instance, orientation: 0, bin: 0, at: [x, -1.0, 0.5] };
    s.lines = vec![line(7, 0, 0.5), line(7, 1, -0.0), line(9, 0, 5.0)];
    s.unplaced = vec![0, 4_294_967_295];
    s
}

/// Every known file.
pub fn known() -> Vec<Known> {
    let mut all = vec![(encode(&base()), 0), (encode(&Sheet::empty([1.0; 3])), 0)];
    all.extend(lengths());
    all.extend(moved_starts());
    all.extend(falling_starts());
    all.extend(cut_sections());
    all.extend(endings());
    all.extend(counts());
    all.extend(floats());
    all.extend(records());
    all.extend(repeated_ids());
    all.extend(totals());
    all.extend(two_faults());
    all
}

fn put_u32(bytes: &mut [u8], at: usize, n: u32) {
    bytes[at..at + 4].copy_from_slice(&n.to_le_bytes());
}

/// The file with its four starts replaced.
fn with_starts(mut bytes: Vec<u8>, starts: [usize; 4]) -> Vec<u8> {
    let n = bytes.len();
    for (i, start) in starts.into_iter().enumerate() {
        put_u32(&mut bytes, n - TRAILER + 4 * i, start as u32);
    }
    bytes
}

/// Every length from 0 to 70: the first bytes of a right file, its last bytes, and a container block cut
/// or lengthened before a trailer that fits the length. Only 68 bytes of the last sort are a sheet.
fn lengths() -> Vec<Known> {
    let (right, empty) = (encode(&base()), encode(&Sheet::empty([1.0; 3])));
    let mut all = Vec::new();
    for n in 0..=70 {
        all.push((right[..n].to_vec(), 1));
        all.push((right[right.len() - n..].to_vec(), 1));
        if n >= TRAILER {
            let mut bytes = empty[..CONTAINER.min(n - TRAILER)].to_vec();
            bytes.resize(n - TRAILER, 0);
            bytes.extend(&empty[CONTAINER..]);
            all.push((with_starts(bytes, [48, 48, 48, n - TRAILER]), u32::from(n != 68)));
        }
    }
    all
}

/// Each start wrong by one either way, and at the ends of what it can hold.
fn moved_starts() -> Vec<Known> {
    let right = encode(&base());
    let starts = crate::load_file::starts(&right).unwrap();
    let mut all = Vec::new();
    for i in 0..4 {
        for wrong in [starts[i] - 1, starts[i] + 1, 0, u32::MAX as usize] {
            let mut moved = starts;
            moved[i] = wrong;
            all.push((with_starts(right.clone(), moved), 1));
        }
    }
    all
}

/// Starts that fall by whole records, so that only their order is wrong, and a first start off by a record.
fn falling_starts() -> Vec<Known> {
    let right = encode(&base());
    let [kinds, lines, unplaced, trailer] = crate::load_file::starts(&right).unwrap();
    [
        [kinds, kinds - KIND, kinds - KIND + LINE, trailer],
        [kinds, lines, lines - LINE, trailer],
        [kinds, lines, lines + 10 * LINE, trailer],
        [kinds, lines, trailer + ID, trailer],
        [kinds, trailer, unplaced, trailer],
        [kinds + KIND, lines, unplaced, trailer],
        [kinds - KIND, lines, unplaced, trailer],
        [lines, lines, unplaced, trailer],
    ]
    .into_iter()
    .map(|starts| (with_starts(right.clone(), starts), 1))
    .collect()
}

/// A section cut in the middle of a record, with the starts after it moved along.
fn cut_sections() -> Vec<Known> {
    let right = encode(&base());
    let starts = crate::load_file::starts(&right).unwrap();
    let mut all = Vec::new();
    for (section, cuts) in [(0, vec![1, 4, 22, 40, 43]), (1, vec![1, 4, 20, 39]), (2, vec![1, 2, 3])] {
        for cut in cuts {
            let mut bytes = right.clone();
            bytes.drain(starts[section + 1] - cut..starts[section + 1]);
            let mut moved = starts;
            for start in &mut moved[section + 1..] {
                *start -= cut;
            }
            all.push((with_starts(bytes, moved), 1));
        }
    }
    all
}

/// Wrong forms and wrong last bytes.
fn endings() -> Vec<Known> {
    let right = encode(&base());
    let n = right.len();
    [[0, 0, 76, 83], [2, 0, 76, 83], [1, 1, 76, 83], [0, 1, 76, 83], [1, 0, 75, 83], [1, 0, 77, 83]]
        .into_iter()
        .chain([[1, 0, 76, 82], [1, 0, 76, 84], [1, 0, 83, 76], [1, 0, 0, 0]])
        .map(|end| [&right[..n - 4], &end[..]].concat())
        .map(|bytes| (bytes, 1))
        .collect()
}

/// So many kinds, lines and ids.
fn sized(kinds: usize, lines: usize, ids: usize) -> Vec<u8> {
    let mut s = Sheet::empty([1e9; 3]);
    s.kinds = (0..kinds as u32).map(|id| Kind::new(id, 1, [1.0; 3], 0)).collect();
    let line = |id| Line { id, instance: 0, orientation: 0, bin: 0, at: [0.0; 3] };
    s.lines = (0..lines as u32).map(line).collect();
    s.unplaced = (0..ids as u32).collect();
    encode(&s)
}

/// Counts at their bounds and one past them.
fn counts() -> Vec<Known> {
    vec![
        (sized(MOST_KINDS, 0, 0), 0),
        (sized(MOST_KINDS + 1, 0, 0), 2),
        (sized(0, MOST_BEFORE + 1, 0), 0),
        (sized(0, MOST_LINES - 1, 0), 0),
        (sized(0, MOST_LINES, 0), 0),
        (sized(0, MOST_LINES + 1, 0), 2),
        (sized(0, 0, MOST_UNPLACED), 0),
        (sized(0, 0, MOST_UNPLACED + 1), 2),
        (sized(MOST_KINDS, MOST_LINES, MOST_UNPLACED), 0),
    ]
}

/// Files whose counts or totals are next to a bound.
pub fn bounds() -> Vec<Known> {
    [counts(), totals()].concat()
}

/// What makes a float field right.
#[derive(Clone, Copy)]
enum Range {
    Length,
    Measure,
    Limit,
    Position,
}

/// The least number above 0.
const LEAST: f64 = f64::from_bits(1);

/// Out of every range: NaNs, infinities, and the ends of what a float holds.
const NEVER: [f64; 7] = [
    NAN,
    f64::from_bits(0xFFF8_0000_0000_0000),
    f64::from_bits(0x7FF0_0000_0000_0001),
    f64::INFINITY,
    f64::NEG_INFINITY,
    f64::MAX,
    f64::MIN,
];

/// The values to try in a field, each with whether it is in range: at the bounds and one step outside them.
fn values(range: Range) -> Vec<(f64, bool)> {
    let (right, wrong) = match range {
        Range::Length => (vec![1e-6, 1e9], vec![1e-6_f64.next_down(), 0.0, -0.0, LEAST, -1.0, 1e9_f64.next_up()]),
        Range::Measure => (vec![0.0, LEAST, 1e9], vec![-0.0, -LEAST, 1e9_f64.next_up()]),
        Range::Limit => (vec![0.0, LEAST, 1e12], vec![-0.0, -LEAST, 1e12_f64.next_up()]),
        Range::Position => (vec![0.0, -0.0, -LEAST, 1e9, -1e9], vec![1e9_f64.next_up(), (-1e9_f64).next_down()]),
    };
    let right = right.into_iter().chain([1.0]).map(|x| (x, true));
    right.chain(wrong.into_iter().chain(NEVER).map(|x| (x, false))).collect()
}

type Field = fn(&mut Sheet) -> &mut f64;

/// Every float field: the container's six, the four of the first and of the last kind, the three of
/// the first and of the last line.
const FIELDS: [(Field, Range); 20] = [
    (|s| &mut s.container.size[0], Range::Length),
    (|s| &mut s.container.size[1], Range::Length),
    (|s| &mut s.container.size[2], Range::Length),
    (|s| &mut s.container.margin, Range::Measure),
    (|s| &mut s.container.spacing, Range::Measure),
    (|s| &mut s.container.limit, Range::Limit),
    (|s| &mut s.kinds[0].size[0], Range::Length),
    (|s| &mut s.kinds[0].size[1], Range::Length),
    (|s| &mut s.kinds[0].size[2], Range::Length),
    (|s| &mut s.kinds[0].mass, Range::Measure),
    (|s| &mut s.kinds[2].size[0], Range::Length),
    (|s| &mut s.kinds[2].size[1], Range::Length),
    (|s| &mut s.kinds[2].size[2], Range::Length),
    (|s| &mut s.kinds[2].mass, Range::Measure),
    (|s| &mut s.lines[0].at[0], Range::Position),
    (|s| &mut s.lines[0].at[1], Range::Position),
    (|s| &mut s.lines[0].at[2], Range::Position),
    (|s| &mut s.lines[2].at[0], Range::Position),
    (|s| &mut s.lines[2].at[1], Range::Position),
    (|s| &mut s.lines[2].at[2], Range::Position),
];

/// The places in that table of the last kind and the last line.
const LAST: [usize; 7] = [10, 11, 12, 13, 17, 18, 19];

fn floats() -> Vec<Known> {
    let mut all = Vec::new();
    for (i, (field, range)) in FIELDS.into_iter().enumerate() {
        for (value, right) in values(range) {
            let mut s = base();
            // The fields of a last record need the others before it; the rest do with one of each.
            if !LAST.contains(&i) {
                s.kinds.truncate(1);
                s.lines.truncate(1);
            }
            *field(&mut s) = value;
            all.push((encode(&s), if right { 0 } else { 3 }));
        }
    }
    all
}

/// Faults of a record itself, at the first and at the last kind; kind 1 has no mass.
fn records() -> Vec<Known> {
    let changed = |place: usize, change: &dyn Fn(&mut Kind)| {
        let mut s = base();
        change(&mut s.kinds[place]);
        encode(&s)
    };
    let mut all = Vec::new();
    for place in [0, 2] {
        all.push((changed(place, &|k| k.quantity = 0), 4));
        for wrong in [3, 255] {
            all.push((changed(place, &|k| k.rule = wrong), 4));
        }
        for wrong in [2, 255] {
            all.push((changed(place, &|k| k.massed = wrong), 4));
        }
        for filler in [[1, 0], [0, 1], [0, 255], [128, 0]] {
            all.push((changed(place, &|k| k.filler = filler), 4));
        }
    }
    for bits in [1, 0x3FF0_0000_0000_0000, 0x8000_0000_0000_0000, 0x7FF8_0000_0000_0000] {
        all.push((changed(1, &|k| k.mass = f64::from_bits(bits)), 4));
    }
    all.push((changed(0, &|k| k.massed = 0), 4));
    all.push((changed(2, &|k| k.massed = 0), 0));
    all.push((changed(1, &|k| k.massed = 1), 0));
    all.push((changed(1, &|k| *k = k.weighing(-0.0)), 3));
    for rule in 0..3 {
        all.push((changed(0, &|k| k.rule = rule), 0));
    }
    all
}

/// Equal ids in first, middle and last place.
fn repeated_ids() -> Vec<Known> {
    [[0, 1], [0, 2], [1, 2]]
        .into_iter()
        .map(|[i, j]| {
            let mut s = base();
            s.kinds[j].id = s.kinds[i].id;
            (encode(&s), 5)
        })
        .chain([{
            let mut s = base();
            s.kinds.iter_mut().for_each(|k| k.id = 5);
            (encode(&s), 5)
        }])
        .collect()
}

/// Totals at the bound, past it, and past what 32 bits hold.
fn totals() -> Vec<Known> {
    let of = |quantities: &[u32]| {
        let mut s = Sheet::empty([10.0; 3]);
        let kind = |(id, &q): (usize, &u32)| Kind::new(id as u32, q, [1.0; 3], 0);
        s.kinds = quantities.iter().enumerate().map(kind).collect();
        encode(&s)
    };
    let half = 1 << 31;
    let most = MOST_BOXES as u32;
    vec![
        (of(&[MOST_BEFORE as u32 + 1]), 0),
        (of(&[most - 1]), 0),
        (of(&[most]), 0),
        (of(&[most + 1]), 2),
        (of(&[1, most - 1]), 0),
        (of(&[most - 1, 1, 1]), 2),
        (of(&[most / MOST_KINDS as u32; MOST_KINDS]), 0),
        (of(&[u32::MAX, 2]), 2),
        (of(&[half, half]), 2),
        (of(&[half, half, 1]), 2),
        (of(&[u32::MAX]), 2),
        (of(&[u32::MAX; MOST_KINDS]), 2),
    ]
}

type Fault = (u32, fn(&mut Sheet));

/// One fault of each sort and place, in the order in which the rules test them.
const FAULTS: [Fault; 12] = [
    (2, |s| s.unplaced = (0..=MOST_UNPLACED as u32).collect()),
    (3, |s| s.container.margin = NAN),
    (3, |s| s.container.limit = -1.0),
    (4, |s| s.kinds[0].rule = 3),
    (3, |s| s.kinds[0].size[2] = 0.0),
    (4, |s| s.kinds[1].filler[1] = 9),
    (3, |s| s.kinds[1].size[0] = 2e9),
    (5, |s| s.kinds[1].id = 7),
    (4, |s| s.kinds[2].massed = 7),
    (3, |s| s.kinds[2].size[1] = f64::INFINITY),
    (2, |s| s.kinds[1].quantity = MOST_BOXES as u32 + 44),
    (3, |s| s.lines[1].at[0] = 2e9),
];

/// Two faults at once, each pair of them: the one tested first decides. And each with a wrong shape.
fn two_faults() -> Vec<Known> {
    let mut all = Vec::new();
    for i in 0..FAULTS.len() {
        let mut shape = base();
        FAULTS[i].1(&mut shape);
        let mut bytes = encode(&shape);
        all.push((bytes.clone(), FAULTS[i].0));
        let n = bytes.len();
        bytes[n - 1] ^= 1;
        all.push((bytes, 1));
        for j in i + 1..FAULTS.len() {
            let mut s = base();
            FAULTS[j].1(&mut s);
            FAULTS[i].1(&mut s);
            all.push((encode(&s), FAULTS[i].0));
        }
    }
    all
}

/// A file of so many bytes, nearly all of them unplaced ids.
pub fn long(n: usize) -> Vec<u8> {
    let mut bytes = encode(&Sheet::empty([1.0; 3]));
    let end = bytes.split_off(CONTAINER);
    bytes.resize(n - TRAILER, 0);
    bytes.extend(end);
    with_starts(bytes, [48, 48, 48, n - TRAILER])
}

/// 60,000 bytes of a right shape (too many ids), one byte more, and four more, where only the length is wrong.
pub fn longest() -> Vec<Known> {
    vec![(long(LONGEST), 2), (long(LONGEST + 1), 1), (long(LONGEST + 4), 1)]
}

/// A file damaged at random: none, one or several changes.
pub fn random(r: &mut Random, case: u64) -> Vec<u8> {
    let mut s = match r.below(3) {
        0 => base(),
        1 => orders::order(r, case, Scale::Small),
        _ => sheets::sheet(r, case),
    };
    if s.kinds.len() > 1 && r.once_in(4) {
        let i = r.below(s.kinds.len() as u64) as usize;
        s.kinds[i].id = s.kinds[0].id;
    }
    let mut bytes = encode(&s);
    for _ in 0..r.below(4) {
        hurt(r, &mut bytes);
    }
    bytes
}

/// One change to the bytes.
fn hurt(r: &mut Random, bytes: &mut Vec<u8>) {
    let n = bytes.len() as u64;
    if n < 68 {
        return;
    }
    let most = MOST_BOXES as u32;
    let specials = [0.0, -0.0, 1e-6, 1e9, 1e12, -1.0, NAN, f64::INFINITY, 5e-324, 1e300];
    match r.below(9) {
        0 => bytes[r.below(n) as usize] ^= 1 << r.below(8),
        1 | 2 => {
            // A float field's place, if the file has not been cut.
            let at = (r.below((n - 8) / 4) * 4) as usize;
            bytes[at..at + 8].copy_from_slice(&r.pick(&specials).to_bits().to_le_bytes());
        }
        3 => put_u32(bytes, (r.below((n - 4) / 4) * 4) as usize, r.pick(&[0, 1, most - 1, most, most + 1, u32::MAX])),
        4 => bytes.truncate(r.below(n) as usize),
        5 => bytes.extend((0..r.from_to(1, 8)).map(|i| i as u8)),
        6 => {
            let at = r.below(n - 4) as usize;
            bytes.drain(at..at + r.from_to(1, 4) as usize);
        }
        7 => {
            let at = n as usize - TRAILER + 4 * r.below(4) as usize;
            let old = u32::from_le_bytes(bytes[at..at + 4].try_into().unwrap());
            let by = r.pick(&[-44, -40, -4, -1, 1, 4, 40, 44]);
            put_u32(bytes, at, old.wrapping_add_signed(by));
        }
        _ => {
            let at = r.below(n) as usize;
            bytes[at] = r.next() as u8;
        }
    }
}
