//! How sharp the samples are: `sharpness SOURCES SAMPLES [WORD]`.
//!
//! SOURCES is the folder that holds `d3/src`, SAMPLES the folder of the sample files. Each edit below
//! is made to a copy of the Rust, the samples are made again with it, and the cases that come out
//! differently are counted. An edit that no case shows is an error the samples would let through.
//! With a WORD, only edits whose file or text holds it are tried.

use std::fs;
use std::path::Path;
use std::process::Command;

/// A file, the text to find, which of its occurrences (0: all), and what to put there.
type Edit = (&'static str, &'static str, usize, &'static str);

const POINTS: &[Edit] = &[
    ("extreme_point", "self.container.x - m + EPS", 1, "self.container.x - m"),
    ("extreme_point", "self.container.y - m + EPS", 1, "self.container.y - m + EPS + EPS"),
    ("extreme_point", "self.container.z - m + EPS", 1, "self.container.z - m"),
    ("extreme_point", "self.container.z - m + EPS", 1, "self.container.z - (m - EPS)"),
    ("extreme_point", "max.x > self.container.x", 1, "max.x >= self.container.x"),
    ("extreme_point", "bmax.x + s - EPS", 1, "bmax.x + s"),
    ("extreme_point", "bmax.y + s - EPS", 1, "bmax.y + s - EPS - EPS"),
    ("extreme_point", "bmax.z + s - EPS", 1, "bmax.z + s"),
    ("extreme_point", "bmax.x + s - EPS", 1, "bmax.x + (s - EPS)"),
    ("extreme_point", "b.position.x - s + EPS", 1, "b.position.x - s"),
    ("extreme_point", "b.position.y - s + EPS", 1, "b.position.y - s"),
    ("extreme_point", "b.position.z - s + EPS", 1, "b.position.z - s"),
    ("extreme_point", "b.position.y - s + EPS", 1, "b.position.y - (s - EPS)"),
    ("extreme_point", "container_max.x - 1e-9", 0, "container_max.x"),
    ("extreme_point", "container_max.y - 1e-9", 0, "container_max.y"),
    ("extreme_point", "container_max.z - 1e-9", 0, "container_max.z - 2e-9"),
    ("extreme_point", "placed.max_corner() + Vector3::new(self.spacing, self.spacing, self.spacing)", 1,
     "placed.position + (placed.dimensions + Vector3::new(self.spacing, self.spacing, self.spacing))"),
    ("extreme_point", "if ep.position.x > placed.position.x + 1e-9", 1, "if false && ep.position.x > placed.position.x + 1e-9"),
    ("extreme_point", "if ep.position.x > placed.position.x + 1e-9", 1, "if ep.position.x > placed.position.x + 1e-8"),
    ("extreme_point", "if ep.position.x > placed.position.x + 1e-9", 1, "if true"),
    ("extreme_point", "ep.position.x < max.x - 1e-9", 1, "true"),
    ("extreme_point", "ep.position.y > placed.position.y + 1e-9", 1, "true"),
    ("extreme_point", "ep.position.y < max.y - 1e-9", 1, "true"),
    ("extreme_point", "ep.position.z > placed.position.z + 1e-9", 1, "true"),
    ("extreme_point", "ep.position.z < max.z - 1e-9", 1, "true"),
    ("extreme_point", "ep.position.y > placed.position.y + 1e-9", 1, "ep.position.y > placed.position.y - 1e-9"),
    ("extreme_point", "ep.position.z > placed.position.z + 1e-9", 1, "ep.position.z > placed.position.z - 1e-9"),
    ("extreme_point", "ep.position.y < max.y - 1e-9", 1, "ep.position.y < max.y + 1e-9"),
    ("extreme_point", "ep.position.z < max.z - 1e-9", 1, "ep.position.z < max.z"),
    ("extreme_point", "for ep in candidates {\n            self.points.push(OrderedEP(ep));", 1,
     "for ep in candidates {\n            if !self.points.iter().any(|p| p.0 == ep) { self.points.push(OrderedEP(ep)); }"),
    ("extreme_point", ".position(|ep| self.fits_at", 1, ".rposition(|ep| self.fits_at"),
    ("extreme_point", "candidates.remove(idx)", 1, "candidates[idx]"),
    ("extreme_point", "if z_cmp != Ordering::Equal {", 1, "if false {"),
    ("extreme_point", "if y_cmp != Ordering::Equal {", 1, "if false {"),
    ("extreme_point", "b.2.partial_cmp(&a.2)", 1, "a.2.partial_cmp(&b.2)"),
    ("extreme_point", "b.2.partial_cmp(&a.2).unwrap_or(Ordering::Equal)", 1,
     "b.2.partial_cmp(&a.2).unwrap_or(Ordering::Equal).then(b.0.cmp(&a.0))"),
    ("extreme_point", "b.2.partial_cmp(&a.2).unwrap_or(Ordering::Equal)", 1,
     "(b.2 as f32).partial_cmp(&(a.2 as f32)).unwrap_or(Ordering::Equal)"),
    ("extreme_point", "+ item_mass > max", 1, "+ item_mass >= max"),
    ("extreme_point", "+ item_mass > max", 1, "+ item_mass > max + 1e-9"),
    ("extreme_point", "                continue;\n            }\n        }\n\n        // Try each", 1,
     "                break;\n            }\n        }\n\n        // Try each"),
    ("extreme_point", "0..geom.allowed_orientations().len()", 1, "(0..geom.allowed_orientations().len()).rev()"),
    ("extreme_point", "                placed = true;\n                break;", 1, "                placed = true;"),
    ("extreme_point", "b.dimensions.x * b.dimensions.y * b.dimensions.z", 1, "b.dimensions.z * b.dimensions.y * b.dimensions.x"),
    ("extreme_point", "other_max.x - 1e-9", 1, "other_max.x"),
    ("extreme_point", "self_max.y - 1e-9", 1, "self_max.y"),
    ("extreme_point", "self.position.z >= other_max.z", 1, "self.position.z > other_max.z"),
    ("extreme_point", "!(no_overlap_x || no_overlap_y || no_overlap_z)", 1, "!(no_overlap_x || no_overlap_y && no_overlap_z)"),
];

const LAYERS: &[Edit] = &[
    ("packing_utils", "c.x + w > self.max[0]", 1, "c.x + w >= self.max[0]"),
    ("packing_utils", "c.y + d > self.max[1]", 1, "c.y + d >= self.max[1]"),
    ("packing_utils", "c.x + w > self.max[0]", 0, "c.x + w > self.max[0] + 1e-9"),
    ("packing_utils", "c.y + d > self.max[1]", 0, "c.y + d > self.max[1] + 1e-9"),
    ("packing_utils", "c.z + h > self.max[2]", 1, "c.z + h > self.max[2] + 1e-9"),
    ("packing_utils", "c.z + h > self.max[2]", 1, "c.z + h >= self.max[2]"),
    ("packing_utils", "c.x + w > self.max[0] ||", 1, "false ||"),
    ("packing_utils", "|| c.y + d > self.max[1] ||", 1, "||"),
    ("packing_utils", "c.y += c.row_depth + self.spacing", 1, "c.y = c.y + c.row_depth + self.spacing"),
    ("packing_utils", "c.z += c.layer_height + self.spacing", 1, "c.z = c.z + c.layer_height + self.spacing"),
    ("packing_utils", "c.x + w + self.spacing", 1, "c.x + (w + self.spacing)"),
    ("packing_utils", "            c.row_depth = 0.0;\n", 1, ""),
    ("packing_utils", "            c.row_depth = 0.0;\n", 2, ""),
    ("packing_utils", "            c.layer_height = 0.0;\n", 1, ""),
    (
        "packing_utils",
        "            c.x = self.margin;\n            c.y = self.margin;",
        1,
        "            c.y = self.margin;",
    ),
    ("packing_utils", "boundary.width() - margin", 1, "boundary.width()"),
    ("packing_utils", "|(_, _, b)| s < b", 1, "|(_, _, b)| s <= b"),
    ("packing_utils", "height * 0.1", 1, "height / 10.0"),
    ("packing_utils", "spot.y * 1000.0 + spot.x + height * 0.1", 1, "spot.y * 1000.0 + (spot.x + height * 0.1)"),
    (
        "packing_utils",
        "spot.z * 1_000_000.0 + spot.y * 1000.0 + spot.x",
        1,
        "spot.z * 1_000_000.0 + (spot.y * 1000.0 + spot.x)",
    ),
    ("packing_utils", "spot.z * 1_000_000.0", 1, "spot.z * 1_000.0"),
    ("packing_utils", " + height * 0.1", 1, ""),
    ("packing_utils", "self.mass + mass <= max_mass", 1, "self.mass + mass < max_mass"),
    ("packing_utils", "self.mass + mass <= max_mass", 1, "self.mass + mass <= max_mass + 1e-9"),
    ("packing_utils", "if !self.mass_allows(geom)", 1, "if false"),
    ("packing_utils", "if !self.mass_allows(geom)", 2, "if false"),
    ("packing_utils", "            None => false,", 1, "            None => { self.cursor.x = self.margin; false }"),
    ("packing_utils", "c.row_depth.max(d)", 1, "d"),
    ("packing_utils", "c.layer_height.max(h)", 1, "h"),
    (
        "packing_utils",
        "item.orientation_idx % info.orientation_count.max(1)",
        1,
        "item.orientation_idx % geom.allowed_orientations().len()",
    ),
    ("packing_utils", "item.orientation_idx % info.orientation_count.max(1)", 1, "item.orientation_idx"),
    ("packing_utils", "info.orientation_count.max(1)", 1, "info.orientation_count.max(2)"),
    ("packing_utils", "else {\n            continue;\n        };", 1, "else {\n            break;\n        };"),
    (
        "packing_utils",
        "placements\n        .iter()\n        .map(|p| {",
        1,
        "placements\n        .iter()\n        .rev()\n        .map(|p| {",
    ),
    ("packing_utils", "total_count.max(1)", 1, "total_count.max(2)"),
    (
        "packing_utils",
        "placement_ratio * 100.0 + utilization * 10.0",
        1,
        "(placement_ratio * 10.0 + utilization) * 10.0",
    ),
    (
        "packing_utils",
        "let placement_ratio = placed_count as f64 / total_count.max(1) as f64;\n    placement_ratio * 100.0",
        1,
        "placed_count as f64 * 100.0 / total_count.max(1) as f64",
    ),
];

const CHECK: &[Edit] = &[
    ("check", "m.max(v.abs())) + 1e-9", 1, "m.max(v.abs()))"),
    ("check", "fold(1.0_f64", 1, "fold(0.0_f64"),
    ("check", "1e-9 * size.iter().fold(1.0_f64, |m, v| m.max(v.abs())) + 1e-9", 1, "1e-9"),
    ("check", "p.instance >= geom.quantity()", 1, "p.instance > geom.quantity()"),
    ("check", "        mass += geom.mass().unwrap_or(0.0);", 1,
     "        if p.instance < geom.quantity() { mass += geom.mass().unwrap_or(0.0); }"),
    ("check", "        } else if !seen.insert((id, p.instance)) {", 1,
     "        } else if !seen.insert((id, p.instance)) { mass -= geom.mass().unwrap_or(0.0);"),
    ("check", "        boxes.push(Some((min, max)));", 1,
     "        if p.boundary_index > 0 { boxes.push(None); } else { boxes.push(Some((min, max))); }"),
    ("check", "        boxes.push(Some((min, max)));", 1,
     "        if p.instance >= geom.quantity() { boxes.push(None); } else { boxes.push(Some((min, max))); }"),
    ("check", "orientation >= geom.allowed_orientations().len()", 1, "orientation > geom.allowed_orientations().len()"),
    ("check", "p.boundary_index > 0", 1, "p.boundary_index > 1"),
    ("check", "rules.margin - tolerance && max", 1, "rules.margin && max"),
    ("check", "rules.margin - tolerance && max", 1, "rules.margin - 1e-9 && max"),
    ("check", "min[a] >= rules.margin", 1, "min[a] > rules.margin"),
    ("check", "size[a] - rules.margin + tolerance", 1, "size[a] - rules.margin"),
    ("check", "size[a] - rules.margin + tolerance", 1, "size[a] - (rules.margin - tolerance)"),
    ("check", "max[a] <= size[a]", 1, "max[a] < size[a]"),
    ("check", "(0..3).all(|a| {\n            min[a]", 1, "(0..2).all(|a| {\n            min[a]"),
    ("check", "g < -tolerance", 1, "g <= -tolerance"),
    ("check", "g < -tolerance", 1, "g < 0.0"),
    ("check", "gap.iter().all(", 1, "gap.iter().take(2).all("),
    ("check", "(b_min[a] - a_max[a]).max(a_min[a] - b_max[a])", 1, "b_min[a] - a_max[a]"),
    ("check", "                continue;\n            }\n            let distance", 1, "            }\n            let distance"),
    ("check", "gap.iter().map(|g| g.max(0.0).powi(2)).sum::<f64>().sqrt()", 1,
     "gap.iter().rev().map(|g| g.max(0.0).powi(2)).sum::<f64>().sqrt()"),
    ("check", "gap.iter().map(|g| g.max(0.0).powi(2)).sum::<f64>().sqrt()", 1,
     "gap[0].max(0.0).hypot(gap[1].max(0.0)).hypot(gap[2].max(0.0))"),
    ("check", "gap.iter().map(|g| g.max(0.0).powi(2)).sum::<f64>().sqrt()", 1,
     "gap.iter().fold(0.0_f64, |s, g| g.max(0.0).mul_add(g.max(0.0), s)).sqrt()"),
    ("check", "distance < rules.spacing - tolerance", 1, "distance + tolerance < rules.spacing"),
    ("check", "distance < rules.spacing - tolerance", 1, "distance <= rules.spacing - tolerance"),
    ("check", "distance < rules.spacing - tolerance", 1, "distance < rules.spacing"),
    ("check", "distance < rules.spacing - tolerance", 1,
     "rules.spacing > tolerance && gap.iter().map(|g| g.max(0.0).powi(2)).sum::<f64>() < (rules.spacing - tolerance).powi(2)"),
    ("check", "mass > max_mass + tolerance", 1, "mass - tolerance > max_mass"),
    ("check", "mass > max_mass + tolerance", 1, "mass >= max_mass + tolerance"),
    ("check", "mass > max_mass + tolerance", 1, "mass > max_mass"),
    ("check", "&& !reported.contains(id)", 1, ""),
    ("check", "|| complete ||", 1, "||"),
    ("check", "|| !listed.insert(id.as_str())", 1, "|| { listed.insert(id.as_str()); false }"),
    ("check", "!by_id.contains_key(id.as_str()) || complete", 1, "complete"),
    ("check", ".skip(i + 1)", 1, ".skip(i + 2)"),
];

const MEASURES: &[Edit] = &[
    ("geometry", "                (0, 2, 1),", 1, "                (1, 0, 2),"),
    ("geometry", "                (1, 2, 0),", 1, "                (2, 0, 1),"),
    ("geometry", "vec![(0, 1, 2), (1, 0, 2)]", 1, "vec![(0, 1, 2), (0, 2, 1)]"),
    (
        "geometry",
        "            return self.dimensions;",
        1,
        "            return self.dimensions_for_orientation(0) + self.dimensions;",
    ),
    (
        "geometry",
        "self.dimensions.x * self.dimensions.y * self.dimensions.z",
        1,
        "self.dimensions.z * self.dimensions.y * self.dimensions.x",
    ),
    (
        "boundary",
        "self.dimensions.x * self.dimensions.y * self.dimensions.z",
        1,
        "self.dimensions.x * (self.dimensions.y * self.dimensions.z)",
    ),
];

/// The text with one occurrence replaced, or all of them.
fn edited(text: &str, (file, old, which, new): &Edit) -> String {
    let parts: Vec<&str> = text.split(old).collect();
    assert!(parts.len() > *which, "{file} has no such place: {old}");
    if *which == 0 {
        return parts.join(new);
    }
    [parts[..*which].join(old), parts[*which..].join(old)].join(new)
}

/// The cases of a sample file.
fn cases(bytes: &[u8]) -> Vec<&[u8]> {
    let number = |at: usize| u32::from_le_bytes(bytes[at..at + 4].try_into().unwrap()) as usize;
    let mut at = 4;
    let mut all = Vec::new();
    while at < bytes.len() {
        let size = number(at + 4);
        all.push(&bytes[at..at + 8 + size]);
        at += 8 + size;
    }
    all
}

/// Makes the samples with the edited Rust; false if it doesn't build or doesn't end well.
fn remake(sources: &Path, out: &Path) -> bool {
    let here = env!("CARGO_MANIFEST_DIR");
    Command::new("cargo")
        .args(["run", "--quiet", "--profile", "quick", "--bin", "samples", "--target-dir", "target/sharpness", "--"])
        .arg(out)
        .current_dir(here)
        .env("UNESTING_SRC", sources)
        .output()
        .is_ok_and(|done| done.status.success())
}

/// Tries one edit and says which samples show it.
fn attempt(edit: &Edit, sources: &Path, samples: &Path, work: &Path) -> String {
    let (from, to) = (sources.join("d3/src"), work.join("d3/src"));
    fs::create_dir_all(&to).unwrap();
    for file in ["boundary", "geometry", "extreme_point", "packing_utils", "check"] {
        let name = format!("{file}.rs");
        let text = fs::read_to_string(from.join(&name)).unwrap();
        let text = if file == edit.0 { edited(&text, edit) } else { text };
        fs::write(to.join(&name), text).unwrap();
    }
    let out = work.join("samples");
    fs::create_dir_all(&out).unwrap();
    if !remake(work, &out) {
        return "does not build or run".to_string();
    }
    let mut shown = Vec::new();
    for (name, ..) in oracle::samples::ALL {
        let file = format!("{name}.bin");
        let (right, wrong) = (fs::read(samples.join(&file)).unwrap(), fs::read(out.join(&file)).unwrap());
        let differ = cases(&right).iter().zip(cases(&wrong)).filter(|(a, b)| *a != b).count();
        if differ > 0 {
            shown.push(format!("{name} {differ}"));
        }
    }
    if shown.is_empty() {
        "NOT SHOWN".to_string()
    } else {
        shown.join(", ")
    }
}

fn main() {
    let words: Vec<String> = std::env::args().skip(1).collect();
    if words.len() < 2 {
        eprintln!("usage: sharpness SOURCES SAMPLES [WORD]");
        std::process::exit(2);
    }
    let full = |path: &String| fs::canonicalize(path).expect("the folder is there");
    let (sources, samples) = (full(&words[0]), full(&words[1]));
    let work = std::env::temp_dir().join(format!("sharpness-{}", std::process::id()));
    let wanted = |e: &&Edit| words.get(2).is_none_or(|w| e.0 == w || e.1.contains(w.as_str()));
    for edit in [POINTS, LAYERS, CHECK, MEASURES].into_iter().flatten().filter(wanted) {
        let verdict = attempt(edit, &sources, &samples, &work);
        println!("{}: {:?} -> {:?}\n    {verdict}", edit.0, edit.1, edit.3);
    }
    fs::remove_dir_all(&work).ok();
}
