//! Times the unchanged Rust, and with the feature `port` the port beside it: `bench [WORD]`. With a word only inputs that have it
//! in their names are taken, and no growth is told.
//!
//! The Rust's own call is timed alone, its input made before; the port is timed through its boundary, from bytes to
//! bytes. Both in one process, the shortest of many rounds.

use oracle::counting::count;
use oracle::refusals::{MOST_BEFORE, MOST_BOXES};
use oracle::timing::{flat_inputs, inputs, time_rust, Input};

const MILLISECONDS: u64 = 300;

/// The port's time on an input, in nanoseconds.
#[cfg(feature = "port")]
fn time_port(input: &Input) -> Option<f64> {
    use oracle::load_file::{encode, LONGEST};
    use oracle::port::{Library, Port};
    use oracle::timing::{room_for_all, shortest, Engine};
    let file = encode(&input.sheet);
    let (mut sheet, mut findings, mut figures) = (vec![0; LONGEST], vec![0; room_for_all(&input.sheet)], [0; 2]);
    Some(shortest(MILLISECONDS, || {
        let answer = match input.engine {
            Engine::Points => Library.plan_points(&file, u64::MAX, &mut sheet, &mut figures),
            Engine::Layers => Library.plan_layers(&file, u64::MAX, &mut sheet, &mut figures),
            Engine::Check => Library.check(&file, &mut findings),
        };
        assert_eq!(std::hint::black_box(answer) >> 32, 0, "a timed input is accepted");
    }))
}

/// Without the port there is nothing beside the Rust.
#[cfg(not(feature = "port"))]
fn time_port(_: &Input) -> Option<f64> {
    None
}

/// What was timed: the input, the Rust's time and the port's, in nanoseconds.
type Row = (Input, f64, Option<f64>);

/// How many times as long each side takes at the bound as at the bound of before.
fn print_growth(rows: &[Row]) {
    println!("\n{:<8} {:<28} {:>12} {:>12}", "growth", &format!("from {MOST_BEFORE} to {MOST_BOXES}"), "Rust", "port");
    for (input, rust, port) in rows.iter().filter(|row| u64::from(row.0.boxes) == MOST_BOXES) {
        let same = |row: &&Row| {
            row.0.boxes as usize == MOST_BEFORE && row.0.name == input.name && row.0.engine == input.engine
        };
        if let Some((_, rust_before, port_before)) = rows.iter().find(same) {
            let grown = port.zip(*port_before).map_or("-".to_string(), |(now, before)| format!("{:.2}", now / before));
            println!(
                "{:<8} {:<28} {:>12.2} {grown:>12}",
                format!("{:?}", input.engine),
                input.name,
                rust / rust_before
            );
        }
    }
}

/// The comparisons made where a point is tried against placed boxes, on full cases stacked flat, by each form of the test,
/// and how many of the tests an axis settles.
fn print_comparisons(inputs: impl Iterator<Item = Input>) {
    println!(
        "\n{:<28} {:<9} {:>9} {:>21} {:>10} {:>10} {:>10}",
        "comparisons", "test", "tests", "settled by z, y, x", "all six", "x first", "z first"
    );
    for input in inputs {
        let counts = count(&input.sheet).1;
        for (test, a) in [("apart", counts.apart), ("buries", counts.buried)] {
            let settled = a.settled.map(|n| format!("{:.3}", n as f64 / a.tests as f64)).join(", ");
            println!(
                "{:<28} {test:<9} {:>9} {settled:>21} {:>10} {:>10} {:>10}",
                input.name, a.tests, a.six, a.x_first, a.z_first
            );
        }
    }
}

fn main() {
    println!("{:<8} {:<28} {:>5} {:>12} {:>12} {:>6}", "engine", "input", "boxes", "Rust µs", "port µs", "ratio");
    let word = std::env::args().nth(1).unwrap_or_default();
    let mut rows = Vec::new();
    let asked = |input: &Input| input.name.contains(&word);
    for input in inputs().into_iter().chain(flat_inputs()).filter(asked) {
        let rust = time_rust(&input, MILLISECONDS);
        let port = time_port(&input);
        let (us, ratio) = match port {
            Some(t) => (format!("{:.3}", t / 1e3), format!("{:.3}", t / rust)),
            None => ("-".to_string(), "-".to_string()),
        };
        let engine = format!("{:?}", input.engine);
        println!("{engine:<8} {:<28} {:>5} {:>12.3} {us:>12} {ratio:>6}", input.name, input.boxes, rust / 1e3);
        rows.push((input, rust, port));
    }
    if word.is_empty() {
        print_growth(&rows);
    }
    print_comparisons(flat_inputs().into_iter().filter(asked));
}
