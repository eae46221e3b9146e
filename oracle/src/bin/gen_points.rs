//! Writes the cases of samples/points.bin: `gen_points SEED COUNT`.

fn main() {
    oracle::command::write(oracle::samples::points);
}
