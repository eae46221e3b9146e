//! Writes the cases of samples/points_state.bin: `gen_points_state SEED COUNT`.

fn main() {
    oracle::command::write(oracle::samples::points_state);
}
