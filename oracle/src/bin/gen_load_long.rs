//! Writes the cases of samples/load_long.bin: `gen_load_long SEED COUNT`.

fn main() {
    oracle::command::write(oracle::samples::load_long);
}
