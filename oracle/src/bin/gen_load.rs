//! Writes the cases of samples/load.bin: `gen_load SEED COUNT`.

fn main() {
    oracle::command::write(oracle::samples::load);
}
