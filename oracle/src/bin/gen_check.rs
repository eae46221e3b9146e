//! Writes the cases of samples/check.bin: `gen_check SEED COUNT`.

fn main() {
    oracle::command::write(oracle::samples::check);
}
