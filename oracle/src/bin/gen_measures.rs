//! Writes the cases of samples/measures.bin: `gen_measures SEED COUNT`.

fn main() {
    oracle::command::write(oracle::samples::measures);
}
