//! Writes the cases of samples/kinds.bin: `gen_kinds SEED COUNT`.

fn main() {
    oracle::command::write(oracle::samples::kinds);
}
