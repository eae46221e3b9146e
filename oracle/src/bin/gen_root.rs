//! Writes the cases of samples/root.bin: `gen_root SEED COUNT`.

fn main() {
    oracle::command::write(oracle::samples::root);
}
