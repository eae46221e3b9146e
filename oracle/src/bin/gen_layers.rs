//! Writes the cases of samples/layers.bin: `gen_layers SEED COUNT`.

fn main() {
    oracle::command::write(oracle::samples::layers);
}
