//! Writes the cases of samples/items.bin: `gen_items SEED COUNT`.

fn main() {
    oracle::command::write(oracle::samples::items_and_lists);
}
