//! Lets the crate root include the original's files.

fn main() {
    source::offer("bicycle_common");
}
