//! The proved store and the twin side by side in one run, release build: times, the stack of each exported call, and
//! how the cost of a call grows. Prints Markdown.
//!
//! `make lib`, then `cargo run --profile bench --offline` in this folder.

mod calls;
mod growth;
mod histories;
mod stack;
mod times;
mod timing;

fn main() {
    times::print();
    stack::print();
    growth::print();
}
