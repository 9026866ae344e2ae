//! Measures the proved functions beside the independent reader and writer, and prints tables:
//!
//! ```text
//! cargo run --release --offline -p lxt-compare --bin bench [ratios] [lookups] [column] [stray] [growth] [hostile]
//!     [writing] [unpacking] [stack]
//! ```
//!
//! Without a word it makes all parts.
//!
//! Both sides get the same bytes and the same questions, and each call of either makes all checks of the
//! file that the rules ask of it. What is lent is made before the clock starts. The runs of the two sides
//! alternate; a time is the median of its runs.

mod before;
mod column;
mod growth;
mod hostile;
mod lookups;
mod ratios;
mod stack;
mod stray;
mod timing;
mod unpacking;
mod writing;

fn main() {
    let words: Vec<String> = std::env::args().skip(1).collect();
    if words == [unpacking::TIMES] {
        return unpacking::print_times();
    }
    if words == [lookups::TIMES] {
        return lookups::print_times();
    }
    let asked = |part: &str| words.is_empty() || words.iter().any(|word| word == part);
    for (part, print) in [
        ("ratios", ratios::print as fn()),
        ("lookups", lookups::print),
        ("column", column::print),
        ("stray", stray::print),
        ("growth", growth::print),
        ("hostile", hostile::print),
        ("writing", writing::print),
        ("unpacking", unpacking::print),
        ("stack", stack::print),
    ] {
        if asked(part) {
            print();
        }
    }
}
