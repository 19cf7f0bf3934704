//! The port beside the Rust and beside a naive implementation of document 01.
//!
//!     oracle [SEED [FACTOR]]    comparisons at random, and the differences that are known
//!     oracle differences        the known differences alone
//!     oracle vectors FILE       a file of cases
//!     oracle bench              times, the port beside the Rust
//!     oracle freeze FILE        the Rust's answers, for the program `replayed`
mod bench;
mod compare;
mod differences;
mod freeze;
mod generate;
mod naive;
mod port;
mod told;
mod vectors;

fn main() {
    let args: Vec<String> = std::env::args().skip(1).collect();
    std::panic::set_hook(Box::new(|_| {}));
    let word = |i: usize| args.get(i).map(|s| s.as_str());
    let good = match word(0) {
        Some("vectors") => vectors::run(word(1).expect("vectors FILE")),
        Some("bench") => bench::run(),
        Some("differences") => differences::run(),
        Some("freeze") => freeze::run(word(1).expect("freeze FILE")),
        _ => {
            let number =
                |i: usize, usual: u64| word(i).map_or(usual, |s| s.parse().expect("a number"));
            let known = differences::run();
            compare::run(number(0, 1), number(1, 1) as usize) && known
        }
    };
    if !good {
        std::process::exit(1);
    }
}
