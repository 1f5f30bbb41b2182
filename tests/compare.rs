//! The archive beside the independent implementation, both with what has landed;
//! `compare/comparer.rs` says what is asked.

use second::landed::LANDED;
use std::process::ExitCode;

fn main() -> ExitCode {
    let arguments: Vec<String> = std::env::args().skip(1).collect();
    comparer::compare(&arguments, |case| second::answer(LANDED, case))
}
