//! Answers questions about formulas from the Rust reference: one command a line, one answer a line.
mod commands;
#[allow(dead_code)]
mod compile;
#[allow(dead_code)]
mod errors;
mod expression;
mod labelled;
mod libm;
mod memory;
mod names;
mod nodes;
mod numbers;
mod refusals;
mod steps;
mod worker;

fn main() -> std::io::Result<()> {
    if std::env::args().nth(1).as_deref() == Some(worker::WORKER) {
        worker::work()
    } else {
        worker::supervise()
    }
}
