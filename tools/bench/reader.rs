//! Times compile on large formulas, of which it reads the bytes only: to their end, to a fault or to the limit of nodes. Needs of the
//! library's crate no more than `slices::compile`, so that an older build can be timed too.
#[path = "../shared/node.rs"]
mod node;

use node::{node, NODE_SIZE};
use std::hint::black_box;
use std::time::Instant;
use vebrostin::slices::{self, PATH, REPORT};

/// A figure is the least of so many rounds.
const ROUNDS: usize = 20;
/// Children of a node at most.
const CHILDREN: usize = 65535;
/// The kind and the operator of Min, the kind of a symbol, and a kind that no node has.
const CALL: u8 = 7;
const MIN: u8 = 11;
const SYMBOL: u8 = 2;
const NONE: u8 = 9;

/// 15 Mins of 65,535 symbols, each the last part of the one before: 983,026 nodes.
fn nested() -> Vec<u8> {
    let mut out = Vec::new();
    for _ in 0..15 {
        node(&mut out, CALL, MIN, CHILDREN, 0, 0);
        (1..CHILDREN).for_each(|_| node(&mut out, SYMBOL, 0, 0, 0, 0));
    }
    node(&mut out, SYMBOL, 0, 0, 0, 0);
    out
}

/// A million Mins, one below the other, each with 65,534 arguments or more missing.
fn claims() -> Vec<u8> {
    let mut out = Vec::new();
    (0..1_000_000).for_each(|_| node(&mut out, CALL, MIN, CHILDREN, 0, 0));
    out
}

/// The bytes with a wrong kind in the last node.
fn spoilt(mut bytes: Vec<u8>) -> Vec<u8> {
    let last = bytes.len() - NODE_SIZE;
    bytes[last] = NONE;
    bytes
}

/// Prints a line of the table: the answer, the node that the report has, and the speed.
fn row(name: &str, formula: &[u8]) {
    let (mut path, mut program) = (vec![0; PATH], vec![0; slices::program_room(formula.len())]);
    let (mut least, mut answer, mut report) = (f64::MAX, 0, [0; REPORT]);
    for _ in 0..ROUNDS {
        let start = Instant::now();
        answer = slices::compile(black_box(formula), b"a:p", &mut path, &mut program, &mut report);
        least = least.min(start.elapsed().as_secs_f64());
    }
    let size = formula.len() as f64 / 1e6;
    println!("| {name} | {size:.2} | {answer} | {} | {:.2} | {:.0} |", report[0], 1e3 * least, size / least);
}

fn main() {
    let (whole, claims) = (nested(), claims());
    println!("\n### Large formulas that are refused\n\n| formula | MB | answer | node | ms | MB a second |\n|---|---|---|---|---|---|");
    row("nested Mins, whole", &whole);
    row("less a byte", &whole[..whole.len() - 1]);
    row("a wrong field in the last node", &spoilt(whole.clone()));
    row("a byte more", &[&whole[..], &[0]].concat());
    row("Mins without their arguments", &claims);
    row("a wrong field in the last node of these", &spoilt(claims.clone()));
}
