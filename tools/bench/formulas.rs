//! Formulas of any size over eight symbols, for timing.
use crate::node::node;

pub const NAMES: &[u8] = b"climb:p,burn:p,distance:p,tas:p,wind:p,mass:p,level:p,time:p";

/// A symbol, or a number at each third place.
fn leaf(out: &mut Vec<u8>, i: usize) {
    if i % 3 == 2 {
        node(out, 0, 0, 0, 0, (i as f64 + 0.5).to_bits());
    } else {
        node(out, 2, 0, 0, (i % 8) as u32, 0);
    }
}

/// A balanced tree of Add, Multiply, Subtract and Divide over n leaves.
fn balanced(out: &mut Vec<u8>, from: usize, n: usize) {
    if n == 1 {
        return leaf(out, from);
    }
    node(out, 4, [0, 2, 1, 3][(from + n) % 4], 2, 0, 0);
    balanced(out, from, n / 2);
    balanced(out, from + n / 2, n - n / 2);
}

pub fn arithmetic(leaves: usize) -> Vec<u8> {
    let mut out = Vec::new();
    balanced(&mut out, 0, leaves);
    out
}

/// climb < 1 ? burn : (burn < 2 ? .. : ..), with so many conditions.
pub fn branches(n: usize) -> Vec<u8> {
    let mut out = Vec::new();
    for i in 0..n {
        node(&mut out, 8, 0, 3, 0, 0);
        node(&mut out, 5, 0, 2, 0, 0);
        node(&mut out, 2, 0, 0, (i % 8) as u32, 0);
        node(&mut out, 0, 0, 0, 0, (0.001 * i as f64).to_bits());
        leaf(&mut out, i);
    }
    leaf(&mut out, 0);
    out
}

/// Min of so many leaves.
pub fn list(n: usize) -> Vec<u8> {
    let mut out = Vec::new();
    node(&mut out, 7, 11, n, 0, 0);
    (0..n).for_each(|i| leaf(&mut out, i));
    out
}

/// The worked flight: Add(climb, Divide(Multiply(burn, distance), Add(tas, wind))).
pub fn flight() -> Vec<u8> {
    let mut out = Vec::new();
    for (operator, symbol) in [(0, 0), (3, 8), (2, 1), (8, 2), (0, 3), (8, 4)] {
        if operator < 8 {
            node(&mut out, 4, operator, 2, 0, 0);
        }
        if symbol < 8 {
            node(&mut out, 2, 0, 0, symbol, 0);
        }
    }
    out
}

/// Powers of so many sums, multiplied: each asks its host.
pub fn powers(n: usize) -> Vec<u8> {
    let mut out = Vec::new();
    for i in 0..n {
        if i + 1 < n {
            node(&mut out, 4, 2, 2, 0, 0);
        }
        node(&mut out, 4, 4, 2, 0, 0);
        leaf(&mut out, 3 * i);
        node(&mut out, 0, 0, 0, 0, 1.5f64.to_bits());
    }
    out
}
