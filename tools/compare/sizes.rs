//! A bound on the nodes that the reference builds for a derivative: its rules without any simplification.
use crate::expression::{Binary, Expr, Function};

/// The nodes of an expression, and at most so many of its derivative.
fn sizes(expr: &Expr) -> (u64, u64) {
    let parts: Vec<(u64, u64)> = expr.children().iter().map(sizes).collect();
    let sum = |list: &mut dyn Iterator<Item = u64>| list.fold(0u64, u64::saturating_add);
    let own = 1 + sum(&mut parts.iter().map(|p| p.0));
    let below = sum(&mut parts.iter().map(|p| p.1));
    let (copies, derived) = match expr {
        Expr::Binary { operator: Binary::Power, .. } => (10, 3),
        Expr::Call { name: Function::Min | Function::Max, .. } => (2 * parts.len() as u64, 1),
        Expr::Call { name: Function::Abs, .. } => (2, 2),
        Expr::Call { name: Function::Hill, .. } => (40, 4),
        Expr::Call { name: Function::InverseGaussianDensity, .. } => (20, 1),
        _ => (4, 1),
    };
    (own, (60 + own * copies).saturating_add(below.saturating_mul(derived)))
}

/// Whether the reference can build the derivative in little memory.
pub fn buildable(expr: &Expr) -> bool {
    sizes(expr).1 < 400_000
}
