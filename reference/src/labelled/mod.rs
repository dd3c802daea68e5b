//! Which rule made each node of a derivative tree: `derivative.rs` once more, over nodes that carry a label. A node
//! that is constructed takes the label at work, and a clone keeps its own. It knows nothing of how the port finds its records.
use crate::errors::{Error, ErrorCode};
use crate::expression::Expr as Plain;
use expression::*;
mod derivative;
mod expression;

/// Rules that are no arm and no helper: a node copied from the formula, and the outer 0 × formula + derivative.
const COPIED: u32 = 0;
const OUTER: u32 = 27;
/// Arms that the decisions below speak of.
const CONDITIONAL: u32 = 10;
const IFELSE: u32 = 11;
const EXTREMUM: u32 = 12;

/// A derivative tree, and the rule and the formula node of each of its nodes in byte order.
pub struct Labelled {
    pub tree: Plain,
    pub records: Vec<(u32, u32)>,
    /// How many of them have another rule than the label that the text of `derivative.rs` gives.
    pub decided: usize,
}

fn error(code: ErrorCode, message: impl Into<String>, path: &str) -> Error {
    let mut e = Error::new(code, message);
    e.expression = Some(path.into());
    e
}

/// 0 × formula + derivative by a name, which is a state's or not.
pub fn derive(formula: &Plain, name: &str, state: bool) -> Result<Labelled, Error> {
    let formula = numbered(formula, &mut 0);
    let gradient = derivative::differentiate(&formula, name, state)?;
    let outer = Label { rule: OUTER, node: 0 };
    let tree = by(outer, || {
        let zero = Expr::binary(Binary::Multiply, Expr::number(0.0), formula.clone());
        Expr::binary(Binary::Add, zero, gradient)
    });
    let (nodes, parts) = (in_order(&tree), in_order(&formula));
    let labels: Vec<Label> = nodes.iter().map(|node| decision(node, &parts)).collect();
    let decided = nodes.iter().zip(&labels).filter(|(node, label)| node.label() != **label).count();
    let records = labels.iter().map(|label| (label.rule, label.node)).collect();
    Ok(Labelled { tree: plain(&tree), records, decided })
}

/// A node's label, but for the two places where docs/DECISIONS.md decides otherwise.
fn decision(node: &Expr, formula: &[&Expr]) -> Label {
    let label = node.label();
    let rule = match (node, label.rule) {
        // Ifelse has a number of its own; the text hands a Conditional made on the spot to the arm before
        (Expr::Conditional { .. }, CONDITIONAL) if is_ifelse(formula[label.node as usize]) => IFELSE,
        // the extremum in a tie test comes from the formula; the text makes the node anew, over the formula's own arguments
        (Expr::Call { name: Function::Min | Function::Max, .. }, EXTREMUM) => COPIED,
        (_, rule) => rule,
    };
    Label { rule, ..label }
}

fn is_ifelse(node: &Expr) -> bool {
    matches!(node, Expr::Call { name: Function::Ifelse, .. })
}

/// The nodes in byte order.
fn in_order(root: &Expr) -> Vec<&Expr> {
    let (mut nodes, mut stack) = (Vec::new(), vec![root]);
    while let Some(node) = stack.pop() {
        nodes.push(node);
        stack.extend(node.children().iter().rev());
    }
    nodes
}

/// A formula whose nodes have their own numbers, from `next` on in byte order, as copies do.
fn numbered(expr: &Plain, next: &mut u32) -> Expr {
    let label = Label { rule: COPIED, node: *next };
    *next += 1;
    let children: Vec<Expr> = expr.children().iter().map(|child| numbered(child, next)).collect();
    match expr {
        Plain::Literal { value } => Expr::Literal { value: value.clone(), label },
        Plain::Symbol { name } => Expr::Symbol { name: name.clone(), label },
        Plain::Unary { operator, .. } => Expr::Unary { operator: *operator, arguments: boxed(children), label },
        Plain::Binary { operator, .. } => Expr::Binary { operator: *operator, arguments: boxed(children), label },
        Plain::Compare { operator, .. } => Expr::Compare { operator: *operator, arguments: boxed(children), label },
        Plain::Boolean { operator, .. } => Expr::Boolean { operator: *operator, arguments: children, label },
        Plain::Call { name, .. } => Expr::Call { name: *name, arguments: children, label },
        Plain::Conditional { .. } => Expr::Conditional { arguments: boxed(children), label },
    }
}

/// The same expression without its labels.
fn plain(expr: &Expr) -> Plain {
    let children: Vec<Plain> = expr.children().iter().map(plain).collect();
    match expr {
        Expr::Literal { value, .. } => Plain::Literal { value: value.clone() },
        Expr::Symbol { name, .. } => Plain::Symbol { name: name.clone() },
        Expr::Unary { operator, .. } => Plain::Unary { operator: *operator, arguments: boxed(children) },
        Expr::Binary { operator, .. } => Plain::Binary { operator: *operator, arguments: boxed(children) },
        Expr::Compare { operator, .. } => Plain::Compare { operator: *operator, arguments: boxed(children) },
        Expr::Boolean { operator, .. } => Plain::Boolean { operator: *operator, arguments: children },
        Expr::Call { name, .. } => Plain::Call { name: *name, arguments: children },
        Expr::Conditional { .. } => Plain::Conditional { arguments: boxed(children) },
    }
}

fn boxed<T: std::fmt::Debug, const N: usize>(children: Vec<T>) -> Box<[T; N]> {
    let children = children.into_boxed_slice();
    children.try_into().expect("as many as the kind has")
}
