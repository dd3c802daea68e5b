//! Formula bytes: nodes of `NODE` bytes, each followed by its children, as docs/REFERENCE.md, 1, has them. No other module knows them.
use crate::tree::{Head, Tree, BINARY, BOOLEAN, CALLS, COMPARE, LEVELS, UNARY};

pub use vebrostin::slices::NODE;

/// Why no tree is read from bytes, and at which byte: they are no formula, or one with too many levels.
#[derive(Debug, PartialEq, Eq)]
pub struct Malformed {
    pub at: usize,
    pub why: String,
}

/// The bytes of a tree, which has at most `tree::CHILDREN` children at a node.
pub fn encode(tree: &Tree) -> Vec<u8> {
    let mut out = Vec::new();
    put(tree, &mut out);
    out
}

fn put(tree: &Tree, out: &mut Vec<u8>) {
    let (kind, operator, symbol, value) = match tree.head {
        Head::Number(bits) => (0, 0, 0, bits),
        Head::Truth(truth) => (1, 0, 0, u64::from(truth)),
        Head::Symbol(symbol) => (2, 0, symbol, 0),
        Head::Unary(operator) => (3, operator, 0, 0),
        Head::Binary(operator) => (4, operator, 0, 0),
        Head::Compare(operator) => (5, operator, 0, 0),
        Head::Boolean(operator) => (6, operator, 0, 0),
        Head::Call(function) => (7, function, 0, 0),
        Head::Conditional => (8, 0, 0, 0),
    };
    out.extend([kind, operator]);
    out.extend((tree.children.len() as u16).to_le_bytes());
    out.extend(symbol.to_le_bytes());
    out.extend(value.to_le_bytes());
    tree.children.iter().for_each(|child| put(child, out));
}

/// The tree of formula bytes.
pub fn decode(bytes: &[u8]) -> Result<Tree, Malformed> {
    let mut at = 0;
    let tree = take(bytes, &mut at, 1)?;
    if at < bytes.len() {
        return Err(Malformed { at, why: format!("the formula ends here, but {} more bytes follow", bytes.len() - at) });
    }
    Ok(tree)
}

fn take(bytes: &[u8], at: &mut usize, level: usize) -> Result<Tree, Malformed> {
    let here = *at;
    let fail = |why: String| Malformed { at: here, why };
    let Some(node) = bytes.get(here..here + NODE) else {
        return Err(fail(format!("a node of {NODE} bytes is missing; {} bytes are left", bytes.len() - here)));
    };
    if level > LEVELS {
        return Err(fail(format!("there are more than {LEVELS} levels, too many to be shown")));
    }
    let (head, count) = head_of(node).map_err(fail)?;
    *at += NODE;
    let children = (0..count).map(|_| take(bytes, at, level + 1)).collect::<Result<Vec<_>, _>>()?;
    Ok(Tree::new(head, children, 0..0))
}

/// What a node's bytes say: its head and how many children follow.
fn head_of(node: &[u8]) -> Result<(Head, usize), String> {
    let (kind, operator) = (node[0], node[1]);
    let count = usize::from(u16::from_le_bytes([node[2], node[3]]));
    let symbol = node[4..8].iter().rev().fold(0, |n, byte| n << 8 | u32::from(*byte));
    let value = node[8..16].iter().rev().fold(0, |n, byte| n << 8 | u64::from(*byte));
    let (head, operators, children) = match kind {
        0 => (Head::Number(value), 1, Some(0)),
        1 => (Head::Truth(value == 1), 1, Some(0)),
        2 => (Head::Symbol(symbol), 1, Some(0)),
        3 => (Head::Unary(operator), UNARY.len(), Some(1)),
        4 => (Head::Binary(operator), BINARY.len(), Some(2)),
        5 => (Head::Compare(operator), COMPARE.len(), Some(2)),
        6 => (Head::Boolean(operator), BOOLEAN.len(), None),
        7 => (Head::Call(operator), CALLS.len(), None),
        8 => (Head::Conditional, 1, Some(3)),
        _ => return Err(format!("no node has kind {kind}; the kinds are 0 to 8")),
    };
    if usize::from(operator) >= operators {
        return Err(format!("kind {kind} has no operator {operator}"));
    }
    if children.is_some_and(|children| children != count) {
        return Err(format!("kind {kind} can't have {count} children"));
    }
    if symbol != 0 && kind != 2 || value > u64::from(kind == 1) && kind != 0 {
        return Err(format!("a field that kind {kind} doesn't use is not zero, or a truth value is neither 0 nor 1"));
    }
    Ok((head, count))
}
