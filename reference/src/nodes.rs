//! Formula bytes (docs/REFERENCE.md, 1) to the reference's `Expr` and back.
use crate::compile::Symbol;
use crate::expression::{Expr, Literal};
use crate::names::name_of;
use crate::numbers::{number_of, BINARY, BOOLEAN, COMPARE, FUNCTIONS, UNARY};
use std::collections::BTreeMap;

const SIZE: usize = 16;

#[derive(Default)]
struct Node {
    kind: u8,
    operator: u8,
    count: u16,
    symbol: u32,
    value: u64,
}

impl Node {
    fn from_bytes(bytes: &[u8]) -> Self {
        let field = |from: usize, to: usize| {
            let part = bytes[from..to].iter().rev();
            part.fold(0u64, |sum, byte| sum << 8 | u64::from(*byte))
        };
        Self {
            kind: bytes[0],
            operator: bytes[1],
            count: field(2, 4) as u16,
            symbol: field(4, 8) as u32,
            value: field(8, 16),
        }
    }

    fn write(&self, bytes: &mut Vec<u8>) {
        bytes.extend([self.kind, self.operator]);
        bytes.extend(self.count.to_le_bytes());
        bytes.extend(self.symbol.to_le_bytes());
        bytes.extend(self.value.to_le_bytes());
    }

    /// Operator and count fit the kind, and the fields that the kind doesn't use are zero.
    fn allowed(&self) -> bool {
        let operators = match self.kind {
            3 => UNARY.len(),
            4 => BINARY.len(),
            5 => COMPARE.len(),
            6 => BOOLEAN.len(),
            7 => FUNCTIONS.len(),
            _ => 1,
        };
        let count = match self.kind {
            0..=2 => self.count == 0,
            3 => self.count == 1,
            4 | 5 => self.count == 2,
            6 | 7 => true,
            8 => self.count == 3,
            _ => false,
        };
        let value = match self.kind {
            0 => true,
            1 => self.value <= 1,
            _ => self.value == 0,
        };
        usize::from(self.operator) < operators
            && count
            && value
            && (self.kind == 2 || self.symbol == 0)
    }
}

/// Refusals of bytes that are no formula: a wrong field in a node, an early end, bytes left over.
const WRONG_FIELD: usize = 2;
const ENDED_EARLY: usize = 12;
const LEFT_OVER: usize = 13;

/// The refusal of bytes that are no formula, and the node from 0 of their first fault in byte order;
/// nothing for a formula, of any size and depth.
pub fn fault(bytes: &[u8]) -> Option<(usize, usize)> {
    let (mut owed, mut read) = (1u64, 0);
    while owed > 0 {
        let Some(chunk) = bytes.get(SIZE * read..SIZE * (read + 1)) else {
            return Some((ENDED_EARLY, read));
        };
        let node = Node::from_bytes(chunk);
        if !node.allowed() {
            return Some((WRONG_FIELD, read));
        }
        owed = owed - 1 + u64::from(node.count);
        read += 1;
    }
    (SIZE * read < bytes.len()).then_some((LEFT_OVER, read))
}

/// The expression of well-formed bytes. Reads backwards with a stack, so that depth doesn't matter.
pub fn read(bytes: &[u8], symbols: &[Symbol]) -> Expr {
    let mut stack: Vec<Expr> = Vec::new();
    for chunk in bytes.chunks(SIZE).rev() {
        let node = Node::from_bytes(chunk);
        let mut children = stack.split_off(stack.len() - usize::from(node.count));
        children.reverse();
        stack.push(expression(&node, children, symbols));
    }
    stack.pop().expect("a well-formed formula has a root")
}

fn expression(node: &Node, children: Vec<Expr>, symbols: &[Symbol]) -> Expr {
    let at = usize::from(node.operator);
    match node.kind {
        0 => Expr::number(f64::from_bits(node.value)),
        1 => Expr::Literal {
            value: Literal::Boolean(node.value == 1),
        },
        2 => Expr::symbol(name_of(symbols, node.symbol)),
        3 => Expr::Unary {
            operator: UNARY[at],
            arguments: boxed(children),
        },
        4 => Expr::Binary {
            operator: BINARY[at],
            arguments: boxed(children),
        },
        5 => Expr::Compare {
            operator: COMPARE[at],
            arguments: boxed(children),
        },
        6 => Expr::Boolean {
            operator: BOOLEAN[at],
            arguments: children,
        },
        7 => Expr::call(FUNCTIONS[at], children),
        _ => Expr::Conditional {
            arguments: boxed(children),
        },
    }
}

fn boxed<const N: usize>(children: Vec<Expr>) -> Box<[Expr; N]> {
    let children = children.into_boxed_slice();
    children.try_into().expect("the count fits the kind")
}

/// Frees an expression of any depth without recursion.
pub fn dismantle(root: Expr) {
    let mut stack = vec![root];
    while let Some(expr) = stack.pop() {
        match expr {
            Expr::Literal { .. } | Expr::Symbol { .. } => {}
            Expr::Unary { arguments, .. } => stack.extend(*arguments),
            Expr::Binary { arguments, .. } | Expr::Compare { arguments, .. } => {
                stack.extend(*arguments)
            }
            Expr::Conditional { arguments } => stack.extend(*arguments),
            Expr::Boolean { arguments, .. } | Expr::Call { arguments, .. } => {
                stack.extend(arguments)
            }
        }
    }
}

/// The node bytes of an expression whose symbols are all in the table.
pub fn write(root: &Expr, symbols: &[Symbol]) -> Vec<u8> {
    let names = symbols.iter().map(|symbol| symbol.name.as_str());
    let numbers: BTreeMap<&str, u32> = names.zip(0..).collect();
    let mut bytes = Vec::new();
    let mut stack = vec![root];
    while let Some(expr) = stack.pop() {
        node(expr, &numbers).write(&mut bytes);
        stack.extend(expr.children().iter().rev());
    }
    bytes
}

fn node(expr: &Expr, numbers: &BTreeMap<&str, u32>) -> Node {
    let plain = |kind, operator| Node {
        kind,
        operator,
        count: expr.children().len() as u16,
        ..Node::default()
    };
    match expr {
        Expr::Literal { value } => Node {
            kind: u8::from(matches!(value, Literal::Boolean(_))),
            value: match value {
                Literal::Number(number) => number.to_bits(),
                Literal::Boolean(truth) => u64::from(*truth),
            },
            ..Node::default()
        },
        Expr::Symbol { name } => Node {
            kind: 2,
            symbol: numbers[name.as_str()],
            ..Node::default()
        },
        Expr::Unary { operator, .. } => plain(3, number_of(&UNARY, operator)),
        Expr::Binary { operator, .. } => plain(4, number_of(&BINARY, operator)),
        Expr::Compare { operator, .. } => plain(5, number_of(&COMPARE, operator)),
        Expr::Boolean { operator, .. } => plain(6, number_of(&BOOLEAN, operator)),
        Expr::Call { name, .. } => plain(7, number_of(&FUNCTIONS, name)),
        Expr::Conditional { .. } => plain(8, 0),
    }
}
