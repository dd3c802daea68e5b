// Changed from the source document qspquest-core/src/expression.rs (Apache-2.0); CHANGES.md lists each change.
//! `Expr` with a label in each node: what wrote it.
pub use crate::expression::{Binary, Boolean, Compare, Function, Literal, Unary};
use std::cell::Cell;

/// A rule's number (docs/DERIVATIVE.md) and the formula node, from 0 in byte order, that it is applied at.
#[derive(Clone, Copy, Debug, PartialEq, Eq)]
pub struct Label {
    pub rule: u32,
    pub node: u32,
}
thread_local! {
    static AT_WORK: Cell<Label> = const { Cell::new(Label { rule: 0, node: 0 }) };
}
/// The label that a node takes which is constructed now.
pub fn at_work() -> Label {
    AT_WORK.get()
}
/// Does something with a label at work, and puts back the one before.
pub fn by<T>(label: Label, work: impl FnOnce() -> T) -> T {
    let before = AT_WORK.replace(label);
    let done = work();
    AT_WORK.set(before);
    done
}
/// A clone keeps its labels.
#[derive(Clone, Debug)]
pub enum Expr {
    Literal {
        value: Literal,
        label: Label,
    },
    Symbol {
        name: String,
        label: Label,
    },
    Unary {
        operator: Unary,
        arguments: Box<[Expr; 1]>,
        label: Label,
    },
    Binary {
        operator: Binary,
        arguments: Box<[Expr; 2]>,
        label: Label,
    },
    Compare {
        operator: Compare,
        arguments: Box<[Expr; 2]>,
        label: Label,
    },
    Boolean {
        operator: Boolean,
        arguments: Vec<Expr>,
        label: Label,
    },
    Call {
        name: Function,
        arguments: Vec<Expr>,
        label: Label,
    },
    Conditional {
        arguments: Box<[Expr; 3]>,
        label: Label,
    },
}
impl Expr {
    pub fn number(value: f64) -> Self {
        Self::Literal {
            value: Literal::Number(value),
            label: at_work(),
        }
    }
    pub fn binary(operator: Binary, a: Self, b: Self) -> Self {
        Self::Binary {
            operator,
            arguments: Box::new([a, b]),
            label: at_work(),
        }
    }
    pub fn call(name: Function, arguments: Vec<Self>) -> Self {
        Self::Call {
            name,
            arguments,
            label: at_work(),
        }
    }
    pub fn conditional(condition: Self, yes: Self, no: Self) -> Self {
        Self::Conditional {
            arguments: Box::new([condition, yes, no]),
            label: at_work(),
        }
    }
    pub fn children(&self) -> &[Expr] {
        match self {
            Self::Literal { .. } | Self::Symbol { .. } => &[],
            Self::Unary { arguments, .. } => arguments.as_slice(),
            Self::Binary { arguments, .. } | Self::Compare { arguments, .. } => {
                arguments.as_slice()
            }
            Self::Conditional { arguments, .. } => arguments.as_slice(),
            Self::Boolean { arguments, .. } | Self::Call { arguments, .. } => arguments,
        }
    }
    pub fn label(&self) -> Label {
        match self {
            Self::Literal { label, .. }
            | Self::Symbol { label, .. }
            | Self::Unary { label, .. }
            | Self::Binary { label, .. }
            | Self::Compare { label, .. }
            | Self::Boolean { label, .. }
            | Self::Call { label, .. }
            | Self::Conditional { label, .. } => *label,
        }
    }
}
