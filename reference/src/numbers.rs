//! The operator numbers of docs/REFERENCE.md, 1: an operator's number is its place in the list.
use crate::expression::{Binary, Boolean, Compare, Function, Unary};

pub const UNARY: [Unary; 3] = [Unary::Positive, Unary::Negative, Unary::Not];

pub const BINARY: [Binary; 6] = [
    Binary::Add,
    Binary::Subtract,
    Binary::Multiply,
    Binary::Divide,
    Binary::Power,
    Binary::Modulo,
];

pub const COMPARE: [Compare; 6] = [
    Compare::Lt,
    Compare::Le,
    Compare::Gt,
    Compare::Ge,
    Compare::Eq,
    Compare::Ne,
];

pub const BOOLEAN: [Boolean; 2] = [Boolean::And, Boolean::Or];

/// Not the order of the reference's enum from number 9 on.
pub const FUNCTIONS: [Function; 16] = [
    Function::Exp,
    Function::Log,
    Function::Log10,
    Function::Sqrt,
    Function::Sin,
    Function::Cos,
    Function::Tan,
    Function::Tanh,
    Function::Abs,
    Function::Floor,
    Function::Ceil,
    Function::Min,
    Function::Max,
    Function::Hill,
    Function::Ifelse,
    Function::InverseGaussianDensity,
];

/// The number of an operator in its list.
pub fn number_of<T: PartialEq>(list: &[T], operator: &T) -> u8 {
    let place = list.iter().position(|listed| listed == operator);
    place.expect("every operator is listed") as u8
}
