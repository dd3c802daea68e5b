//! Which rule made each node of a derivative tree, and from which node of the formula. docs/DERIVATIVE.md has the rules and their numbers.
use crate::slices::RECORD;
use std::fmt;

/// A rule by its number.
#[derive(Clone, Copy, Debug, PartialEq, Eq, Hash)]
#[repr(u8)]
pub enum Rule {
    /// The node is the formula's own, in a copy of a part.
    Copied = 0,
    Symbol = 1,
    /// It writes nothing, so no record has it.
    Positive = 2,
    Negative = 3,
    Add = 4,
    Subtract = 5,
    Multiply = 6,
    Divide = 7,
    Power = 8,
    Modulo = 9,
    Conditional = 10,
    Ifelse = 11,
    MinMax = 12,
    Abs = 13,
    InverseGaussianDensity = 14,
    Hill = 15,
    Exp = 16,
    Log = 17,
    Log10 = 18,
    Sqrt = 19,
    Sin = 20,
    Cos = 21,
    Tan = 22,
    Tanh = 23,
    /// The 0 of a product that has a literal zero.
    TimesZero = 24,
    /// The 1 of a power 0; it is always simplified away, so no record has it.
    PowerZero = 25,
    /// The 0 of a part without the symbol.
    WithoutSymbol = 26,
    /// 0 × formula + derivative.
    Outer = 27,
}

/// What made a node of a derivative: the rule, and the formula node that it is applied at, or that is copied, from 0 in byte order.
#[derive(Clone, Copy, Debug, PartialEq, Eq, Hash)]
pub struct Record {
    pub rule: Rule,
    pub node: u32,
}

const RULES: [(Rule, &str); 28] = {
    use Rule::*;
    [
        (Copied, "copied"),
        (Symbol, "rule for the symbol"),
        (Positive, "rule for Positive"),
        (Negative, "rule for Negative"),
        (Add, "rule for Add"),
        (Subtract, "rule for Subtract"),
        (Multiply, "rule for Multiply"),
        (Divide, "rule for Divide"),
        (Power, "rule for Power"),
        (Modulo, "rule for Modulo"),
        (Conditional, "rule for Conditional"),
        (Ifelse, "rule for Ifelse"),
        (MinMax, "rule for Min and Max"),
        (Abs, "rule for Abs"),
        (InverseGaussianDensity, "rule for InverseGaussianDensity"),
        (Hill, "rule for Hill"),
        (Exp, "rule for Exp"),
        (Log, "rule for Log"),
        (Log10, "rule for Log10"),
        (Sqrt, "rule for Sqrt"),
        (Sin, "rule for Sin"),
        (Cos, "rule for Cos"),
        (Tan, "rule for Tan"),
        (Tanh, "rule for Tanh"),
        (TimesZero, "a product with 0"),
        (PowerZero, "a power 0"),
        (WithoutSymbol, "a part without the symbol"),
        (Outer, "0 × formula + derivative"),
    ]
};

impl Rule {
    /// The rule of a number from 0 to 27.
    pub fn from_number(number: u32) -> Option<Self> {
        RULES.get(number as usize).map(|(rule, _)| *rule)
    }

    pub fn number(self) -> u32 {
        self as u32
    }

    /// What the rule is, in words.
    pub fn name(self) -> &'static str {
        RULES[self as usize].1
    }
}

impl fmt::Display for Rule {
    fn fmt(&self, f: &mut fmt::Formatter<'_>) -> fmt::Result {
        f.pad(self.name())
    }
}

impl Record {
    /// The record of its 8 bytes; nothing where the number is no rule's.
    pub fn from_bytes(bytes: [u8; RECORD]) -> Option<Self> {
        let [a, b, c, d, e, f, g, h] = bytes;
        let rule = Rule::from_number(u32::from_le_bytes([a, b, c, d]))?;
        Some(Self { rule, node: u32::from_le_bytes([e, f, g, h]) })
    }

    pub fn to_bytes(self) -> [u8; RECORD] {
        let ([a, b, c, d], [e, f, g, h]) = (self.rule.number().to_le_bytes(), self.node.to_le_bytes());
        [a, b, c, d, e, f, g, h]
    }
}
