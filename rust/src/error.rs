//! The thirteen refusals, with what each means and where.
use std::fmt;

/// A refusal by its number.
#[derive(Clone, Copy, Debug, PartialEq, Eq)]
#[repr(u8)]
pub enum Refusal {
    SliceTooShort = 1,
    WrongField = 2,
    Names = 3,
    TooLarge = 4,
    InvalidInput = 5,
    UnknownSymbol = 6,
    Type = 7,
    Unsupported = 8,
    Domain = 9,
    Program = 10,
    State = 11,
    EndedEarly = 12,
    LeftOver = 13,
}

/// What was being done when a refusal came.
#[derive(Clone, Copy, Debug, PartialEq, Eq)]
pub enum Action {
    Compile,
    Derive,
    Run,
}

/// A refusal, what was being done, and where: the place in the formula, or the node of its bytes, where there is one.
#[derive(Clone, Debug, PartialEq, Eq)]
pub struct Error {
    pub refusal: Refusal,
    pub action: Action,
    pub place: Option<String>,
    /// The node from 0 of a wrong field, of an early end, or after the formula's last node.
    pub node: Option<u64>,
}

impl Refusal {
    /// The refusal of a number from 1 to 13.
    pub fn from_number(number: usize) -> Option<Self> {
        use Refusal::*;
        let all = [
            SliceTooShort, WrongField, Names, TooLarge, InvalidInput, UnknownSymbol, Type, Unsupported, Domain, Program, State,
            EndedEarly, LeftOver,
        ];
        all.get(number.checked_sub(1)?).copied()
    }

    /// Whether it is at a node of the formula's bytes.
    pub fn has_node(self) -> bool {
        matches!(self, Refusal::WrongField | Refusal::EndedEarly | Refusal::LeftOver)
    }

    pub fn number(self) -> u8 {
        self as u8
    }

    /// What the number means while something is being done.
    pub fn meaning(self, action: Action) -> &'static str {
        match (self, action) {
            (Refusal::SliceTooShort, _) => "a slice is too short",
            (Refusal::WrongField, _) => "a field of the node is wrong",
            (Refusal::EndedEarly, _) => "the bytes end before the formula does",
            (Refusal::LeftOver, _) => "bytes follow the formula's last node",
            (Refusal::Names, _) => "the name line is not well formed",
            (Refusal::TooLarge, Action::Derive) => "the formula or its derivative has too many nodes or is too deep",
            (Refusal::TooLarge, _) => "the formula has more than 256 nodes or more than 32 levels",
            (Refusal::InvalidInput, Action::Run) => {
                "the count of inputs is wrong, there are too few registers, an input is not finite, or the budget is 0"
            }
            (Refusal::InvalidInput, _) => "a function or operator has a wrong number of arguments",
            (Refusal::UnknownSymbol, _) => "the symbol's number is not in the name line",
            (Refusal::Type, Action::Derive) => "a truth value stands where a number must, or the formula to derive is a truth value",
            (Refusal::Type, _) => "a number stands where a truth value must, or a truth value where a number must",
            (Refusal::Unsupported, Action::Derive) => "a rounding or a condition depends on a symbol that it may not depend on",
            (Refusal::Unsupported, _) => "a condition, rounding or remainder depends on a state, the time or an input",
            (Refusal::Domain, Action::Run) => "the result is not finite, or the operation is not defined there",
            (Refusal::Domain, _) => "a number in the formula is not finite",
            (Refusal::Program, _) => "the bytes are no program",
            (Refusal::State, _) => "the run is at its end, or the state or the value does not fit the question that pends",
        }
    }
}

impl fmt::Display for Error {
    fn fmt(&self, f: &mut fmt::Formatter<'_>) -> fmt::Result {
        write!(f, "refusal {}", self.refusal.number())?;
        if let Some(place) = &self.place {
            write!(f, " at {place}")?;
        }
        if let Some(node) = self.node {
            write!(f, " at node {node}")?;
        }
        write!(f, ": {}", self.refusal.meaning(self.action))
    }
}

impl std::error::Error for Error {}
