//! Formula trees, and the words and signs that stand for their operators.
use std::ops::Range;

/// A piece of a text, by its bytes.
pub type Span = Range<usize>;

/// What a node is, by the kinds of docs/REFERENCE.md, 1; an operator is its number there.
#[derive(Clone, Copy, Debug, PartialEq, Eq)]
pub enum Head {
    /// The bits of an f64, finite or not.
    Number(u64),
    Truth(bool),
    Symbol(u32),
    Unary(u8),
    Binary(u8),
    Compare(u8),
    Boolean(u8),
    Call(u8),
    Conditional,
}

/// A node with its children, its levels, and the piece of text that it was read from (empty where it came from bytes).
#[derive(Clone, Debug)]
pub struct Tree {
    pub head: Head,
    pub children: Vec<Tree>,
    pub span: Span,
    pub levels: usize,
}

/// Levels and children that a tree has at most here: as many as a file of `files::LARGEST` bytes can hold, and the command's stack is
/// large enough for a walk over these. A formula that compiles has at most 32 levels, a derivative 128.
pub const LEVELS: usize = 65_536;
pub const CHILDREN: usize = u16::MAX as usize;

/// Operators in the order of their numbers, as a text writes them.
pub const UNARY: [&str; 3] = ["+", "-", "not"];
pub const BINARY: [&str; 6] = ["+", "-", "*", "/", "^", "%"];
pub const COMPARE: [&str; 6] = ["<", "<=", ">", ">=", "==", "!="];
pub const BOOLEAN: [&str; 2] = ["and", "or"];
pub const CALLS: [&str; 16] = [
    "exp", "log", "log10", "sqrt", "sin", "cos", "tan", "tanh", "abs", "floor", "ceil", "min", "max", "hill", "ifelse",
    "inverse_gaussian_density",
];

/// Numbers of operators that are treated apart.
pub const NEGATIVE: u8 = 1;
pub const NOT: u8 = 2;
pub const ADD: u8 = 0;
pub const SUBTRACT: u8 = 1;
pub const MULTIPLY: u8 = 2;
pub const DIVIDE: u8 = 3;
pub const POWER: u8 = 4;
pub const MODULO: u8 = 5;
pub const AND: u8 = 0;
pub const OR: u8 = 1;
pub const LOG: u8 = 1;
pub const LOG10: u8 = 2;
pub const SQRT: u8 = 3;
pub const FLOOR: u8 = 9;
pub const CEIL: u8 = 10;
pub const MIN: u8 = 11;
pub const MAX: u8 = 12;
pub const HILL: u8 = 13;
pub const IFELSE: u8 = 14;
pub const DENSITY: u8 = 15;

/// Words with a meaning of their own: a name that is one of these is written by its number, `$3`.
pub const RESERVED: [&str; 7] = ["and", "or", "not", "if", "true", "false", "infinity"];

impl Tree {
    pub fn new(head: Head, children: Vec<Tree>, span: Span) -> Self {
        let levels = 1 + children.iter().map(|child| child.levels).max().unwrap_or(0);
        Self { head, children, span, levels }
    }

    /// Head and children the same; where they stood in a text doesn't count.
    #[cfg(test)]
    pub fn same(&self, other: &Tree) -> bool {
        let children = self.children.iter().zip(&other.children);
        self.head == other.head && self.children.len() == other.children.len() && children.into_iter().all(|(a, b)| a.same(b))
    }

    pub fn nodes(&self) -> usize {
        1 + self.children.iter().map(Tree::nodes).sum::<usize>()
    }

    /// The first node, from the root on and left to right, for which a test holds.
    pub fn find(&self, test: &impl Fn(&Tree) -> bool) -> Option<&Tree> {
        if test(self) {
            return Some(self);
        }
        self.children.iter().find_map(|child| child.find(test))
    }

    pub fn has_symbol(&self, symbol: u32) -> bool {
        self.find(&|node| node.head == Head::Symbol(symbol)).is_some()
    }

    /// Whether it gives a truth value and not a number; of a conditional its first arm decides.
    pub fn is_truth(&self) -> bool {
        match self.head {
            Head::Truth(_) | Head::Compare(_) | Head::Boolean(_) | Head::Unary(NOT) => true,
            Head::Conditional | Head::Call(IFELSE) => self.children.get(1).is_some_and(Tree::is_truth),
            _ => false,
        }
    }

    /// The word or sign of its operator, `if` for a conditional, nothing for a leaf.
    pub fn operator(&self) -> &'static str {
        let word = |words: &[&'static str], number: u8| words.get(usize::from(number)).copied().unwrap_or("");
        match self.head {
            Head::Number(_) | Head::Truth(_) | Head::Symbol(_) => "",
            Head::Unary(number) => word(&UNARY, number),
            Head::Binary(number) => word(&BINARY, number),
            Head::Compare(number) => word(&COMPARE, number),
            Head::Boolean(number) => word(&BOOLEAN, number),
            Head::Call(number) => word(&CALLS, number),
            Head::Conditional => "if",
        }
    }
}
