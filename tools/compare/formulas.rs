//! Random and damaged formulas, name lines and values.
use crate::node::{node, NODE_SIZE};
use crate::random::Random;

const NUMBER: u8 = 0;
const TRUTH: u8 = 1;
const SYMBOL: u8 = 2;
const UNARY: u8 = 3;
const BINARY: u8 = 4;
const COMPARE: u8 = 5;
const BOOLEAN: u8 = 6;
const CALL: u8 = 7;
const CONDITIONAL: u8 = 8;
const ABS: u8 = 8;
const FLOOR: u8 = 9;
const CEIL: u8 = 10;
const MIN: u8 = 11;
const MAX: u8 = 12;
const HILL: u8 = 13;
const IFELSE: u8 = 14;
const DENSITY: u8 = 15;

const ORDINARY: [f64; 15] = [0.0, 1.0, -1.0, 2.0, 3.0, 0.5, 1.5, 0.25, 10.0, -2.0, -0.5, 4.0, 7.0, 100.0, 1e-3];
const EDGES: [f64; 17] = [
    -0.0, 1e-20, -1e-20, 1e-8, 1e300, -1e300, 9007199254740992.0, 9007199254740994.0, 5e-324, -5e-324, f64::MIN_POSITIVE, f64::MAX,
    f64::MIN, 709.0, -745.0, 0.1, 1.0 / 3.0,
];
const NOT_FINITE: [u64; 5] =
    [0x7ff0_0000_0000_0000, 0xfff0_0000_0000_0000, 0x7ff8_0000_0000_0000, 0x7ff0_0000_0000_0001, 0xfff8_dead_beef_0001];

/// A formula with a name line and a symbol to derive by.
pub struct Case {
    pub formula: Vec<u8>,
    pub names: Vec<u8>,
    pub symbol: u32,
}

/// Makes one formula: `kinds` the table's, `used` the symbols that the formula has so far, `faults` the chance of a fault in a
/// node, `still` whether only parameters may be used.
pub struct Maker<'a> {
    random: &'a mut Random,
    kinds: Vec<u8>,
    used: Vec<u32>,
    faults: f64,
    still: bool,
    out: Vec<u8>,
}

/// Bits of a zero of either sign, or of 1 or -1: inputs under which many arguments of Min and Max are equal.
pub fn zero(random: &mut Random) -> u64 {
    random.choice(&[0.0_f64, -0.0, 0.0, -0.0, 1.0, -1.0]).to_bits()
}

/// Bits of a float; with the chance `strange` one that isn't finite.
pub fn value(random: &mut Random, strange: f64) -> u64 {
    if random.chance(strange) {
        return random.choice(&NOT_FINITE);
    }
    match random.part() {
        p if p < 0.7 => random.choice(&ORDINARY).to_bits(),
        p if p < 0.82 => random.choice(&EDGES).to_bits(),
        p if p < 0.97 => (20.0 * random.part() - 8.0).to_bits(),
        _ => {
            let bits = random.bits();
            if bits >> 52 & 0x7ff == 0x7ff { bits & !(1 << 62) } else { bits }
        }
    }
}

/// A case, of a kind that the weights make likely.
pub fn case(random: &mut Random) -> Case {
    let count = [0, 1, 2, 3, 4, 5, 6, 256][random.weighted(&[40, 200, 250, 200, 150, 80, 75, 5])];
    let kinds: Vec<u8> = (0..count).map(|_| b"psti"[random.weighted(&[70, 15, 5, 10])]).collect();
    let mut names = name_line(random, &kinds);
    let faults = if random.chance(0.15) { 0.04 } else { 0.0 };
    let mut maker = Maker { random, kinds, used: Vec::new(), faults, still: false, out: Vec::new() };
    maker.formula();
    let symbol = maker.symbol();
    let mut formula = maker.out;
    if random.chance(0.1) {
        formula = faulty(random, formula);
    }
    if random.chance(0.02) {
        names = damaged_line(random, names);
    }
    Case { formula, names, symbol }
}

fn name_line(random: &mut Random, kinds: &[u8]) -> Vec<u8> {
    const LONG: &str = "xxxxxxxxxxxxxxxxxxxxxxxxxxxxxxxxxxxxxxxx";
    let stems = ["a", "b_", "_c", "wind", "tas9", LONG, "_"];
    let mut line = Vec::new();
    for (i, kind) in kinds.iter().enumerate() {
        if i > 0 {
            line.push(b',');
        }
        line.extend(random.choice(&stems).bytes());
        line.extend(format!("n{i}:").bytes());
        line.push(*kind);
    }
    line
}

fn damaged_line(random: &mut Random, mut line: Vec<u8>) -> Vec<u8> {
    let at = random.below(line.len() + 1);
    let numbered = |count: usize| (0..count).map(|i| format!("n{i}:p")).collect::<Vec<_>>().join(",").into_bytes();
    match random.below(8) {
        0 => line.insert(at, random.choice(b",:ps9A_ \n\r\0\xff")),
        1 if at < line.len() => drop(line.remove(at)),
        2 => line.truncate(at),
        3 => line.push(b','),
        4 => {
            let again = line.clone();
            line.push(b',');
            line.extend(again);
        }
        5 => line = b"9a:p".to_vec(),
        6 => {
            line = vec![b'a'; random.choice(&[64, 65])];
            line.extend(b":p");
        }
        _ => line = numbered(random.choice(&[255, 256, 257])),
    }
    line
}

/// The formula damaged up to three times; one in four under lists that claim to have up to 65,535 parts.
fn faulty(random: &mut Random, mut formula: Vec<u8>) -> Vec<u8> {
    if random.chance(0.25) {
        let any = random.below(1 << 16);
        let count = random.choice(&[2, 3, 255, 256, 65535, any]);
        let (kind, operator) = random.choice(&[(CALL, MIN), (CALL, MAX), (BOOLEAN, 0), (BOOLEAN, 1)]);
        let mut lists = Vec::new();
        (0..random.choice(&[1, 1, 2, 10, 300])).for_each(|_| node(&mut lists, kind, operator, count, 0, 0));
        lists.extend(formula.repeat(random.choice(&[1, 2, 3])));
        formula = lists;
    }
    for _ in 0..random.choice(&[1, 1, 2, 3]) {
        if !formula.is_empty() {
            formula = damaged(random, formula);
        }
    }
    formula
}

/// The formula with a field changed, cut, cut in or after a node that is none, or followed by something.
fn damaged(random: &mut Random, mut formula: Vec<u8>) -> Vec<u8> {
    let at = random.below(formula.len());
    let start = at / NODE_SIZE * NODE_SIZE;
    let (from, to) = random.choice(&[(0, 1), (1, 2), (2, 4), (4, 8), (8, NODE_SIZE)]);
    match random.below(9) {
        0..=2 => {
            let wild = random.bits();
            let new = random.choice(&[0, 1, 2, 3, wild]).to_le_bytes();
            formula.iter_mut().skip(start + from).zip(&new[..to - from]).for_each(|(byte, new)| *byte = *new);
        }
        3 => formula[at] ^= 1 << random.below(8),
        4 => formula.truncate(random.choice(&[at, start])),
        5 => formula.extend_from_within(start..),
        6 => formula[start] = 9,
        7 => {
            formula[start] = 9;
            formula.truncate(start + 1 + random.below(NODE_SIZE));
        }
        _ => formula.extend(vec![0; random.choice(&[1, NODE_SIZE - 1, NODE_SIZE, NODE_SIZE + 1])]),
    }
    formula
}

impl Maker<'_> {
    fn node(&mut self, kind: u8, operator: u8, children: usize) {
        node(&mut self.out, kind, operator, children, 0, 0);
    }

    /// Mostly up to 30 nodes, now and then up to 250 or at a limit.
    fn formula(&mut self) {
        if self.random.chance(0.006) {
            return self.at_a_limit();
        }
        let large = self.random.chance(0.01);
        let budget = if large {
            30 + self.random.below(220)
        } else {
            self.random.choice(&[1, 2, 3, 4, 5, 6, 8, 10, 12, 15, 20, 25, 30])
        };
        if self.random.chance(0.07) {
            self.truth(budget)
        } else {
            self.number(budget)
        }
    }

    /// Nodes for each of so many children.
    fn shares(&mut self, budget: usize, parts: usize) -> Vec<usize> {
        let left = budget.saturating_sub(1);
        let mut cuts: Vec<usize> = (1..parts).map(|_| self.random.below(left + 1)).collect();
        cuts.sort_unstable();
        cuts.push(left);
        let mut before = 0;
        cuts.iter().map(|cut| cut - std::mem::replace(&mut before, *cut)).collect()
    }

    fn numbers(&mut self, budget: usize, parts: usize) {
        if parts == 0 {
            return;
        }
        for share in self.shares(budget, parts) {
            self.number(share);
        }
    }

    fn truths(&mut self, budget: usize, parts: usize) {
        for share in self.shares(budget, parts) {
            self.truth(share);
        }
    }

    /// A part that mostly holds parameters alone, as conditions and rounding need.
    fn kept_still(&mut self, make: impl FnOnce(&mut Self)) {
        let before = self.still;
        self.still = before || self.random.chance(0.9);
        make(self);
        self.still = before;
    }

    fn number(&mut self, budget: usize) {
        if self.random.chance(self.faults) {
            return self.fault(budget);
        }
        if budget <= 1 {
            return self.leaf();
        }
        match self.random.weighted(&[10, 40, 25, 8, 9, 8]) {
            0 => {
                let operator = self.random.below(2) as u8;
                self.node(UNARY, operator, 1);
                self.number(budget - 1);
            }
            1 => self.arithmetic(budget),
            2 => self.call(budget),
            3 => {
                let (function, parts) = (self.random.choice(&[MIN, MAX]), self.random.choice(&[2, 2, 3, 5]));
                self.node(CALL, function, parts);
                self.numbers(budget, parts);
            }
            4 => {
                let function = self.random.choice(&[HILL, DENSITY]);
                self.node(CALL, function, 3);
                self.numbers(budget, 3);
            }
            _ => self.branch(budget),
        }
    }

    fn arithmetic(&mut self, budget: usize) {
        let operator = self.random.weighted(&[20, 15, 25, 18, 14, 8]) as u8;
        self.node(BINARY, operator, 2);
        if operator == 5 {
            self.kept_still(|maker| maker.numbers(budget, 2));
        } else {
            self.numbers(budget, 2);
        }
    }

    fn call(&mut self, budget: usize) {
        let function = self.random.below(11) as u8;
        self.node(CALL, function, 1);
        if matches!(function, FLOOR | CEIL) {
            self.kept_still(|maker| maker.number(budget - 1));
        } else {
            self.number(budget - 1);
        }
    }

    fn branch(&mut self, budget: usize) {
        let shares = self.shares(budget, 3);
        if self.random.chance(0.4) {
            self.node(CALL, IFELSE, 3);
        } else {
            self.node(CONDITIONAL, 0, 3);
        }
        self.kept_still(|maker| maker.truth(shares[0]));
        self.number(shares[1]);
        self.number(shares[2]);
    }

    fn truth(&mut self, budget: usize) {
        if self.random.chance(self.faults) {
            return self.fault(budget);
        }
        if budget <= 2 {
            let truth = self.random.below(2) as u64;
            return node(&mut self.out, TRUTH, 0, 0, 0, truth);
        }
        match self.random.weighted(&[60, 10, 5, 25]) {
            0 => {
                let operator = self.random.below(6) as u8;
                self.node(COMPARE, operator, 2);
                self.numbers(budget, 2);
            }
            1 => {
                self.node(UNARY, 2, 1);
                self.truth(budget - 1);
            }
            2 => {
                self.node(CONDITIONAL, 0, 3);
                self.truths(budget, 3);
            }
            _ => {
                let (operator, parts) = (self.random.below(2) as u8, self.random.choice(&[2, 2, 3, 4]));
                self.node(BOOLEAN, operator, parts);
                self.truths(budget, parts);
            }
        }
    }

    fn leaf(&mut self) {
        let still = self.still;
        let usable: Vec<u32> = (0..).zip(&self.kinds).filter(|(_, kind)| **kind == b'p' || !still).map(|(i, _)| i).collect();
        if !usable.is_empty() && self.random.chance(0.65) {
            let symbol = self.random.choice(&usable);
            self.used.push(symbol);
            return node(&mut self.out, SYMBOL, 0, 0, symbol, 0);
        }
        let bits = value(self.random, 0.0);
        node(&mut self.out, NUMBER, 0, 0, 0, bits);
    }

    /// A part with a fault of arity, symbol, type, state or literal.
    fn fault(&mut self, budget: usize) {
        match self.random.below(6) {
            0 => {
                let symbol = self.random.choice(&[self.kinds.len() as u32, 256, u32::MAX]);
                node(&mut self.out, SYMBOL, 0, 0, symbol, 0);
            }
            1 => {
                let bits = self.random.choice(&NOT_FINITE);
                node(&mut self.out, NUMBER, 0, 0, 0, bits);
            }
            2 => {
                let truth = self.random.below(2) as u64;
                node(&mut self.out, TRUTH, 0, 0, 0, truth);
            }
            3 => self.leaf(),
            which => {
                let (operator, parts) = (self.random.below(16) as u8, self.random.below(5));
                if which == 4 {
                    self.node(CALL, operator, parts);
                } else {
                    self.node(BOOLEAN, operator % 2, parts);
                }
                self.numbers(budget, parts);
            }
        }
    }

    /// A formula near the limits of nodes or depth, or one with a large derivative.
    fn at_a_limit(&mut self) {
        match self.random.below(5) {
            0 => {
                let (kind, operator) = self.random.choice(&[(UNARY, 0), (UNARY, 1), (CALL, 3)]);
                for _ in 1..self.random.choice(&[31, 32, 33, 100, 5000]) {
                    self.node(kind, operator, 1);
                }
            }
            1 => {
                let (function, parts) = (self.random.choice(&[MIN, MAX]), self.random.choice(&[40, 125, 126, 254, 255, 256, 400]));
                self.node(CALL, function, parts);
                for _ in 1..parts {
                    self.leaf();
                }
            }
            2 => {
                let (operator, parts) = (self.random.below(2) as u8, self.random.choice(&[100, 253, 254, 255, 256]));
                self.node(BOOLEAN, operator, parts);
                for _ in 1..parts {
                    self.truth(1);
                }
                return self.truth(1);
            }
            3 => {
                for _ in 0..self.random.choice(&[3, 6, 8, 9, 10, 11, 12]) {
                    self.node(CALL, ABS, 1);
                }
            }
            _ => {
                for _ in 0..self.random.choice(&[10, 20, 31, 32]) {
                    let operator = self.random.choice(&[0, 1, 2, 3]);
                    self.node(BINARY, operator, 2);
                    self.leaf();
                }
            }
        }
        self.leaf();
    }

    /// A symbol to derive by, mostly one that the formula has.
    fn symbol(&mut self) -> u32 {
        if !self.used.is_empty() && self.random.chance(0.85) {
            return self.random.choice(&self.used);
        }
        let count = self.kinds.len();
        if count > 0 && self.random.chance(0.8) {
            return self.random.below(count) as u32;
        }
        self.random.choice(&[0, count as u32, 255, 256, u32::MAX])
    }
}
