//! Shows what the reference keeps private: a program's code and the tree of a derivative.
use super::*;
use crate::numbers::{number_of, BINARY, COMPARE, FUNCTIONS, UNARY};
use std::fmt::Write;

/// An instruction in the numbers of docs/PROGRAM.md: opcode, destination, the fields a, b and c, a list of registers, the path.
pub(crate) struct Row<'a> {
    pub opcode: u8,
    pub destination: usize,
    pub fields: [usize; 3],
    pub list: &'a [usize],
    pub path: &'a str,
}

impl Program {
    /// The counts of registers and inputs, and the result's register.
    pub(crate) fn counts(&self) -> (usize, usize, usize) {
        (self.registers, self.inputs, self.result)
    }

    pub(crate) fn rows(&self) -> impl Iterator<Item = Row<'_>> {
        self.code.iter().map(|instruction| {
            let (opcode, fields, list) = numbers(&instruction.op);
            let (destination, path) = (instruction.destination, instruction.path.as_str());
            Row { opcode, destination, fields, list, path }
        })
    }

    /// `program REGISTERS RESULT INPUTS KIND INSTR;INSTR;..`
    pub(crate) fn show(&self) -> String {
        let kind = match self.kind {
            ValueKind::Number => "number",
            ValueKind::Boolean => "boolean",
        };
        let mut line = format!(
            "program {} {} {} {kind} ",
            self.registers, self.result, self.inputs
        );
        for (at, instruction) in self.code.iter().enumerate() {
            let separator = if at == 0 { "" } else { ";" };
            let (destination, path) = (instruction.destination, &instruction.path);
            let op = show_op(&instruction.op);
            write!(line, "{separator}{op},{destination},{path}").expect("a string takes all");
        }
        line
    }

    /// The tree that `derivative` compiles: 0 × formula + derivative.
    pub(crate) fn tree_of_derivative(
        expr: &Expr,
        symbols: &[Symbol],
        with_respect_to: &str,
    ) -> Result<Expr, Error> {
        let table = SymbolTable::new(symbols)?;
        Self::derivative_tree(expr, &table, with_respect_to, true)
    }
}

fn numbers(op: &Op) -> (u8, [usize; 3], &[usize]) {
    match op {
        Op::Constant(value) => {
            let bits = value.to_bits() as usize;
            (0, [bits & 0xffff_ffff, bits >> 32, 0], &[])
        }
        Op::Load(input) => (1, [*input, 0, 0], &[]),
        Op::Copy(a) => (2, [*a, 0, 0], &[]),
        Op::JumpIfFalse(a, target) => (3, [*a, 0, *target], &[]),
        Op::Jump(target) => (4, [0, 0, *target], &[]),
        Op::Unary(k, a) => (5 + number_of(&UNARY, k), [*a, 0, 0], &[]),
        Op::Binary(k, a, b) => (8 + number_of(&BINARY, k), [*a, *b, 0], &[]),
        Op::Compare(k, a, b) => (14 + number_of(&COMPARE, k), [*a, *b, 0], &[]),
        Op::Call(Function::Min, list) => (31, [0; 3], list),
        Op::Call(Function::Max, list) => (32, [0; 3], list),
        Op::Call(Function::InverseGaussianDensity, list) => (34, [list[0], list[1], list[2]], &[]),
        Op::Call(k, list) => {
            let register = |i: usize| list.get(i).copied().unwrap_or(0);
            (20 + number_of(&FUNCTIONS, k), [register(0), register(1), register(2)], &[])
        }
    }
}

fn show_op(op: &Op) -> String {
    match op {
        Op::Constant(value) => format!("const:{:016x}", value.to_bits()),
        Op::Load(input) => format!("load:{input}"),
        Op::Unary(k, a) => format!("unary:{}:{a}", number_of(&UNARY, k)),
        Op::Binary(k, a, b) => format!("binary:{}:{a}:{b}", number_of(&BINARY, k)),
        Op::Compare(k, a, b) => format!("compare:{}:{a}:{b}", number_of(&COMPARE, k)),
        Op::Call(k, arguments) => {
            let registers: String = arguments.iter().map(|r| format!(":{r}")).collect();
            format!("call:{}{registers}", number_of(&FUNCTIONS, k))
        }
        Op::Copy(a) => format!("copy:{a}"),
        Op::JumpIfFalse(a, target) => format!("jif:{a}:{target}"),
        Op::Jump(target) => format!("jump:{target}"),
    }
}
