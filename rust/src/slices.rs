//! The library's functions on slices of the caller's: the answer is a number, and nothing is allocated.
//!
//! 0 is success, 1 to 13 are refusals (`Refusal`), `ASK` and `SPENT` are a run's other answers.
use crate::raw;

/// A path slice has this many bytes or more.
pub const PATH: usize = 8192;
/// Bytes of a formula's node, and of a program slice for each node.
pub const NODE: usize = 16;
pub const NODE_ROOM: usize = 240;
/// Bytes of a derivative node's record in the list slice: the rule's number and the formula node, 4 bytes each, least significant first.
pub const RECORD: usize = 8;
/// Numbers of a run's state and outcome.
pub const STATE: usize = 16;
/// Numbers of a report, in which a call hands out what it has beside its answer. A report of fewer is refused, and not written.
pub const REPORT: usize = 8;
/// The place in a report's numbers of the node of a refusal 2, 12 or 13. `compile` and `derive` write it, 0 where there is none; all else
/// in a report stays as it was.
pub const NODE_AT: usize = 0;
/// A run's answer: a question pends.
pub const ASK: usize = 100;
/// A run's answer: the whole budget was completed and code remains.
pub const SPENT: usize = 101;

/// Places in a state's numbers. Values and arguments are the bits of an f64.
pub const POSITION: usize = 0;
pub const KEPT_COUNT: usize = 1;
pub const KEPT: usize = 2;
/// 0 for no question, else one more than the function's number; Power's number is 16.
pub const QUESTION: usize = 11;
pub const FIRST: usize = 12;
pub const SECOND: usize = 13;
/// Instructions completed by the last call that was not refused: a refused `resume` leaves all numbers as they were.
pub const COUNT: usize = 14;
/// The value's bits where that call's answer was 0.
pub const VALUE: usize = 15;

/// Bytes that a program slice needs for a formula of so many bytes.
pub fn program_room(formula_length: usize) -> usize {
    formula_length.div_ceil(NODE) * NODE_ROOM
}

/// 0 and a program, or a refusal; its node is in the report.
pub fn compile(formula: &[u8], names: &[u8], path: &mut [u8], program: &mut [u8], report: &mut [u64]) -> usize {
    // SAFETY: each pointer has its slice's length after it, and the library stays within both.
    unsafe {
        raw::vebrostin_compile(
            formula.as_ptr(), formula.len(), names.as_ptr(), names.len(),
            path.as_mut_ptr(), path.len(), program.as_mut_ptr(), program.len(), report.as_mut_ptr(), report.len(),
        )
    }
}

/// 0, a derivative tree, a record for each of its nodes and its program, or a refusal; its node is in the report.
pub fn derive(
    formula: &[u8], names: &[u8], symbol: u32, path: &mut [u8], tree: &mut [u8], list: &mut [u8], program: &mut [u8],
    report: &mut [u64],
) -> usize {
    // SAFETY: as in `compile`.
    unsafe {
        raw::vebrostin_derive(
            formula.as_ptr(), formula.len(), names.as_ptr(), names.len(), symbol,
            path.as_mut_ptr(), path.len(), tree.as_mut_ptr(), tree.len(), list.as_mut_ptr(), list.len(),
            program.as_mut_ptr(), program.len(), report.as_mut_ptr(), report.len(),
        )
    }
}

/// Whether run and resume take these bytes.
pub fn is_program(program: &[u8]) -> bool {
    // SAFETY: as in `compile`.
    unsafe { raw::vebrostin_is_program(program.as_ptr(), program.len()) }
}

/// Instructions of a program.
pub fn instructions(program: &[u8]) -> usize {
    // SAFETY: as in `compile`.
    unsafe { raw::vebrostin_instructions(program.as_ptr(), program.len()) }
}

/// Registers that a run of a program needs.
pub fn registers(program: &[u8]) -> usize {
    // SAFETY: as in `compile`.
    unsafe { raw::vebrostin_registers(program.as_ptr(), program.len()) }
}

/// Inputs that a run of a program takes.
pub fn inputs(program: &[u8]) -> usize {
    // SAFETY: as in `compile`.
    unsafe { raw::vebrostin_inputs(program.as_ptr(), program.len()) }
}

/// Begins a run: 0 with a value, `ASK`, `SPENT`, or a refusal.
pub fn run(
    program: &[u8], inputs: &[f64], registers: &mut [f64], path: &mut [u8], budget: usize, state: &mut [u64], report: &mut [u64],
) -> usize {
    call(raw::vebrostin_run, program, inputs, registers, path, budget, state, report)
}

/// Goes on with a run, with a value for the question that pends or without. Refused with 1, 5, 10 or 11 it leaves state and registers.
pub fn resume(
    program: &[u8], inputs: &[f64], registers: &mut [f64], path: &mut [u8], budget: usize, state: &mut [u64], report: &mut [u64],
    value: Option<f64>,
) -> usize {
    match value {
        None => call(raw::vebrostin_resume, program, inputs, registers, path, budget, state, report),
        Some(value) => answer(raw::vebrostin_answer, program, inputs, registers, path, budget, state, report, value),
    }
}

/// `run` without the check of the bytes, for those of a program: made by `compile` or `derive`, or taken by `is_program`. With other
/// bytes the call stays in its slices and ends, and its answer means nothing.
pub fn run_unchecked(
    program: &[u8], inputs: &[f64], registers: &mut [f64], path: &mut [u8], budget: usize, state: &mut [u64], report: &mut [u64],
) -> usize {
    call(raw::vebrostin_run_unchecked, program, inputs, registers, path, budget, state, report)
}

/// `resume` without the check of the bytes, as `run_unchecked`.
pub fn resume_unchecked(
    program: &[u8], inputs: &[f64], registers: &mut [f64], path: &mut [u8], budget: usize, state: &mut [u64], report: &mut [u64],
    value: Option<f64>,
) -> usize {
    match value {
        None => call(raw::vebrostin_resume_unchecked, program, inputs, registers, path, budget, state, report),
        Some(value) => answer(raw::vebrostin_answer_unchecked, program, inputs, registers, path, budget, state, report, value),
    }
}

#[inline(always)]
fn call(
    function: raw::Call, program: &[u8], inputs: &[f64], registers: &mut [f64], path: &mut [u8], budget: usize, state: &mut [u64],
    report: &mut [u64],
) -> usize {
    // SAFETY: as in `compile`.
    unsafe {
        function(
            program.as_ptr(), program.len(), inputs.as_ptr(), inputs.len(), registers.as_mut_ptr(), registers.len(),
            path.as_mut_ptr(), path.len(), budget, state.as_mut_ptr(), state.len(), report.as_mut_ptr(), report.len(),
        )
    }
}

#[inline(always)]
fn answer(
    function: raw::Answer, program: &[u8], inputs: &[f64], registers: &mut [f64], path: &mut [u8], budget: usize, state: &mut [u64],
    report: &mut [u64], value: f64,
) -> usize {
    // SAFETY: as in `compile`.
    unsafe {
        function(
            program.as_ptr(), program.len(), inputs.as_ptr(), inputs.len(), registers.as_mut_ptr(), registers.len(),
            path.as_mut_ptr(), path.len(), budget, state.as_mut_ptr(), state.len(), report.as_mut_ptr(), report.len(), value,
        )
    }
}

/// The text at the start of a path slice.
pub fn text(path: &[u8]) -> String {
    let end = path.iter().position(|byte| *byte == 0).unwrap_or(path.len());
    String::from_utf8_lossy(&path[..end]).into_owned()
}
