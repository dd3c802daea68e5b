//! The C functions of the static library, as `include/vebrostin.h` declares them: a slice is a pointer and a length.
extern "C" {
    pub fn vebrostin_compile(
        formula: *const u8, formula_length: usize, names: *const u8, names_length: usize,
        path: *mut u8, path_length: usize, program: *mut u8, program_length: usize,
        report: *mut u64, report_length: usize,
    ) -> usize;
    pub fn vebrostin_derive(
        formula: *const u8, formula_length: usize, names: *const u8, names_length: usize, symbol: u32,
        path: *mut u8, path_length: usize, tree: *mut u8, tree_length: usize, list: *mut u8, list_length: usize,
        program: *mut u8, program_length: usize, report: *mut u64, report_length: usize,
    ) -> usize;
    pub fn vebrostin_is_program(program: *const u8, program_length: usize) -> bool;
    pub fn vebrostin_instructions(program: *const u8, program_length: usize) -> usize;
    pub fn vebrostin_registers(program: *const u8, program_length: usize) -> usize;
    pub fn vebrostin_inputs(program: *const u8, program_length: usize) -> usize;
    pub fn vebrostin_run(
        program: *const u8, program_length: usize, inputs: *const f64, inputs_length: usize,
        registers: *mut f64, registers_length: usize, path: *mut u8, path_length: usize,
        budget: usize, state: *mut u64, state_length: usize, report: *mut u64, report_length: usize,
    ) -> usize;
    pub fn vebrostin_resume(
        program: *const u8, program_length: usize, inputs: *const f64, inputs_length: usize,
        registers: *mut f64, registers_length: usize, path: *mut u8, path_length: usize,
        budget: usize, state: *mut u64, state_length: usize, report: *mut u64, report_length: usize,
    ) -> usize;
    pub fn vebrostin_answer(
        program: *const u8, program_length: usize, inputs: *const f64, inputs_length: usize,
        registers: *mut f64, registers_length: usize, path: *mut u8, path_length: usize,
        budget: usize, state: *mut u64, state_length: usize, report: *mut u64, report_length: usize, value: f64,
    ) -> usize;
    pub fn vebrostin_run_unchecked(
        program: *const u8, program_length: usize, inputs: *const f64, inputs_length: usize,
        registers: *mut f64, registers_length: usize, path: *mut u8, path_length: usize,
        budget: usize, state: *mut u64, state_length: usize, report: *mut u64, report_length: usize,
    ) -> usize;
    pub fn vebrostin_resume_unchecked(
        program: *const u8, program_length: usize, inputs: *const f64, inputs_length: usize,
        registers: *mut f64, registers_length: usize, path: *mut u8, path_length: usize,
        budget: usize, state: *mut u64, state_length: usize, report: *mut u64, report_length: usize,
    ) -> usize;
    pub fn vebrostin_answer_unchecked(
        program: *const u8, program_length: usize, inputs: *const f64, inputs_length: usize,
        registers: *mut f64, registers_length: usize, path: *mut u8, path_length: usize,
        budget: usize, state: *mut u64, state_length: usize, report: *mut u64, report_length: usize, value: f64,
    ) -> usize;
}

/// `vebrostin_run` or `vebrostin_resume`, with the check of the bytes or without.
pub type Call = unsafe extern "C" fn(
    *const u8, usize, *const f64, usize, *mut f64, usize, *mut u8, usize, usize, *mut u64, usize, *mut u64, usize,
) -> usize;
/// `vebrostin_answer`, with the check of the bytes or without.
pub type Answer = unsafe extern "C" fn(
    *const u8, usize, *const f64, usize, *mut f64, usize, *mut u8, usize, usize, *mut u64, usize, *mut u64, usize, f64,
) -> usize;
