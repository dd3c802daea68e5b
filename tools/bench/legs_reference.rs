//! The work of `legs` done by the reference: formula.bin and lines of values in, one line a line out, then the total. No formula
//! here asks.
include!("../../reference/src/modules.rs");
mod libm;
#[path = "../../reference/src/steps.rs"]
mod steps;
#[path = "../shared/values.rs"]
mod values;

use compile::Program;
use errors::ErrorCode;
use std::io::{self, BufRead, Write};
use values::values;

/// Lines of values that are listed at most.
const LINES: u64 = 1_000_000;

/// What the total line counts, by its place there; no line is an `ask`.
const VALUE: usize = 0;
const DOMAIN: usize = 1;
const BAD: usize = 3;

/// Writes the record of a line. Gives what it is counted as, and its steps.
fn record(program: &Program, number: u64, inputs: &[f64], registers: &mut [f64], output: &mut impl Write) -> io::Result<(usize, u64)> {
    steps::reset();
    match program.evaluate_into(inputs, registers) {
        Ok(value) => {
            writeln!(output, "{number},value,{:016x},{}", value.to_bits(), steps::count())?;
            Ok((VALUE, steps::count()))
        }
        Err(error) if error.code == ErrorCode::Domain => {
            writeln!(output, "{number},domain,{},{}", error.expression.unwrap_or_default(), steps::count())?;
            Ok((DOMAIN, steps::count()))
        }
        Err(_) => bad(number, 5, output),
    }
}

fn bad(number: u64, refusal: u8, output: &mut impl Write) -> io::Result<(usize, u64)> {
    writeln!(output, "{number},bad,{refusal},0")?;
    Ok((BAD, 0))
}

fn main() -> io::Result<()> {
    let formula = std::fs::read("formula.bin")?;
    let (mut input, mut output) = (io::stdin().lock(), io::BufWriter::new(io::stdout().lock()));
    let mut line = Vec::new();
    input.read_until(b'\n', &mut line)?;
    let symbols = names::read(line.strip_suffix(b"\n").unwrap_or(&line)).expect("a name line");
    let program = Program::compile(&nodes::read(&formula, &symbols), &symbols).expect("a formula that compiles");
    let (mut registers, mut inputs) = (program.workspace(), Vec::new());
    let (mut counts, mut sum) = ([0u64; 4], 0);
    writeln!(output, "no,answer,detail,steps")?;
    for number in 1..=LINES {
        line.clear();
        if input.read_until(b'\n', &mut line)? == 0 {
            break;
        }
        let good = values(line.strip_suffix(b"\n").unwrap_or(&line), &mut inputs);
        let (column, steps) = if good { record(&program, number, &inputs, &mut registers, &mut output)? } else { bad(number, 3, &mut output)? };
        counts[column] += 1;
        sum += steps;
    }
    let [v, d, q, b] = counts;
    writeln!(output, "total,{v},{d},{q},{b},{sum}")?;
    output.flush()
}
