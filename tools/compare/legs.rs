//! The program `legs` beside the same work done by the reference.
use crate::compile::Program;
use crate::errors::ErrorCode;
use crate::formulas::{self, Case};
use crate::libm::{self, Asked, Source};
use crate::machine::bits;
use crate::node::NODE_SIZE;
use crate::random::Random;
use crate::values::values;
use crate::{nodes, read, refusal, steps, Refused};
use std::fmt::Write;
use std::fs::{self, File};
use std::panic::{catch_unwind, AssertUnwindSafe};
use std::path::PathBuf;
use std::process::Command;

const HEADER: &str = "no,answer,detail,steps\n";
/// Bytes of a formula file at most.
const LARGEST: usize = 4096;
/// Lines of values that are listed at most.
const LINES: usize = 1_000_000;

/// The program and the folder that it is run in.
pub struct Legs {
    program: PathBuf,
    folder: PathBuf,
}

/// The lines of a text; nothing after a last newline is no line.
fn lines(text: &[u8]) -> Vec<&[u8]> {
    let mut lines: Vec<&[u8]> = text.split(|byte| *byte == b'\n').collect();
    if lines.last().is_some_and(|line| line.is_empty()) {
        lines.pop();
    }
    lines
}

/// A line's answer, detail and steps. Whether a zero's sign counts is left to the comparison.
fn record(program: &Program, line: &[u8], out: &mut String) {
    let mut inputs = Vec::new();
    if !values(line, &mut inputs) {
        return out.push_str("bad,3,0");
    }
    libm::begin(Source::List(Default::default()));
    steps::reset();
    let outcome = catch_unwind(AssertUnwindSafe(|| program.evaluate(&inputs)));
    let steps = steps::count();
    let written = match outcome {
        Ok(Ok(value)) => write!(out, "value,{:016x},{steps}", bits(value)),
        Ok(Err(error)) if error.code == ErrorCode::Domain => write!(out, "domain,{},{steps}", error.expression.unwrap_or_default()),
        Ok(Err(_)) => write!(out, "bad,5,0"),
        Err(payload) => {
            let asked = payload.downcast::<Asked>().expect("only a question unwinds").0;
            let arguments: String = asked.arguments.iter().map(|x| format!(":{:016x}", bits(*x))).collect();
            write!(out, "ask,{}{arguments},{steps}", asked.function)
        }
    };
    written.expect("a string takes all");
}

/// The whole output: the header, the lines above the total, and the total, added up from their text.
fn whole(above: &str) -> String {
    let count = |answer: &str| above.lines().filter(|line| line.split(',').nth(1) == Some(answer)).count();
    let completed = |line: &str| line.rsplit(',').next().and_then(|steps| steps.parse::<u64>().ok()).expect("a line ends in its steps");
    let steps: u64 = above.lines().map(completed).sum();
    format!("{HEADER}{above}total,{},{},{},{},{steps}\n", count("value"), count("domain"), count("ask"), count("bad"))
}

/// The whole output, worked out by the reference.
fn expected(formula: &[u8], input: &[u8]) -> String {
    let mut out = String::new();
    let lines = lines(input);
    let (line, values) = lines.split_first().map_or((&b""[..], &[][..]), |(line, values)| (*line, values));
    let read = if formula.len() <= LARGEST { read(formula, line) } else { Err(Refused::plain(1)) };
    let program = read.and_then(|(expr, symbols)| {
        let program = Program::compile(&expr, &symbols).map_err(refusal);
        nodes::dismantle(expr);
        program
    });
    match program {
        Err(Refused { number, place, node }) => {
            let detail = node.map_or(place.unwrap_or_default(), |node| node.to_string());
            writeln!(out, "0,refused,{number}:{detail},0").expect("a string takes all");
        }
        Ok(program) => {
            for (number, line) in (1..).zip(values.iter().take(LINES)) {
                write!(out, "{number},").expect("a string takes all");
                record(&program, line, &mut out);
                out.push('\n');
            }
        }
    }
    whole(&out)
}

/// Lines of values for a name line, some damaged.
fn input(case: &Case, loose: bool, random: &mut Random) -> Vec<u8> {
    let count = if case.names.is_empty() { 0 } else { case.names.split(|byte| *byte == b',').count() };
    let mut input = case.names.clone();
    for _ in 0..random.choice(&[0, 1, 5, 20, 40]) {
        input.push(b'\n');
        let wrong = usize::from(random.chance(0.03));
        let strange = if random.chance(0.05) { 0.2 } else { 0.0 };
        let zeros = loose && random.chance(0.3);
        let value = |random: &mut Random| if zeros { formulas::zero(random) } else { formulas::value(random, strange) };
        let items: Vec<String> = (0..count + wrong).map(|_| format!("{:016x}", value(random))).collect();
        let mut line = items.join(",").into_bytes();
        if random.chance(0.05) && !line.is_empty() {
            let at = random.below(line.len());
            line[at] = random.choice(b",gA \r0\xff");
        }
        input.extend(line);
    }
    if random.chance(0.9) {
        input.push(b'\n');
    }
    input
}

/// Whether two outputs are the same, a zero's sign apart where the formula has Min or Max.
fn same(here: &str, there: &str, loose: bool) -> bool {
    let unsigned = |text: &str| text.replace("8000000000000000", "0000000000000000");
    here == there || (loose && unsigned(here) == unsigned(there))
}

impl Legs {
    pub fn new(program: String) -> Self {
        let folder = std::env::temp_dir().join(format!("legs-{}", std::process::id()));
        fs::create_dir_all(&folder).expect("a folder for the files");
        Self { program: fs::canonicalize(program).expect("the program legs"), folder }
    }

    /// Runs `legs` on a case and compares; gives the number of lines, and of those with a zero of the other sign.
    pub fn compare(&mut self, case: &Case, random: &mut Random) -> Result<(u64, u64), String> {
        let loose = case.formula.chunks_exact(NODE_SIZE).any(|node| node[0] == 7 && matches!(node[1], 11 | 12));
        let input = input(case, loose, random);
        let (formula, text) = (self.folder.join("formula.bin"), self.folder.join("input"));
        let none = random.chance(0.01);
        fs::write(&text, &input).map_err(|e| e.to_string())?;
        if none {
            fs::remove_file(&formula).ok();
        } else {
            fs::write(&formula, &case.formula).map_err(|e| e.to_string())?;
        }
        let stdin = File::open(&text).map_err(|e| e.to_string())?;
        let output = Command::new(&self.program).current_dir(&self.folder).stdin(stdin).output().map_err(|e| e.to_string())?;
        let here = String::from_utf8_lossy(&output.stdout);
        let there = if none { whole("0,refused,1:,0\n") } else { expected(&case.formula, &input) };
        if output.status.success() && same(&here, &there, loose) {
            let zeros = here.lines().zip(there.lines()).filter(|(a, b)| a != b).count();
            // header and total are no records
            Ok((there.lines().count() as u64 - 2, zeros as u64))
        } else {
            let input = String::from_utf8_lossy(&input);
            Err(format!("legs ends with {}: here\n{here}in Rust\n{there}for\n{input}", output.status))
        }
    }
}

impl Drop for Legs {
    fn drop(&mut self) {
        fs::remove_dir_all(&self.folder).ok();
    }
}
