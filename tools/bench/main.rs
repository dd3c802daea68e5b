//! Times the library beside the Rust reference on the same inputs in one run, as tables: bench [LEGS LEGS_REFERENCE].
//!
//! A figure is the least of many rounds; the two sides take turns in each round. With the paths of the program `legs` and of the
//! same work done by the reference, lines a second and peak memory too.
include!("../../reference/src/modules.rs");
mod counts;
mod formulas;
mod legs;
mod libm;
#[path = "../shared/node.rs"]
mod node;
/// The reference without its count of instructions.
mod steps {
    #[inline(always)]
    pub fn completed() {}
}

use compile::Program;
use node::NODE_SIZE;
use std::hint::black_box;
use std::time::{Duration, Instant};
use vebrostin::slices::{self, ASK, FIRST, PATH, QUESTION, RECORD, REPORT, SECOND, STATE, VALUE};
use vebrostin::Question;

/// How long the rounds of one line go on.
const SPAN: Duration = Duration::from_millis(400);

/// The least times of the two sides, in nanoseconds a call.
fn least(mut here: impl FnMut(), mut there: impl FnMut()) -> (f64, f64) {
    let once = |f: &mut dyn FnMut(), times: u32| {
        let start = Instant::now();
        (0..times).for_each(|_| f());
        start.elapsed().as_nanos() as f64 / f64::from(times)
    };
    let first = once(&mut there, 1).max(20.0);
    let times = (200_000.0 / first).ceil() as u32;
    let (start, mut best) = (Instant::now(), (f64::MAX, f64::MAX));
    while start.elapsed() < SPAN {
        best.0 = best.0.min(once(&mut here, times));
        best.1 = best.1.min(once(&mut there, times));
    }
    best
}

fn row(name: &str, nodes: usize, size: usize, (here, there): (f64, f64)) {
    println!("| {name} | {nodes} | {size} | {:.2} | {:.2} | {:.2} |", here / 1000.0, there / 1000.0, here / there);
}

fn header(title: &str, size: &str, there: &str) {
    println!("\n### {title}\n\n| formula | nodes | {size} | here µs | {there} µs | here / Rust |\n|---|---|---|---|---|---|");
}

fn sized() -> Vec<(&'static str, Vec<u8>)> {
    let arithmetic = [1, 5, 25, 50, 128].map(|n| ("arithmetic", formulas::arithmetic(n)));
    let branches = [5, 15, 28].map(|n| ("branches", formulas::branches(n)));
    let lists = [8, 64, 255].map(|n| ("Min", formulas::list(n)));
    let flight = [("flight", formulas::flight())];
    flight.into_iter().chain(arithmetic).chain(branches).chain(lists).collect()
}

fn compile_table() {
    header("Compile", "instructions", "Rust");
    let many: String = (0..256).map(|i| format!("n{i:03}:p,")).collect();
    let long: String = (0..256).map(|i| format!("{:a>61}{i:03}:p,", "")).collect();
    let line = |text: &str| text.trim_end_matches(',').as_bytes().to_vec();
    let eight = sized().into_iter().map(|(name, f)| (name, f, formulas::NAMES.to_vec()));
    let others = [
        ("arithmetic, 256 names", formulas::arithmetic(128), line(&many)),
        ("arithmetic, 256 names of 64 letters", formulas::arithmetic(128), line(&long)),
    ];
    for (name, formula, names) in eight.chain(others) {
        let mut path = vec![0; PATH];
        let mut program = vec![0; slices::program_room(formula.len())];
        let here = || assert_eq!(slices::compile(black_box(&formula), &names, &mut path, &mut program, &mut [0; REPORT]), 0);
        let there = || {
            let symbols = names::read(black_box(&names)).unwrap();
            let expr = nodes::read(black_box(&formula), &symbols);
            black_box(Program::compile(&expr, &symbols).unwrap());
        };
        let times = least(here, there);
        row(name, formula.len() / NODE_SIZE, slices::instructions(&program), times);
    }
}

fn derive_table() {
    header("Derive by the first symbol, tree, records and program", "nodes of the derivative", "Rust");
    let lists = [2, 8, 32, 64].map(|n| ("Min", formulas::list(n)));
    let arithmetic = [1, 5, 25, 50, 128].map(|n| ("arithmetic", formulas::arithmetic(n)));
    let powers = [1, 4, 8, 16].map(|n| ("powers", formulas::powers(n)));
    for (name, formula) in [("flight", formulas::flight())].into_iter().chain(arithmetic).chain(lists).chain(powers) {
        let symbols = names::read(formulas::NAMES).unwrap();
        let tree = Program::tree_of_derivative(&nodes::read(&formula, &symbols), &symbols, "climb").unwrap();
        let size = nodes::write(&tree, &symbols).len();
        let (mut path, mut tree, mut list) = (vec![0; PATH], vec![0; size], vec![0; size / NODE_SIZE * RECORD]);
        let (mut program, report) = (vec![0; (15 * size).max(slices::program_room(formula.len()))], &mut [0; REPORT]);
        let here = || {
            let number = slices::derive(black_box(&formula), formulas::NAMES, 0, &mut path, &mut tree, &mut list, &mut program, report);
            assert_eq!(number, 0);
        };
        let there = || {
            let symbols = names::read(black_box(formulas::NAMES)).unwrap();
            let expr = nodes::read(black_box(&formula), &symbols);
            black_box(Program::derivative(&expr, &symbols, "climb").unwrap());
        };
        row(name, formula.len() / NODE_SIZE, size / NODE_SIZE, least(here, there));
    }
}

/// Memory for the runs of a program through the library's functions, with the check of its bytes at each call or without.
struct Host<'a> {
    program: &'a [u8],
    checked: bool,
    registers: Vec<f64>,
    path: Vec<u8>,
    state: [u64; STATE],
}

impl<'a> Host<'a> {
    fn new(program: &'a [u8], checked: bool) -> Self {
        Self { program, checked, registers: vec![0.0; slices::registers(program)], path: vec![0; PATH], state: [0; STATE] }
    }

    /// A whole run; the C library answers the questions.
    fn evaluate(&mut self, inputs: &[f64]) -> f64 {
        let (p, regs, path, state, report) = (self.program, &mut self.registers, &mut self.path, &mut self.state, &mut [0; REPORT]);
        let run = if self.checked { slices::run } else { slices::run_unchecked };
        let resume = if self.checked { slices::resume } else { slices::resume_unchecked };
        let mut number = run(p, inputs, regs, path, usize::MAX, state, report);
        while number == ASK {
            let first = f64::from_bits(state[FIRST]);
            let question = match state[QUESTION] {
                17 => Question::Power(first, f64::from_bits(state[SECOND])),
                n => Question::Elementary((n - 1) as u8, first),
            };
            number = resume(p, inputs, regs, path, usize::MAX, state, report, Some(question.by_libm()));
        }
        assert_eq!(number, 0);
        f64::from_bits(state[VALUE])
    }
}

fn inputs() -> Vec<f64> {
    (0..8).map(|i| 1.0 + f64::from(i * 37 % 8) / 16.0).collect()
}

fn run_table(title: &str, checked: bool) {
    header(title, "instructions", "Rust");
    let powers = [1, 8, 24].map(|n| ("powers, each asked", formulas::powers(n)));
    for (name, formula) in sized().into_iter().chain(powers) {
        let symbols = names::read(formulas::NAMES).unwrap();
        let reference = Program::compile(&nodes::read(&formula, &symbols), &symbols).unwrap();
        let (inputs, mut workspace) = (inputs(), reference.workspace());
        let program = vebrostin::Program::compile(&formula, formulas::NAMES).unwrap();
        let mut host = Host::new(program.bytes(), checked);
        let expected = reference.evaluate_into(&inputs, &mut workspace).unwrap();
        assert_eq!(host.evaluate(&inputs).to_bits(), expected.to_bits(), "{name}");
        let here = || {
            black_box(host.evaluate(black_box(&inputs)));
        };
        let there = || drop(black_box(reference.evaluate_into(black_box(&inputs), &mut workspace)));
        let times = least(here, there);
        row(name, formula.len() / NODE_SIZE, reference.instruction_count(), times);
    }
}

fn main() {
    let words: Vec<String> = std::env::args().skip(1).collect();
    match words.iter().map(String::as_str).collect::<Vec<_>>()[..] {
        ["peak", program] => return legs::print_peak(program),
        ["builds", before, after] => return legs::builds(before, after),
        ["repeat", work, formula, times] => return counts::repeat(work, formula, times.parse().expect("a number")),
        _ => {}
    }
    compile_table();
    derive_table();
    run_table("Run, with the check of the program's bytes", true);
    run_table("Run, without the check", false);
    counts::table();
    if let [here, there] = words.as_slice() {
        legs::table(here, there);
    }
}
