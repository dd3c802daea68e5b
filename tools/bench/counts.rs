//! Machine instructions as callgrind counts them, which don't vary from run to run: for each VM instruction, each node, each line.
use crate::{formulas, names, nodes, Host, Program, NODE_SIZE};
use std::hint::black_box;
use std::process::Command;
use vebrostin::slices::{self, PATH, RECORD, REPORT};

/// The formulas counted, by name.
const FORMULAS: [&str; 5] = ["flight", "arithmetic", "branches", "Min", "powers"];

/// What is counted: its name here, its name in the table, and whether it is counted for each VM instruction (else for each node).
const WORKS: [(&str, &str, bool); 7] = [
    ("check", "check", true),
    ("run", "run with check", true),
    ("unchecked", "run without check", true),
    ("rust-run", "Rust, run", true),
    ("compile", "compile", false),
    ("rust-compile", "Rust, compile", false),
    ("derive", "derive, by node of the derivative", false),
];

fn formula(name: &str) -> Vec<u8> {
    match name {
        "flight" => formulas::flight(),
        "arithmetic" => formulas::arithmetic(128),
        "branches" => formulas::branches(28),
        "Min" => formulas::list(64),
        _ => formulas::powers(24),
    }
}

/// Does a work so many times: `bench repeat WORK FORMULA TIMES`, which callgrind runs.
pub fn repeat(work: &str, name: &str, times: u32) {
    let (formula, inputs) = (formula(name), crate::inputs());
    let symbols = names::read(formulas::NAMES).unwrap();
    let expr = nodes::read(&formula, &symbols);
    let reference = Program::compile(&expr, &symbols).unwrap();
    let program = vebrostin::Program::compile(&formula, formulas::NAMES).unwrap();
    let mut host = Host::new(program.bytes(), work == "run");
    let (mut workspace, mut path, mut out) = (reference.workspace(), vec![0; PATH], program.bytes().to_vec());
    let size = derivative_size(name);
    let (mut tree, mut list, mut derived) = (vec![0; size], vec![0; size / NODE_SIZE * RECORD], vec![0; 15 * size.max(formula.len())]);
    for _ in 0..times {
        match work {
            "check" => assert!(slices::is_program(black_box(program.bytes()))),
            "rust-run" => drop(black_box(reference.evaluate_into(black_box(&inputs), &mut workspace))),
            "compile" => assert_eq!(slices::compile(black_box(&formula), formulas::NAMES, &mut path, &mut out, &mut [0; REPORT]), 0),
            "rust-compile" => {
                let symbols = names::read(black_box(formulas::NAMES)).unwrap();
                let expr = nodes::read(black_box(&formula), &symbols);
                black_box(Program::compile(&expr, &symbols).unwrap());
            }
            "derive" => {
                let report = &mut [0; REPORT];
                let number = slices::derive(black_box(&formula), formulas::NAMES, 0, &mut path, &mut tree, &mut list, &mut derived, report);
                assert_eq!(number, 0);
            }
            _ => {
                black_box(host.evaluate(black_box(&inputs)));
            }
        }
    }
}

/// Bytes of the derivative tree by the first symbol; none for branches, whose conditions depend on it.
fn derivative_size(name: &str) -> usize {
    let symbols = names::read(formulas::NAMES).unwrap();
    let tree = Program::tree_of_derivative(&nodes::read(&formula(name), &symbols), &symbols, "climb");
    tree.map_or(0, |tree| nodes::write(&tree, &symbols).len())
}

/// Machine instructions of a program with these words, run by a command `valgrind`, or nothing where there is none.
pub fn collected(valgrind: &mut Command, program: &std::path::Path, words: &[&str]) -> Option<f64> {
    let printed = valgrind.args(["--tool=callgrind", "--trace-children=yes", "--callgrind-out-file=/dev/null"]).arg(program).args(words).output().ok()?;
    let text = String::from_utf8_lossy(&printed.stderr).into_owned();
    let line = text.lines().rfind(|line| line.contains("Collected"))?;
    line.rsplit(' ').next()?.parse().ok()
}

fn each(work: &str, name: &str, times: u32) -> Option<f64> {
    let own = std::env::current_exe().ok()?;
    let of = |times: u32| collected(&mut Command::new("valgrind"), &own, &["repeat", work, name, &times.to_string()]);
    Some((of(2 * times)? - of(times)?) / f64::from(times))
}

pub fn table() {
    if each("check", "Min", 1).is_none() {
        return println!("\nNo valgrind: machine instructions were not counted.");
    }
    println!("\n### Machine instructions (callgrind), for each VM instruction or node\n");
    println!("| | {} |\n|---|{}", FORMULAS.join(" | "), "---|".repeat(FORMULAS.len()));
    for (work, title, by_instruction) in WORKS {
        let cells = FORMULAS.map(|name| {
            let formula = formula(name);
            let symbols = names::read(formulas::NAMES).unwrap();
            let program = Program::compile(&nodes::read(&formula, &symbols), &symbols).unwrap();
            let size = match (work, by_instruction) {
                ("derive", _) => derivative_size(name) / NODE_SIZE,
                (_, true) => program.instruction_count(),
                (_, false) => formula.len() / NODE_SIZE,
            };
            let count = if size == 0 { None } else { each(work, name, 20) };
            count.map_or("-".into(), |count| format!("{:.0}", count / size as f64))
        });
        println!("| {title} | {} |", cells.join(" | "));
    }
}
