//! Compares the library with the Rust reference on random and damaged formulas: compare SEED COUNT [LEGS], or
//! compare SEED COUNT record FOLDER, which also writes a sample of the answers to FOLDER/library_cases and FOLDER/demand_cases.
//!
//! For each formula: compile and derive (refusal, path or node, every instruction, the tree's bytes and its records, what each slice holds
//! after), runs of both programs (values, questions, Domains, counts, registers), cut by budgets, with refused calls and forged states. With
//! LEGS, the path of the program `legs`, its output on files of lines too.
include!("../../reference/src/modules.rs");
mod formulas;
mod legs;
#[path = "../../reference/src/libm.rs"]
mod libm;
mod machine;
#[path = "../shared/node.rs"]
mod node;
mod programs;
mod random;
mod record;
mod runs;
mod sizes;
#[path = "../../reference/src/steps.rs"]
mod steps;
#[path = "../shared/values.rs"]
mod values;

use compile::{Program, Symbol, SymbolKind};
use errors::Error;
use expression::{Expr, Function};
use formulas::Case;
use node::NODE_SIZE;
use random::Random;
use record::{Made, Recorder};
use runs::Played;
use std::collections::BTreeMap;
use vebrostin::slices::{self, NODE_AT, PATH, RECORD, REPORT};

const FILL: u8 = 170;
/// Nodes of a derivative at most.
const LARGEST: usize = 16384;
/// Rules that a record may name: 0 to 27.
const RULES: usize = 28;

/// What was compared.
#[derive(Default)]
struct Tally {
    formulas: u64,
    /// By compile's answer, 0 for a program.
    compiled: BTreeMap<usize, u64>,
    /// By derive's answer, 0 for a tree.
    derived: BTreeMap<usize, u64>,
    /// Derivatives that the reference was not asked for, as it would build too much.
    unasked: u64,
    nodes: u64,
    /// Records by their rule, and those of them that docs/DECISIONS.md reads otherwise than the reference's text.
    records: [u64; RULES],
    decided: u64,
    /// Derivatives with a list slice of just 8 bytes a node, and refusals for one that is too short by a record, or otherwise.
    lists: [u64; 3],
    instructions: u64,
    runs: runs::Tally,
    derivative_runs: runs::Tally,
    files: u64,
    lines: u64,
    /// Lines of `legs` with a zero of the other sign.
    zeros: u64,
    differences: u64,
}

/// A refusal: its number, and its place or the node of the bytes where it has one.
#[derive(Clone, Debug)]
struct Refused {
    number: usize,
    place: Option<String>,
    node: Option<usize>,
}

impl Refused {
    /// One that is nowhere.
    fn plain(number: usize) -> Self {
        Self { number, place: None, node: None }
    }
}

fn refusal(error: Error) -> Refused {
    let Some(number) = refusals::number(&error.code) else {
        unreachable!("the reference's compiler says {:?}", error.code);
    };
    Refused { number, place: error.expression, node: None }
}

/// Whether a path slice holds a text and zeros, or, without a text, what it was filled with.
fn is_path(slice: &[u8], text: Option<&str>) -> bool {
    match text {
        None => slice.iter().all(|byte| *byte == FILL),
        Some(text) => slice.starts_with(text.as_bytes()) && slice[text.len()..].iter().all(|byte| *byte == 0),
    }
}

/// Runs leave their reports, which were filled with 7.
fn unreported(report: &[u64]) -> Result<(), String> {
    if report.iter().all(|number| *number == 7) { Ok(()) } else { Err(format!("the report is {report:?}")) }
}

/// Compile and derive write the node of a refusal that has one, else 0, and leave the rest of the report; one that is too short they
/// leave as it was.
fn reported(number: usize, report: &[u64], wanted: Option<&Refused>) -> Result<(), String> {
    let node = wanted.and_then(|refused| refused.node).unwrap_or(0) as u64;
    let written = |at: usize| at == NODE_AT && report.len() >= REPORT;
    let same = report.iter().enumerate().all(|(at, told)| *told == if written(at) { node } else { 7 });
    if same { Ok(()) } else { Err(format!("{number} with the report {report:?} here, {wanted:?} in Rust")) }
}

fn all(slice: &[u8], byte: u8) -> bool {
    slice.iter().all(|other| *other == byte)
}

/// Whether a slice holds these bytes and zeros after them.
fn is_filled(slice: &[u8], bytes: &[u8]) -> bool {
    slice.starts_with(bytes) && all(&slice[bytes.len()..], 0)
}

/// Records as people read them: rule and node of each.
fn pairs(list: &[u8]) -> String {
    let word = |bytes: &[u8]| u32::from_le_bytes(bytes.try_into().expect("four bytes"));
    list.chunks_exact(RECORD).map(|record| format!("{},{} ", word(&record[..4]), word(&record[4..]))).collect()
}

/// A derivative as the reference has it: tree, the labelled reference's records and how many of them were decided, program.
struct Derived {
    tree: Vec<u8>,
    list: Vec<u8>,
    decided: usize,
    program: Program,
}

impl Derived {
    fn new(expr: &Expr, symbols: &[Symbol], symbol: u32) -> Result<Self, Error> {
        let name = names::name_of(symbols, symbol);
        let program = Program::derivative(expr, symbols, &name)?;
        let tree = nodes::write(&Program::tree_of_derivative(expr, symbols, &name)?, symbols);
        let state = symbols[symbol as usize].kind == SymbolKind::State;
        let labelled = labelled::derive(expr, &name, state)?;
        assert_eq!(nodes::write(&labelled.tree, symbols), tree, "the labelled reference writes another tree");
        let list = labelled.records.iter().flat_map(|(rule, node)| [rule.to_le_bytes(), node.to_le_bytes()]).flatten().collect();
        Ok(Self { tree, list, decided: labelled.decided, program })
    }
}

fn has_extremum(expr: &Expr) -> bool {
    matches!(expr, Expr::Call { name: Function::Min | Function::Max, .. }) || expr.children().iter().any(has_extremum)
}

/// Formula and names as the reference has them, or refusal 2, 12, 13 or 3.
fn read(formula: &[u8], names: &[u8]) -> Result<(Expr, Vec<Symbol>), Refused> {
    if let Some((number, node)) = nodes::fault(formula) {
        return Err(Refused { number, place: None, node: Some(node) });
    }
    let symbols = names::read(names).ok_or(Refused::plain(3))?;
    Ok((nodes::read(formula, &symbols), symbols))
}

struct Comparison {
    random: Random,
    tally: Tally,
    path: Vec<u8>,
    tree: Vec<u8>,
    list: Vec<u8>,
    program: Vec<u8>,
    recorder: Option<Recorder>,
}

/// The start of a buffer, filled.
fn filled(buffer: &mut Vec<u8>, length: usize) -> &mut [u8] {
    if buffer.len() < length {
        buffer.resize(length, 0);
    }
    buffer[..length].fill(FILL);
    &mut buffer[..length]
}

impl Comparison {
    /// A slice's length: mostly enough, with some bytes to spare now and then, seldom too short.
    fn length(&mut self, need: usize) -> usize {
        match self.random.weighted(&[60, 20, 19, 1]) {
            0 => need,
            1 => need + 17,
            2 => need + 34,
            _ => need.saturating_sub(1 + self.random.below(40)),
        }
    }

    /// A list slice's length: mostly just enough, now and then with bytes to spare, seldom a byte, a record or more too short.
    fn list_length(&mut self, need: usize) -> usize {
        match self.random.weighted(&[60, 19, 18, 1, 1, 1]) {
            0 => need,
            1 => need + 17,
            2 => need + 34,
            3 => need - 1,
            4 => need - RECORD,
            _ => self.random.below(need),
        }
    }

    fn path_length(&mut self) -> usize {
        if self.random.chance(0.01) { self.random.choice(&[0, 4, PATH - 1]) } else { PATH + 8 * self.random.below(2) }
    }

    /// A report filled with 7: as long as it has to be or a little longer, seldom too short.
    fn report(&mut self) -> Vec<u64> {
        let length = if self.random.chance(0.01) { self.random.below(REPORT) } else { REPORT + self.random.below(3) };
        vec![7; length]
    }

    fn case(&mut self, case: &Case) -> Result<(), String> {
        let read = read(&case.formula, &case.names);
        let outcome = self.both(case, &read);
        if let Ok((expr, _)) = read {
            nodes::dismantle(expr);
        }
        outcome
    }

    fn both(&mut self, case: &Case, read: &Result<(Expr, Vec<Symbol>), Refused>) -> Result<(), String> {
        let program = read.as_ref().map_err(Clone::clone).and_then(|(e, s)| Program::compile(e, s).map_err(refusal));
        let loose = matches!((read, &program), (Ok((expr, _)), Ok(_)) if has_extremum(expr));
        let fault = program.as_ref().err().cloned();
        self.compile(case, program, loose).map_err(|text| format!("compile: {text}"))?;
        self.derive(case, read, fault, loose).map_err(|text| format!("derive by {}: {text}", case.symbol))
    }

    fn compile(&mut self, case: &Case, expected: Result<Program, Refused>, loose: bool) -> Result<(), String> {
        let room = slices::program_room(case.formula.len());
        let (path_length, length, mut report) = (self.path_length(), self.length(room), self.report());
        let (path, program) = (filled(&mut self.path, path_length), filled(&mut self.program, length));
        let number = slices::compile(&case.formula, &case.names, path, program, &mut report);
        *self.tally.compiled.entry(number).or_default() += 1;
        let no_report = report.len() < REPORT;
        let short = no_report || path_length < PATH || length < room;
        let expected = if short { Err(Refused::plain(1)) } else { expected };
        reported(number, &report, expected.as_ref().err())?;
        let made = Made { lengths: [path_length, 0, 0, length], answer: number, no_report, ..Made::default() };
        match expected {
            Ok(wanted) if number == 0 && all(path, FILL) => {
                self.tally.instructions += wanted.instruction_count() as u64;
                let end = programs::compare(program, &wanted)?;
                let played = runs::compare(&wanted, program, loose, &mut self.random, &mut self.tally.runs)?;
                record(&mut self.recorder, case, Made { program: &program[..end], ..made }, &played);
                Ok(())
            }
            Ok(_) => Err(format!("{number} at {} here, a program in Rust", slices::text(path))),
            Err(Refused { number: wanted, place, node }) => {
                if number != wanted || !is_path(path, place.as_deref()) {
                    return Err(format!("{number} at {} here, {wanted} at {place:?} in Rust", slices::text(path)));
                }
                let zero = matches!(wanted, 5..=9);
                if !all(program, if zero { 0 } else { FILL }) {
                    return Err("the program slice is not as a refusal leaves it".into());
                }
                let made = Made { text: place.as_deref().unwrap_or_default(), node, program_zero: zero, ..made };
                record(&mut self.recorder, case, made, &Played::default());
                Ok(())
            }
        }
    }

    fn derive(
        &mut self, case: &Case, read: &Result<(Expr, Vec<Symbol>), Refused>, fault: Option<Refused>, loose: bool,
    ) -> Result<(), String> {
        let unasked = fault.is_none() && matches!(read, Ok((expr, _)) if !sizes::buildable(expr));
        if unasked {
            self.tally.unasked += 1;
            return Ok(());
        }
        let from_fault = fault.is_some();
        let derived = match (read, fault) {
            (_, Some(fault)) => Err(fault),
            (Err(refused), None) => Err(refused.clone()),
            (Ok((expr, symbols)), None) => Derived::new(expr, symbols, case.symbol).map_err(refusal),
        };
        let own_room = slices::program_room(case.formula.len());
        let (tree_need, program_need) = derived.as_ref().map_or((64, own_room), |d| (d.tree.len(), 15 * d.tree.len()));
        let list_need = tree_need / NODE_SIZE * RECORD;
        let (path_length, tree_length, program_length) =
            (self.path_length(), self.length(tree_need), self.length(program_need.max(own_room)));
        let list_length = self.list_length(list_need);
        let early = path_length < PATH || program_length < own_room;
        let fits = tree_length >= tree_need && program_length >= program_need;
        let list_short = !early && derived.is_ok() && fits && list_length < list_need;
        let expected = match derived {
            _ if early => Err(Refused::plain(1)),
            Ok(_) if !fits || list_short => Err(Refused::plain(1)),
            other => other,
        };
        let by_a_record = list_length + RECORD == list_need;
        let from_compile = early || from_fault;
        let lengths = [path_length, tree_length, list_length, program_length];
        let made = Made { symbol: u64::from(case.symbol), lengths, list_short, ..Made::default() };
        self.derive_with(case, expected, made, from_compile, loose)?;
        if list_short {
            self.tally.lists[if by_a_record { 1 } else { 2 }] += 1;
        }
        Ok(())
    }

    /// Derives with slices of these lengths and compares with what is expected.
    fn derive_with(
        &mut self, case: &Case, expected: Result<Derived, Refused>, made: Made, from_compile: bool, loose: bool,
    ) -> Result<(), String> {
        let mut report = self.report();
        let path = filled(&mut self.path, made.lengths[0]);
        let tree = filled(&mut self.tree, made.lengths[1]);
        let list = filled(&mut self.list, made.lengths[2]);
        let program = filled(&mut self.program, made.lengths[3]);
        let number = slices::derive(&case.formula, &case.names, case.symbol, path, tree, list, program, &mut report);
        *self.tally.derived.entry(number).or_default() += 1;
        let no_report = report.len() < REPORT;
        let expected = if no_report { Err(Refused::plain(1)) } else { expected };
        reported(number, &report, expected.as_ref().err())?;
        let made = Made { answer: number, no_report, ..made };
        match expected {
            Ok(wanted) if number == 0 && all(path, FILL) => {
                self.tally.nodes += (wanted.tree.len() / NODE_SIZE) as u64;
                self.tally.decided += wanted.decided as u64;
                self.tally.lists[0] += u64::from(list.len() == wanted.list.len());
                if !is_filled(tree, &wanted.tree) {
                    return Err("the tree differs".into());
                }
                if !is_filled(list, &wanted.list) {
                    return Err(format!("the records differ: {} here, {} in Rust", pairs(list), pairs(&wanted.list)));
                }
                wanted.list.chunks_exact(RECORD).for_each(|record| self.tally.records[usize::from(record[0])] += 1);
                let end = programs::compare(program, &wanted.program)?;
                self.tally.instructions += wanted.program.instruction_count() as u64;
                let played = runs::compare(&wanted.program, program, loose, &mut self.random, &mut self.tally.derivative_runs)?;
                record(&mut self.recorder, case, Made { tree: &wanted.tree, list: &wanted.list, program: &program[..end], ..made }, &played);
                Ok(())
            }
            Ok(_) => Err(format!("{number} at {} here, a tree in Rust", slices::text(path))),
            Err(Refused { number: wanted, place, node }) => {
                if number != wanted || !is_path(path, place.as_deref()) {
                    return Err(format!("{number} at {} here, {wanted} at {place:?} in Rust", slices::text(path)));
                }
                let left = if from_compile || no_report { FILL } else { 0 };
                if !all(program, FILL) || !all(tree, left) || !all(list, left) {
                    return Err("a slice is not as a refusal leaves it".into());
                }
                let made = Made { text: place.as_deref().unwrap_or_default(), node, tree_zero: !from_compile, ..made };
                record(&mut self.recorder, case, made, &Played::default());
                Ok(())
            }
        }
    }
}

fn record(recorder: &mut Option<Recorder>, case: &Case, made: Made, played: &Played) {
    if let Some(recorder) = recorder {
        let Played { inputs, registers, calls, zeros } = played;
        recorder.add(case, &Made { inputs, registers: *registers, calls, zeros: *zeros, ..made });
    }
}

fn hex(bytes: &[u8]) -> String {
    bytes.iter().map(|byte| format!("{byte:02x}")).collect()
}

fn report(tally: &Tally) {
    let good = |counts: &BTreeMap<usize, u64>| counts.get(&0).copied().unwrap_or(0);
    let by_answer = |counts: &BTreeMap<usize, u64>| {
        let refused = counts.iter().filter(|(number, _)| **number > 0).map(|(number, count)| format!(", {count} refused {number}"));
        refused.collect::<String>()
    };
    println!("{} formulas", tally.formulas);
    println!("compiled: {} programs{}", good(&tally.compiled), by_answer(&tally.compiled));
    let (trees, refused) = (good(&tally.derived), by_answer(&tally.derived));
    println!("derived: {trees} trees of {} nodes{refused}, {} too large for the reference", tally.nodes, tally.unasked);
    let by_rule = tally.records.iter().enumerate().filter(|(_, count)| **count > 0);
    let by_rule: Vec<String> = by_rule.map(|(rule, count)| format!("{rule}: {count}")).collect();
    println!("records by rule: {}; {} as docs/DECISIONS.md has them, not the reference's text", by_rule.join(", "), tally.decided);
    let [just, record, other] = tally.lists;
    println!("list slices: {just} of just 8 bytes a node, {record} too short by one record, {other} otherwise too short");
    println!("{} instructions compared", tally.instructions);
    for (name, runs) in [("runs", &tally.runs), ("runs of derivatives", &tally.derivative_runs)] {
        println!(
            "{name}: {} values, {} Domains, {} questions without an answer, {} refused; {} questions answered, {} calls \
             ({} of forged states), {} instructions completed; {} damaged programs, {} of them still programs",
            runs.values, runs.domains, runs.asked, runs.refused, runs.questions, runs.calls, runs.forged, runs.instructions,
            runs.damaged, runs.still
        );
    }
    println!("legs: {} files of {} lines", tally.files, tally.lines);
    let [values, arguments, registers] = [0, 1, 2].map(|i| tally.runs.zeros[i] + tally.derivative_runs.zeros[i]);
    println!(
        "zeros of formulas with Min or Max that have the other sign in Rust: {values} values, {arguments} arguments, {registers} registers, \
         in {} lines of legs",
        tally.zeros
    );
    println!("{} differences", tally.differences);
}

fn compare(seed: u64, count: u64, legs: Option<String>, folder: Option<String>) -> bool {
    let mut comparison = Comparison {
        random: Random::new(seed),
        tally: Tally::default(),
        path: Vec::new(),
        tree: vec![0; NODE_SIZE * LARGEST],
        list: Vec::new(),
        program: Vec::new(),
        recorder: folder.map(Recorder::new),
    };
    let mut legs = legs.map(legs::Legs::new);
    for number in 0..count {
        let case = formulas::case(&mut comparison.random);
        let mut outcome = comparison.case(&case);
        if let (Some(legs), Ok(()), 0) = (&mut legs, &outcome, number % 100) {
            let lines = legs.compare(&case, &mut comparison.random);
            comparison.tally.files += 1;
            outcome = lines.map(|(lines, zeros)| {
                comparison.tally.lines += lines;
                comparison.tally.zeros += zeros;
            });
        }
        if let Err(text) = outcome {
            comparison.tally.differences += 1;
            println!("difference {}: {text}\n  formula {}\n  names {}", comparison.tally.differences, hex(&case.formula), hex(&case.names));
            if comparison.tally.differences == 10 {
                break;
            }
        }
        comparison.tally.formulas += 1;
    }
    report(&comparison.tally);
    if let Some(recorder) = &comparison.recorder {
        recorder.write().expect("the folder can be written");
        println!("recorded: {} cases, {} calls", recorder.cases, recorder.calls);
    }
    comparison.tally.differences == 0
}

fn main() {
    let words: Vec<String> = std::env::args().skip(1).collect();
    let number = |at: usize| words.get(at).and_then(|word| word.parse::<u64>().ok());
    let (Some(seed), Some(count)) = (number(0), number(1)) else {
        eprintln!("compare SEED COUNT [LEGS | record FOLDER]");
        std::process::exit(2);
    };
    let (legs, folder) = match &words[2..] {
        [verb, folder] if verb == "record" => (None, Some(folder.clone())),
        rest => (rest.first().cloned(), None),
    };
    // The reference recurses over trees of any depth.
    let thread = std::thread::Builder::new().stack_size(256 << 20);
    let equal = thread.spawn(move || compare(seed, count, legs, folder)).expect("a thread").join().unwrap_or(false);
    std::process::exit(i32::from(!equal));
}
