//! Formulas compiled, differentiated and run by the proved library `vebrostin`.
//!
//! `Program` and `Run` own their memory; `slices` has the same functions over the caller's slices.
mod error;
mod raw;
mod record;
pub mod slices;

pub use error::{Action, Error, Refusal};
pub use record::{Record, Rule};
use slices::{ASK, COUNT, FIRST, NODE, NODE_AT, NODE_ROOM, PATH, QUESTION, RECORD, REPORT, SECOND, SPENT, STATE, VALUE};

/// Nodes that a derivative tree has at most.
const LARGEST_TREE: usize = 16384;

/// The bytes of a program, as docs/PROGRAM.md describes them: made by `compile` or `derive`, or checked once, and never altered. So its
/// runs don't check them again.
#[derive(Clone, Debug, PartialEq, Eq)]
pub struct Program(Vec<u8>);

/// A derivative: its tree as formula bytes, what made each of the tree's nodes in their order, and the program of that tree.
#[derive(Clone, Debug, PartialEq, Eq)]
pub struct Derivative {
    pub tree: Vec<u8>,
    pub records: Vec<Record>,
    pub program: Program,
}

/// A refusal with what the path slice and the report's node hold where it has a place or a node.
fn refused(number: usize, action: Action, path: &[u8], node: u64) -> Error {
    let refusal = Refusal::from_number(number).expect("the library's refusals are 1 to 13");
    let place = matches!(number, 4..=9).then(|| slices::text(path));
    let node = refusal.has_node().then_some(node);
    Error { refusal, action, place, node }
}

impl Program {
    /// Compiles formula bytes with a name line.
    pub fn compile(formula: &[u8], names: &[u8]) -> Result<Self, Error> {
        let (mut path, mut report) = ([0; PATH], [0; REPORT]);
        let mut program = vec![0; slices::program_room(formula.len())];
        match slices::compile(formula, names, &mut path, &mut program, &mut report) {
            0 => Ok(Self(program)),
            number => Err(refused(number, Action::Compile, &path, report[NODE_AT])),
        }
    }

    /// The derivative of a formula by a symbol's number. The slices grow until the tree has room.
    pub fn derive(formula: &[u8], names: &[u8], symbol: u32) -> Result<Derivative, Error> {
        let (mut path, mut report) = ([0; PATH], [0; REPORT]);
        let mut nodes = formula.len().div_ceil(NODE).max(64);
        loop {
            let (mut tree, mut list, mut program) = (vec![0; NODE * nodes], vec![0; RECORD * nodes], vec![0; NODE_ROOM * nodes]);
            match slices::derive(formula, names, symbol, &mut path, &mut tree, &mut list, &mut program, &mut report) {
                0 => {
                    let nodes = tree_nodes(&tree);
                    tree.truncate(NODE * nodes);
                    return Ok(Derivative { tree, records: records(&list[..RECORD * nodes]), program: Self(program) });
                }
                1 if nodes < LARGEST_TREE => nodes = (4 * nodes).min(LARGEST_TREE),
                number => return Err(refused(number, Action::Derive, &path, report[NODE_AT])),
            }
        }
    }

    /// A program from bytes that `bytes` gave, or refusal 10 where they are none.
    pub fn from_bytes(bytes: Vec<u8>) -> Result<Self, Error> {
        if slices::is_program(&bytes) { Ok(Self(bytes)) } else { Err(refused(10, Action::Run, &[], 0)) }
    }

    pub fn bytes(&self) -> &[u8] {
        &self.0
    }

    pub fn instructions(&self) -> usize {
        slices::instructions(&self.0)
    }

    pub fn registers(&self) -> usize {
        slices::registers(&self.0)
    }

    pub fn inputs(&self) -> usize {
        slices::inputs(&self.0)
    }

    /// The value for these inputs; `host` answers the questions.
    pub fn evaluate(&self, inputs: &[f64], host: impl FnMut(Question) -> f64) -> Result<f64, Error> {
        Run::new(self).evaluate(inputs, host)
    }
}

/// The records of a list that `derive` wrote.
fn records(list: &[u8]) -> Vec<Record> {
    let record = |bytes: &[u8]| Record::from_bytes(bytes.try_into().ok()?);
    list.chunks_exact(RECORD).map(|bytes| record(bytes).expect("the library's rules are 0 to 27")).collect()
}

/// Nodes of the tree at the start of a slice: the trees still owed are counted.
fn tree_nodes(bytes: &[u8]) -> usize {
    let (mut owed, mut nodes) = (1, 0);
    for node in bytes.chunks_exact(NODE) {
        if owed == 0 {
            break;
        }
        owed = owed - 1 + usize::from(u16::from_le_bytes([node[2], node[3]]));
        nodes += 1;
    }
    nodes
}

/// What a run asks its host: the function's number, 16 for Power, and its arguments.
#[derive(Clone, Copy, Debug, PartialEq)]
pub enum Question {
    Elementary(u8, f64),
    Power(f64, f64),
}

impl Question {
    /// The answer of the C library's `libm`, by way of `std`.
    pub fn by_libm(self) -> f64 {
        match self {
            Question::Power(x, y) => x.powf(y),
            Question::Elementary(0, x) => x.exp(),
            Question::Elementary(1, x) => x.ln(),
            Question::Elementary(2, x) => x.log10(),
            Question::Elementary(4, x) => x.sin(),
            Question::Elementary(5, x) => x.cos(),
            Question::Elementary(6, x) => x.tan(),
            Question::Elementary(7, x) => x.tanh(),
            Question::Elementary(..) => f64::NAN,
        }
    }
}

/// What a call of a run answers, where it isn't refused.
#[derive(Clone, Copy, Debug, PartialEq)]
pub enum Answer {
    Value(f64),
    Ask(Question),
    Spent,
}

/// A run of a program: its registers and its state.
pub struct Run<'a> {
    program: &'a Program,
    registers: Vec<f64>,
    path: [u8; PATH],
    state: [u64; STATE],
    completed: u64,
}

impl<'a> Run<'a> {
    pub fn new(program: &'a Program) -> Self {
        Self { program, registers: vec![0.0; program.registers()], path: [0; PATH], state: [0; STATE], completed: 0 }
    }

    /// A whole run from the first instruction; `host` answers the questions.
    pub fn evaluate(&mut self, inputs: &[f64], mut host: impl FnMut(Question) -> f64) -> Result<f64, Error> {
        let mut answer = self.start(inputs, usize::MAX)?;
        loop {
            answer = match answer {
                Answer::Value(value) => return Ok(value),
                Answer::Ask(question) => self.answer(inputs, usize::MAX, host(question))?,
                Answer::Spent => self.resume(inputs, usize::MAX)?,
            };
        }
    }

    /// Begins at the first instruction and completes at most `budget` instructions.
    pub fn start(&mut self, inputs: &[f64], budget: usize) -> Result<Answer, Error> {
        let (program, report) = (self.program.bytes(), &mut [0; REPORT]);
        let number = slices::run_unchecked(program, inputs, &mut self.registers, &mut self.path, budget, &mut self.state, report);
        self.told(number)
    }

    /// Goes on where the last call stopped; a question that pends is put again.
    pub fn resume(&mut self, inputs: &[f64], budget: usize) -> Result<Answer, Error> {
        self.go_on(inputs, budget, None)
    }

    /// Goes on with the value for the question that pends.
    pub fn answer(&mut self, inputs: &[f64], budget: usize, value: f64) -> Result<Answer, Error> {
        self.go_on(inputs, budget, Some(value))
    }

    /// Instructions that the last call completed: none where it was refused with 1, 5, 10 or 11.
    pub fn completed(&self) -> u64 {
        self.completed
    }

    fn go_on(&mut self, inputs: &[f64], budget: usize, value: Option<f64>) -> Result<Answer, Error> {
        let (program, report) = (self.program.bytes(), &mut [0; REPORT]);
        let number = slices::resume_unchecked(program, inputs, &mut self.registers, &mut self.path, budget, &mut self.state, report, value);
        self.told(number)
    }

    /// A refused call leaves the state's numbers, the count of the call before it too.
    fn told(&mut self, number: usize) -> Result<Answer, Error> {
        self.completed = if matches!(number, 1 | 5 | 10 | 11) { 0 } else { self.state[COUNT] };
        match number {
            0 => Ok(Answer::Value(f64::from_bits(self.state[VALUE]))),
            ASK => Ok(Answer::Ask(self.question())),
            SPENT => Ok(Answer::Spent),
            number => Err(refused(number, Action::Run, &self.path, 0)),
        }
    }

    fn question(&self) -> Question {
        let first = f64::from_bits(self.state[FIRST]);
        match self.state[QUESTION] {
            17 => Question::Power(first, f64::from_bits(self.state[SECOND])),
            number => Question::Elementary(number.wrapping_sub(1) as u8, first),
        }
    }
}
