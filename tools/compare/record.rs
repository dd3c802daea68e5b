//! Records cases for the gate, without any Rust there: crates/library_cases replays each call on the state that it was made with,
//! crates/demand_cases whole lists of calls. Their first lines say what a record holds.
use crate::formulas::Case;
use vebrostin::slices::PATH;

/// A call as it was made and answered: 38 numbers, the path's text, the registers before and after; whether it went on from what the
/// last such call left.
pub struct Call {
    pub numbers: Vec<u64>,
    pub text: String,
    pub before: Vec<u64>,
    pub after: Vec<u64>,
    pub listed: bool,
}

impl Call {
    /// What a list of calls has after compile or derive refused: the refusal, and nothing written to cells and registers.
    fn refused(made: &Made) -> Self {
        let mut numbers = vec![0; 38];
        (numbers[1], numbers[2], numbers[20]) = (PATH as u64, 1, made.answer as u64);
        Self { numbers, text: made.text.to_string(), before: Vec::new(), after: Vec::new(), listed: true }
    }
}

/// What compile or derive answered and left. A symbol above 32 bits stands for compile.
pub struct Made<'a> {
    pub symbol: u64,
    /// Of the slices for path, tree, list and program.
    pub lengths: [usize; 4],
    pub answer: usize,
    pub text: &'a str,
    /// The node of a refusal that has one.
    pub node: Option<usize>,
    pub tree: &'a [u8],
    pub list: &'a [u8],
    pub program: &'a [u8],
    /// Whether the slices for tree and list are all zero.
    pub tree_zero: bool,
    pub program_zero: bool,
    pub registers: usize,
    pub inputs: &'a [f64],
    pub calls: &'a [Call],
    /// Whether a zero of Min or Max has the other sign in Rust.
    pub zeros: bool,
    /// Whether the report was too short; the gate's are not.
    pub no_report: bool,
    /// Whether only the list slice was too short.
    pub list_short: bool,
}

impl Default for Made<'_> {
    fn default() -> Self {
        Made {
            symbol: 1 << 32,
            lengths: [0; 4],
            answer: 0,
            text: "",
            node: None,
            tree: &[],
            list: &[],
            program: &[],
            tree_zero: false,
            program_zero: false,
            registers: 0,
            inputs: &[],
            calls: &[],
            zeros: false,
            no_report: false,
            list_short: false,
        }
    }
}

/// The records so far, and how many of each answer.
pub struct Recorder {
    folder: String,
    bytes: Vec<u8>,
    lists: Vec<u8>,
    /// Lists of calls so far, and their calls.
    played: usize,
    listed: usize,
    answers: std::collections::BTreeMap<(bool, usize, bool, bool, bool), usize>,
    pub cases: usize,
    pub calls: usize,
}

fn extend(bytes: &mut Vec<u8>, numbers: impl IntoIterator<Item = u64>) {
    for number in numbers {
        bytes.extend(number.to_le_bytes());
    }
}

/// Cases of one answer at most: more where calls follow, fewer of refusals and of zeros that have the other sign in Rust.
const OTHERS: usize = 12;
const ANSWERED: usize = 45;
/// Bytes of a tree, a list and a program that crates/library_cases has room for.
const TREE: usize = 8192;
const LIST: usize = 4096;
const PROGRAM: usize = 65536;

impl Recorder {
    pub fn new(folder: String) -> Self {
        Self { folder, bytes: Vec::new(), lists: Vec::new(), played: 0, listed: 0, answers: Default::default(), cases: 0, calls: 0 }
    }

    fn numbers(&mut self, numbers: impl IntoIterator<Item = u64>) {
        extend(&mut self.bytes, numbers);
    }

    /// Takes a case that is small and of an answer that is still wanted.
    pub fn add(&mut self, case: &Case, made: &Made) {
        let small = case.formula.len() <= 400 && case.names.len() <= 400 && made.tree.len() <= 1000 && made.registers <= 64;
        let room = made.lengths[1] <= TREE && made.lengths[2] <= LIST && made.lengths[3] <= PROGRAM;
        let short = made.calls.len() <= 9 && made.calls.iter().all(|call| call.text.len() <= 500);
        let refused = made.calls.iter().any(|call| (1..12).contains(&call.numbers[20]) && call.numbers[20] != 9);
        let rich = made.answer != 0 || made.zeros || (made.calls.len() > 3 && (refused || self.cases % 4 == 0));
        let key = (made.symbol < 1 << 32, made.answer, made.tree_zero, made.zeros, made.list_short);
        let wanted = if made.answer == 0 && !made.zeros { ANSWERED } else { OTHERS };
        let taken = self.answers.entry(key).or_default();
        if made.no_report || !small || !room || !short || !rich || *taken == wanted {
            return;
        }
        *taken += 1;
        self.cases += 1;
        self.calls += made.calls.len();
        let sizes = [case.formula.len(), case.names.len()].map(|n| n as u64);
        self.numbers(sizes);
        self.numbers([made.symbol]);
        self.numbers(made.lengths.map(|n| n as u64));
        let texts = [made.answer, made.text.len(), made.tree.len(), made.list.len(), made.program.len()].map(|n| n as u64);
        self.numbers(texts);
        self.numbers([u64::from(made.tree_zero), u64::from(made.program_zero)]);
        self.numbers([made.inputs.len(), made.registers, made.calls.len(), made.node.unwrap_or(0)].map(|n| n as u64));
        for part in [case.formula.as_slice(), &case.names, made.text.as_bytes(), made.tree, made.list, made.program] {
            self.bytes.extend(part);
        }
        self.numbers(made.inputs.iter().map(|x| x.to_bits()));
        for call in made.calls {
            self.numbers(call.numbers.iter().copied());
            self.bytes.extend(call.text.bytes());
            self.numbers(call.before.iter().chain(&call.after).copied());
        }
        self.add_list(case, made);
    }

    /// The same case as a list of calls, each on what the one before it left. A refusal of compile or derive stands for one call. The list
    /// slice has half the tree slice's bytes there, so that none is too short by itself.
    fn add_list(&mut self, case: &Case, made: &Made) {
        if made.list_short {
            return;
        }
        self.played += 1;
        let none = Call::refused(made);
        let mut calls: Vec<&Call> = made.calls.iter().filter(|call| call.listed).collect();
        if made.answer != 0 {
            calls.push(&none);
        }
        let held = calls[0].before.first().copied().unwrap_or(0);
        let path = if made.answer == 0 { PATH + 8 } else { made.lengths[0] };
        let sizes = [case.formula.len(), case.names.len(), made.symbol as usize, path, made.lengths[1], made.lengths[3], made.answer];
        extend(&mut self.lists, sizes.map(|n| n as u64));
        extend(&mut self.lists, [made.inputs.len() as u64, made.registers as u64, held, calls.len() as u64]);
        extend(&mut self.lists, [made.node.map_or(0, |node| node as u64 + 1)]);
        self.lists.extend(case.formula.iter().chain(&case.names));
        extend(&mut self.lists, made.inputs.iter().map(|x| x.to_bits()));
        extend(&mut self.lists, calls.iter().map(|call| call.numbers[1]));
        extend(&mut self.lists, calls.iter().map(|call| call.numbers[2]));
        self.lists.extend(calls.iter().map(|call| u8::from(call.numbers[0] == 2)));
        extend(&mut self.lists, calls.iter().map(|call| call.numbers[3]));
        let mut text = "";
        for call in &calls {
            text = if call.text.is_empty() { text } else { &call.text };
            extend(&mut self.lists, call.numbers[20..37].iter().copied().chain([text.len() as u64]));
            self.lists.extend(text.bytes());
            extend(&mut self.lists, call.after.iter().copied());
        }
        self.listed += calls.len();
    }

    fn write_to(&self, name: &str, bytes: &[u8], cases: usize, calls: usize) -> std::io::Result<()> {
        std::fs::write(format!("{}/{name}/stdin", self.folder), bytes)?;
        std::fs::write(format!("{}/{name}/stdout", self.folder), format!("{cases} cases, {calls} calls\nok\n"))
    }

    pub fn write(&self) -> std::io::Result<()> {
        self.write_to("library_cases", &self.bytes, self.cases, self.calls)?;
        self.write_to("demand_cases", &self.lists, self.played, self.listed)
    }
}
