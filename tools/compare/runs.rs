//! Runs of one program: the reference's whole run beside the library's, cut by budgets and with refused and forged calls.
use crate::compile::Program;
use crate::errors::ErrorCode;
use crate::libm::{self, Asked, Source};
use crate::machine::{bits, Machine, Question, State};
use crate::random::Random;
use crate::record::Call;
use crate::{formulas, programs, steps};
use std::panic::{catch_unwind, resume_unwind, AssertUnwindSafe};
use vebrostin::slices::{self, ASK, COUNT, FIRST, KEPT, KEPT_COUNT, PATH, POSITION, QUESTION, REPORT, SECOND, SPENT, STATE, VALUE};

const FILL: u8 = 170;

/// How a whole run ended.
#[derive(Clone, Debug, PartialEq)]
pub enum End {
    Value(f64),
    Domain(String),
    Asked(Question),
    Refused(usize),
}

/// A whole run of the reference: questions with their answers, how it ended, instructions completed, registers.
struct Whole {
    questions: Vec<(Question, f64)>,
    end: End,
    count: u64,
    registers: Vec<f64>,
}

/// What was compared.
#[derive(Default)]
pub struct Tally {
    pub values: u64,
    pub domains: u64,
    pub asked: u64,
    pub refused: u64,
    pub questions: u64,
    pub calls: u64,
    pub forged: u64,
    /// Damaged programs, and those of them that are still programs.
    pub damaged: u64,
    pub still: u64,
    pub instructions: u64,
    /// Zeros whose sign is the other one in Rust: values, arguments of questions, registers at the end.
    pub zeros: [u64; 3],
}

fn question(asked: &libm::Question) -> Question {
    Question(u64::from(asked.function), asked.arguments[0], asked.arguments.get(1).copied().unwrap_or(0.0))
}

fn by_reference(program: &Program, inputs: &[f64], mut registers: Vec<f64>, source: Source) -> Whole {
    libm::begin(source);
    steps::reset();
    let outcome = catch_unwind(AssertUnwindSafe(|| program.evaluate_into(inputs, &mut registers)));
    let count = steps::count();
    let end = match outcome {
        Ok(Ok(value)) => End::Value(value),
        Ok(Err(error)) if error.code == ErrorCode::Domain => End::Domain(error.expression.unwrap_or_default()),
        Ok(Err(_)) => End::Refused(5),
        Err(payload) => match payload.downcast::<Asked>() {
            Ok(asked) => End::Asked(question(&asked.0)),
            Err(other) => resume_unwind(other),
        },
    };
    let questions = libm::answered().iter().map(|(asked, answer)| (question(asked), *answer)).collect();
    Whole { questions, end, count, registers }
}

/// Bits are the same, every NaN as one; where a formula has Min or Max, zeros of either sign are one, and those that differ are counted.
fn same(here: f64, there: f64, loose: bool, zeros: &mut u64) -> bool {
    let other = loose && here == 0.0 && there == 0.0 && bits(here) != bits(there);
    *zeros += u64::from(other);
    other || bits(here) == bits(there)
}

fn same_question(here: &Question, there: &Question, loose: bool, zeros: &mut u64) -> bool {
    here.0 == there.0 && same(here.1, there.1, loose, zeros) && (there.0 != 16 || same(here.2, there.2, loose, zeros))
}

/// One call as the library answers it and as the model does; the numbers of the state after.
struct Player<'a> {
    bytes: &'a [u8],
    machine: Machine<'a>,
    inputs: &'a [f64],
    registers: Vec<f64>,
    cells: [u64; STATE],
    path: Vec<u8>,
    calls: Vec<Call>,
}

impl Player<'_> {
    /// Makes a call on both sides and compares the answer, the sixteen numbers, the registers and the path slice.
    fn call(&mut self, run: bool, room: usize, budget: usize, given: Option<f64>) -> Result<usize, String> {
        let mut registers = self.registers.clone();
        let state = (!run).then(|| State::from_cells(&self.cells));
        let expected = self.machine.call(room, self.inputs, &mut registers, budget, state, given);
        let cells = expected.to_cells(&self.cells, run);
        let (cells_before, before) = (self.cells, self.registers.iter().map(|x| bits(*x)).collect());
        let (mut twin, mut twin_path, mut twin_cells) = (self.registers.clone(), vec![FILL; room], self.cells);
        let unchecked = unchecked(self.bytes, self.inputs, &mut twin, &mut twin_path, budget, &mut twin_cells, run, given)?;
        self.path[..room].fill(FILL);
        let path = &mut self.path[..room];
        let mut report = [7; REPORT];
        let number = if run {
            slices::run(self.bytes, self.inputs, &mut self.registers, path, budget, &mut self.cells, &mut report)
        } else {
            slices::resume(self.bytes, self.inputs, &mut self.registers, path, budget, &mut self.cells, &mut report, given)
        };
        crate::unreported(&report)?;
        let twins_differ = self.registers.iter().zip(&twin).any(|(a, b)| a.to_bits() != b.to_bits());
        if number != unchecked || self.cells != twin_cells || twins_differ || self.path[..room] != twin_path[..] {
            return Err(format!("call {}: {number} with the check, {unchecked} without", self.log()));
        }
        let kind = u64::from(!run) + u64::from(given.is_some());
        let mut numbers = vec![kind, room as u64, budget as u64, given.map_or(0, bits)];
        numbers.extend(cells_before);
        numbers.push(number as u64);
        numbers.extend(self.cells);
        let text = expected.place.unwrap_or_default().to_string();
        numbers.push(text.len() as u64);
        let after = self.registers.iter().map(|x| bits(*x)).collect();
        self.calls.push(Call { numbers, text, before, after, listed: true });
        let registers_differ = self.registers.iter().zip(&registers).any(|(a, b)| bits(*a) != bits(*b));
        if number != expected.number || self.cells != cells || registers_differ || !crate::is_path(&self.path[..room], expected.place) {
            let place = slices::text(&self.path[..room]);
            return Err(format!(
                "call {}: here {number} at {place} {:x?}, by the model {} at {:?} {cells:x?}; registers differ: {registers_differ}",
                self.log(), self.cells, expected.number, expected.place
            ));
        }
        Ok(number)
    }

    /// The numbers of the calls so far.
    fn log(&self) -> String {
        self.calls.iter().map(|call| format!("{:x?} ", &call.numbers[..21])).collect()
    }

    /// A call that changes nothing, or shows the same question again.
    fn disturb(&mut self, random: &mut Random, pending: bool) -> Result<(), String> {
        match random.below(4) {
            0 => self.call(false, random.choice(&[0, 5, PATH - 1]), 1, None).map(drop),
            1 => self.call(false, PATH, 0, None).map(drop),
            2 if pending => self.call(false, PATH + 8, 7, None).map(drop),
            2 => self.call(false, PATH, 7, Some(1.0)).map(drop),
            _ => self.aside(self.cells, |player| player.call(true, PATH, 0, None)),
        }
    }

    /// A call from other cells, after which the list goes on as if it had not been made.
    fn aside(&mut self, cells: [u64; STATE], call: impl FnOnce(&mut Self) -> Result<usize, String>) -> Result<(), String> {
        let (own, registers) = (self.cells, self.registers.clone());
        self.cells = cells;
        call(self)?;
        (self.cells, self.registers) = (own, registers);
        self.calls.last_mut().expect("a call was made").listed = false;
        Ok(())
    }
}

/// A run without the check of the bytes, or a resume; the number that it answers.
fn unchecked(
    bytes: &[u8], inputs: &[f64], registers: &mut [f64], path: &mut [u8], budget: usize, cells: &mut [u64], run: bool, given: Option<f64>,
) -> Result<usize, String> {
    let mut report = [7; REPORT];
    let number = if run {
        slices::run_unchecked(bytes, inputs, registers, path, budget, cells, &mut report)
    } else {
        slices::resume_unchecked(bytes, inputs, registers, path, budget, cells, &mut report, given)
    };
    crate::unreported(&report)?;
    Ok(number)
}

/// Calls without the check of what is no program end; what stands around their slices is left, and never is there a refusal 10.
fn unchecked_damaged(bytes: &[u8], random: &mut Random) -> Result<(), String> {
    let word = |at: usize| bytes.get(at..at + 4).map_or(0, |b| u32::from_le_bytes(b.try_into().expect("four bytes")) as usize);
    let (inputs, count) = (vec![1.5; word(16).min(300)], word(8).min(3000));
    let (mut registers, mut path, mut cells) = (vec![7.25; count + 8], vec![FILL; PATH + 64], [0; STATE + 2]);
    for run in [true, false, false] {
        if !run && random.chance(0.5) {
            cells[1 + POSITION] = random.choice(&[0, 1, 5, 1 << 33]);
        }
        let budget = random.choice(&[1, 3, 100, 10_000]);
        let given = random.chance(0.3).then_some(1.0);
        let number = unchecked(bytes, &inputs, &mut registers[4..count + 4], &mut path[32..PATH + 32], budget, &mut cells[1..=STATE], run, given)?;
        let around = registers[..4].iter().chain(&registers[count + 4..]).all(|x| *x == 7.25)
            && path[..32].iter().chain(&path[PATH + 32..]).all(|byte| *byte == FILL)
            && cells[0] == 0
            && cells[STATE + 1] == 0;
        if !around || !matches!(number, 0 | 5 | 9 | 11 | ASK | SPENT) {
            return Err(format!("a call without the check of what is no program: {number}, around its slices untouched: {around}: {bytes:x?}"));
        }
    }
    Ok(())
}

/// A state with some of its numbers changed.
fn forged(random: &mut Random, cells: &[u64; STATE], code: usize) -> [u64; STATE] {
    let mut cells = *cells;
    for _ in 0..1 + random.below(3) {
        let value = formulas::value(random, 0.2);
        match random.below(6) {
            0 => cells[POSITION] = random.choice(&[0, random_place(value, code), code as u64, u64::MAX, 1 << 32]),
            1 => cells[KEPT_COUNT] = random.choice(&[0, 1, 2, 3, 4, 7, 8, 9, 10, u64::MAX]),
            2 => cells[KEPT + random.below(9)] = value,
            3 => cells[QUESTION] = random.choice(&[0, 1, 2, 3, 4, 5, 8, 16, 17, 18, 255, 256, 257, u64::MAX]),
            4 => cells[FIRST] = value,
            _ => cells[SECOND] = value,
        }
    }
    cells
}

fn random_place(seed: u64, code: usize) -> u64 {
    seed % (code as u64 + 1)
}

/// Compares the check of a damaged program with docs/PROGRAM.md; where it is none, a run is 10 and changes nothing.
fn compare_damaged(bytes: &[u8], random: &mut Random, tally: &mut Tally) -> Result<(), String> {
    let mut bytes = bytes.to_vec();
    let end = bytes.iter().rposition(|byte| *byte != 0).map_or(0, |last| last + 1);
    for _ in 0..1 + random.below(2) {
        let at = random.below(end);
        match random.below(4) {
            0 => bytes[at] = random.choice(&[0, 1, 2, 3, 34, 35, 255]),
            1 => bytes[at] ^= 1 << random.below(8),
            2 => bytes[at] = bytes[at].wrapping_add(random.choice(&[1, 255])),
            _ => bytes.truncate(random.choice(&[at, end - 1, end.saturating_sub(4)]).max(1)),
        }
        if bytes.len() < end {
            break;
        }
    }
    let (here, there) = (slices::is_program(&bytes), programs::is_program(&bytes));
    tally.damaged += 1;
    tally.still += u64::from(here);
    if here != there {
        return Err(format!("is_program {here} here, {there} by docs/PROGRAM.md: {bytes:x?}"));
    }
    let (mut registers, mut path, mut cells) = ([7.25; 4], vec![FILL; PATH], [1; STATE]);
    if !here && slices::resume(&bytes, &[], &mut registers, &mut path, 1, &mut cells, &mut [7; REPORT], None) != 10 {
        return Err(format!("a run of what is no program is not refused with 10: {bytes:x?}"));
    }
    if !here {
        unchecked_damaged(&bytes, random)?;
    }
    let untouched = registers == [7.25; 4] && path.iter().all(|byte| *byte == FILL);
    if here || (untouched && cells == [1; STATE]) { Ok(()) } else { Err("10 changed something".into()) }
}

/// What a run was given, and the calls that were made.
#[derive(Default)]
pub struct Played {
    pub inputs: Vec<f64>,
    pub registers: usize,
    pub calls: Vec<Call>,
    /// Whether a zero has the other sign in Rust.
    pub zeros: bool,
}

/// Compares a run of the program that both sides made. `loose` where the formula has Min or Max.
pub fn compare(program: &Program, bytes: &[u8], loose: bool, random: &mut Random, tally: &mut Tally) -> Result<Played, String> {
    if random.chance(0.1) {
        compare_damaged(bytes, random, tally)?;
    }
    let (count, inputs_count, result) = program.counts();
    let strange = if random.chance(0.02) { 0.2 } else { 0.0 };
    let wrong = if random.chance(0.01) { 1 } else { 0 };
    let zeros = loose && random.chance(0.3);
    let input = |random: &mut Random| if zeros { formulas::zero(random) } else { formulas::value(random, strange) };
    let inputs: Vec<f64> = (0..inputs_count + wrong).map(|_| f64::from_bits(input(random))).collect();
    let few = usize::from(random.chance(0.01));
    let registers = vec![7.25; (count + random.below(3)).saturating_sub(few)];
    let source = if random.chance(0.6) {
        Source::CLibrary
    } else {
        let odd = if random.chance(0.3) { 0.1 } else { 0.0 };
        let answers = random.choice(&[0, 1, 2, 3, 5, 8, 12, 20, 40]);
        Source::List((0..answers).map(|_| f64::from_bits(formulas::value(random, odd))).collect())
    };
    let whole = by_reference(program, &inputs, registers.clone(), source);
    let rows: Vec<_> = program.rows().collect();
    let machine = Machine { rows: &rows, registers: count, inputs: inputs_count, result };
    let mut player =
        Player { bytes, machine, inputs: &inputs, registers, cells: [0; STATE], path: vec![0; PATH + 8], calls: Vec::new() };
    let before = tally.zeros;
    let end = play(&mut player, &whole, loose, random, tally)?;
    tally.calls += player.calls.len() as u64;
    check_end(&end, &whole, &player, loose, tally)?;
    let (registers, calls) = (player.registers.len(), player.calls);
    Ok(Played { inputs, registers, calls, zeros: tally.zeros != before })
}

/// Calls until the run ends as the reference's did; gives how it ended and how many instructions were completed.
fn play(player: &mut Player, whole: &Whole, loose: bool, random: &mut Random, tally: &mut Tally) -> Result<(End, u64), String> {
    let code = player.machine.rows.len();
    let cut = random.chance(0.5);
    let rough = random.chance(0.25);
    let budget = |random: &mut Random| if cut { 1 + random.below(random_limit(code)) } else { usize::MAX };
    let mut answers = whole.questions.iter();
    let mut number = player.call(true, PATH, budget(random), None)?;
    let mut completed = player.cells[COUNT];
    loop {
        if rough && number > 11 && random.chance(0.3) {
            if random.chance(0.5) {
                player.disturb(random, number == ASK)?;
            } else {
                let cells = forged(random, &player.cells, code);
                let given = random.chance(0.4).then(|| f64::from_bits(formulas::value(random, 0.1)));
                let budget = 1 + random.below(4);
                player.aside(cells, |player| player.call(false, PATH, budget, given))?;
                tally.forged += 1;
            }
        }
        number = match number {
            0 => return Ok((End::Value(f64::from_bits(player.cells[VALUE])), completed)),
            9 => return Ok((End::Domain(slices::text(&player.path)), completed)),
            SPENT => player.call(false, PATH, budget(random), None)?,
            ASK => {
                let pending = State::from_cells(&player.cells).question.expect("a question pends");
                let Some((asked, answer)) = answers.next() else {
                    return Ok((End::Asked(pending), completed));
                };
                if !same_question(&pending, asked, loose, &mut tally.zeros[1]) {
                    return Err(format!("question {pending:?} here, {asked:?} in Rust"));
                }
                tally.questions += 1;
                player.call(false, PATH, budget(random), Some(*answer))?
            }
            refused => return Ok((End::Refused(refused), completed)),
        };
        completed += player.cells[COUNT];
    }
}

fn random_limit(code: usize) -> usize {
    (code / 3).clamp(1, 200)
}

fn check_end((end, completed): &(End, u64), whole: &Whole, player: &Player, loose: bool, tally: &mut Tally) -> Result<(), String> {
    let equal = match (end, &whole.end) {
        (End::Value(a), End::Value(b)) => same(*a, *b, loose, &mut tally.zeros[0]),
        (End::Asked(a), End::Asked(b)) => same_question(a, b, loose, &mut tally.zeros[1]),
        (a, b) => a == b,
    };
    if !equal {
        return Err(format!("run: {end:?} here, {:?} in Rust; inputs {:x?}", whole.end, player.inputs));
    }
    if *completed != whole.count {
        return Err(format!("run: {completed} instructions here, {} in Rust", whole.count));
    }
    if player.registers.iter().zip(&whole.registers).any(|(a, b)| !same(*a, *b, loose, &mut tally.zeros[2])) {
        return Err("run: registers differ from Rust's".into());
    }
    tally.instructions += completed;
    *match end {
        End::Value(_) => &mut tally.values,
        End::Domain(_) => &mut tally.domains,
        End::Asked(_) => &mut tally.asked,
        End::Refused(_) => &mut tally.refused,
    } += 1;
    Ok(())
}
