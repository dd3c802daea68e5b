//! Run and resume (docs/REFERENCE.md, 9) over the reference's instructions: budgets, states and refusals, which the reference lacks.
use crate::compile::show::Row;
use vebrostin::slices::{ASK, COUNT, FIRST, KEPT, KEPT_COUNT, POSITION, QUESTION, SECOND, SPENT, STATE, VALUE};

/// A program's instructions and counts.
pub struct Machine<'a> {
    pub rows: &'a [Row<'a>],
    pub registers: usize,
    pub inputs: usize,
    pub result: usize,
}

/// A function's number and its arguments.
#[derive(Clone, Copy, Debug, PartialEq)]
pub struct Question(pub u64, pub f64, pub f64);

#[derive(Clone, Debug)]
pub struct State {
    pub position: u64,
    pub kept: Vec<f64>,
    pub question: Option<Question>,
}

/// What a call answers: a number as the library's, the place of a refusal, the count, the value's bits, the state after.
pub struct Reply<'a> {
    pub number: usize,
    pub place: Option<&'a str>,
    pub count: u64,
    pub value: u64,
    pub state: State,
}

/// The bits, every NaN's as one.
pub fn bits(x: f64) -> u64 {
    if x.is_nan() { 0x7ff8_0000_0000_0000 } else { x.to_bits() }
}

impl Question {
    fn same(&self, other: &Self) -> bool {
        self.0 == other.0 && bits(self.1) == bits(other.1) && bits(self.2) == bits(other.2)
    }
}

impl State {
    pub fn fresh() -> Self {
        Self { position: 0, kept: Vec::new(), question: None }
    }

    /// What a state's numbers mean.
    pub fn from_cells(cells: &[u64]) -> Self {
        let kept = (cells[KEPT_COUNT] as usize).min(9);
        let question = match cells[QUESTION] {
            0 => None,
            17 => Some(Question(16, f64::from_bits(cells[FIRST]), f64::from_bits(cells[SECOND]))),
            n => Some(Question((n - 1).min(255), f64::from_bits(cells[FIRST]), 0.0)),
        };
        let kept = cells[KEPT..KEPT + kept].iter().map(|bits| f64::from_bits(*bits)).collect();
        Self { position: cells[POSITION], kept, question }
    }

    pub fn to_cells(&self, cells: &mut [u64]) {
        cells[POSITION] = self.position;
        cells[KEPT_COUNT] = self.kept.len() as u64;
        for i in 0..9 {
            cells[KEPT + i] = self.kept.get(i).map_or(0, |x| bits(*x));
        }
        let asked = self.question.map_or([0; 3], |q| [q.0 + 1, bits(q.1), if q.0 == 16 { bits(q.2) } else { 0 }]);
        cells[QUESTION..QUESTION + 3].copy_from_slice(&asked);
    }
}

impl Reply<'_> {
    /// The sixteen numbers after the call; a refused resume leaves them as they are.
    pub fn to_cells(&self, before: &[u64], run: bool) -> [u64; STATE] {
        let mut cells: [u64; STATE] = before[..STATE].try_into().expect("a state has sixteen numbers");
        if run || !matches!(self.number, 1 | 5 | 10 | 11) {
            self.state.to_cells(&mut cells);
            cells[COUNT] = self.count;
            cells[VALUE] = self.value;
        }
        cells
    }
}

enum Effect {
    Store(f64),
    Go(usize),
    Ask(Question),
}

/// The effect of an operation that asks: `Ok` its value, `Err` its next question.
type Work = Result<f64, Question>;

/// The kept values, one after another; the first that is missing is asked for.
struct Host<'a>(std::slice::Iter<'a, f64>);

impl Host<'_> {
    fn ask(&mut self, function: u64, x: f64, y: f64) -> Work {
        self.0.next().copied().ok_or(Question(function, x, y))
    }
    fn exp(&mut self, x: f64) -> Work {
        self.ask(0, x, 0.0)
    }
    fn log(&mut self, x: f64) -> Work {
        self.ask(1, x, 0.0)
    }
}

fn hill(x: f64, n: f64, k: f64, host: &mut Host) -> Work {
    if n <= 0.0 || k <= 0.0 {
        return Ok(f64::NAN);
    }
    if x <= 0.0 {
        return Ok(0.0);
    }
    let first = host.log(x)?;
    let z = n * (first - host.log(k)?);
    if z >= 0.0 {
        return Ok(1.0 / (1.0 + host.exp(-z)?));
    }
    let q = host.exp(z)?;
    Ok(q / (1.0 + q))
}

fn density(x: f64, mean: f64, shape: f64, host: &mut Host) -> Work {
    if mean <= 0.0 || shape <= 0.0 {
        return Ok(f64::NAN);
    }
    if x <= 0.0 {
        return Ok(0.0);
    }
    let (a, b, c) = (host.log(shape)?, host.log(f64::from_bits(0x4019_21fb_5444_2d18))?, host.log(x)?);
    let normalizer = 0.5 * (a - b - 3.0 * c);
    let mut cost = 0.0;
    if x != mean {
        let (a, b) = (host.log(shape)?, host.log(x)?);
        let (c, d) = (host.log((x - mean).abs())?, host.log(mean)?);
        cost = host.exp(a - f64::from_bits(0x3fe6_2e42_fefa_39ef) - b + 2.0 * (c - d))?;
    }
    host.exp(normalizer - cost)
}

fn modulo(a: f64, b: f64) -> f64 {
    if b <= 0.0 || b.is_nan() {
        return f64::NAN;
    }
    let r = a % b;
    match r {
        r if r < 0.0 && r + b >= b => 0.0,
        r if r < 0.0 => r + b,
        r => r,
    }
}

fn power(a: f64, b: f64, host: &mut Host) -> Work {
    let inside = (a >= 0.0 || b.fract() == 0.0) && !(a == 0.0 && b <= 0.0);
    if inside { host.ask(16, a, b) } else { Ok(f64::NAN) }
}

/// -0 below +0, as `total_cmp` has them; a NaN is below nothing and nothing below it.
fn below(x: f64, y: f64) -> bool {
    !x.is_nan() && !y.is_nan() && x.total_cmp(&y).is_lt()
}

fn extremum(less: bool, values: impl Iterator<Item = f64>) -> f64 {
    let beyond = |y: f64, v: f64| if less { below(y, v) } else { below(v, y) };
    values.reduce(|v, y| if beyond(y, v) { y } else { v }).unwrap_or(f64::NAN)
}

fn compare(operator: u8, x: f64, y: f64) -> f64 {
    f64::from([x < y, x <= y, x > y, x >= y, x == y, x != y][usize::from(operator)])
}

/// The work of an opcode from 5 on that has no list.
fn work(opcode: u8, x: f64, y: f64, z: f64, host: &mut Host) -> Work {
    match opcode {
        5 => Ok(x),
        6 => Ok(-x),
        7 => Ok(f64::from(x == 0.0)),
        8 => Ok(x + y),
        9 => Ok(x - y),
        10 => Ok(x * y),
        11 => Ok(if y == 0.0 { f64::NAN } else { x / y }),
        12 => power(x, y, host),
        13 => Ok(modulo(x, y)),
        14..=19 => Ok(compare(opcode - 14, x, y)),
        23 => Ok(x.sqrt()),
        28 => Ok(x.abs()),
        29 => Ok(x.floor()),
        30 => Ok(x.ceil()),
        33 => hill(x, y, z, host),
        34 => density(x, y, z, host),
        function => host.ask(u64::from(function) - 20, x, 0.0),
    }
}

impl<'a> Machine<'a> {
    fn effect(&self, row: &Row, inputs: &[f64], regs: &[f64], kept: &[f64]) -> Effect {
        let reg = |i: usize| regs.get(row.fields[i]).copied().unwrap_or(0.0);
        match row.opcode {
            0 => Effect::Store(f64::from_bits((row.fields[1] as u64) << 32 | row.fields[0] as u64)),
            1 => Effect::Store(inputs[row.fields[0]]),
            2 => Effect::Store(reg(0)),
            3 => Effect::Go(if reg(0) == 0.0 { row.fields[2] } else { usize::MAX }),
            4 => Effect::Go(row.fields[2]),
            31 | 32 => Effect::Store(extremum(row.opcode == 31, row.list.iter().map(|i| regs[*i]))),
            opcode => work(opcode, reg(0), reg(1), reg(2), &mut Host(kept.iter())).map_or_else(Effect::Ask, Effect::Store),
        }
    }

    fn refused(&self, number: usize, state: State) -> Reply<'a> {
        Reply { number, place: (number == 5).then_some("root"), count: 0, value: 0, state }
    }

    fn steps(&self, inputs: &[f64], regs: &mut [f64], budget: usize, state: State) -> Reply<'a> {
        let (mut at, mut kept, mut count) = (state.position as usize, state.kept, 0);
        let ended = State { position: self.rows.len() as u64, kept: Vec::new(), question: None };
        loop {
            let Some(row) = self.rows.get(at) else {
                return Reply { number: 0, place: None, count, value: bits(regs[self.result]), state: ended };
            };
            if count == budget as u64 {
                let state = State { position: at as u64, kept, question: None };
                return Reply { number: SPENT, place: None, count, value: 0, state };
            }
            at = match self.effect(row, inputs, regs, &kept) {
                Effect::Go(usize::MAX) => at + 1,
                Effect::Go(to) => to,
                Effect::Store(v) if v.is_finite() => {
                    regs[row.destination] = v;
                    at + 1
                }
                Effect::Store(_) => return Reply { number: 9, place: Some(row.path), count, value: 0, state: ended },
                Effect::Ask(question) => {
                    let state = State { position: at as u64, kept, question: Some(question) };
                    return Reply { number: ASK, place: None, count, value: 0, state };
                }
            };
            kept = Vec::new();
            count += 1;
        }
    }

    /// "11 (resume), position not at an instruction, a pending question that this instruction .. doesn't put, or a value
    /// supplied while no question shown for that instruction is pending"
    fn stale(&self, inputs: &[f64], regs: &[f64], state: &State, given: Option<f64>) -> bool {
        let Some(row) = usize::try_from(state.position).ok().and_then(|at| self.rows.get(at)) else {
            return true;
        };
        match state.question {
            None => given.is_some(),
            Some(pending) => !matches!(self.effect(row, inputs, regs, &state.kept), Effect::Ask(q) if q.same(&pending)),
        }
    }

    /// A run (no state) or a resume.
    pub fn call(
        &self, room: usize, inputs: &[f64], regs: &mut [f64], budget: usize, state: Option<State>, given: Option<f64>,
    ) -> Reply<'a> {
        let resume = state.is_some();
        let mut state = state.unwrap_or_else(State::fresh);
        if room < 8192 {
            return self.refused(1, state);
        }
        let fit = inputs.len() == self.inputs && regs.len() >= self.registers && inputs.iter().all(|x| x.is_finite());
        if !fit || budget == 0 {
            return self.refused(5, state);
        }
        if resume && self.stale(inputs, regs, &state, given) {
            return self.refused(11, state);
        }
        state.kept.extend(given);
        self.steps(inputs, regs, budget, state)
    }
}
