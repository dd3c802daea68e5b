//! Stands in for the crate `libm`. A question takes the next value of a list, or is put to the C library.
//! Square root, floor and ceiling are no questions.
use std::cell::RefCell;
use std::collections::VecDeque;

/// Where answers come from.
pub enum Source {
    List(VecDeque<f64>),
    CLibrary,
}

/// A question: the function's number (16 for Power) and the arguments.
#[derive(Clone, Debug)]
pub struct Question {
    pub function: u8,
    pub arguments: Vec<f64>,
}

/// The payload that unwinds out of a run when the list is used up.
pub struct Asked(pub Question);

struct Desk {
    source: Source,
    answered: Vec<(Question, f64)>,
}

thread_local! {
    static DESK: RefCell<Desk> = const {
        RefCell::new(Desk { source: Source::List(VecDeque::new()), answered: Vec::new() })
    };
}

/// Sets the source of answers and forgets the questions of the run before.
pub fn begin(source: Source) {
    DESK.set(Desk {
        source,
        answered: Vec::new(),
    });
}

/// The questions answered since `begin`, in order, each with its answer.
pub fn answered() -> Vec<(Question, f64)> {
    DESK.with_borrow(|desk| desk.answered.clone())
}

/// Answers a question, or unwinds with it. `resume_unwind` calls no panic hook, so nothing is printed.
fn ask(function: u8, arguments: &[f64]) -> f64 {
    let question = Question {
        function,
        arguments: arguments.to_vec(),
    };
    let answer = DESK.with_borrow_mut(|desk| {
        let answer = match &mut desk.source {
            Source::List(values) => values.pop_front(),
            Source::CLibrary => Some(by_c_library(&question)),
        };
        if let Some(value) = answer {
            desk.answered.push((question.clone(), value));
        }
        answer
    });
    match answer {
        Some(value) => value,
        None => std::panic::resume_unwind(Box::new(Asked(question))),
    }
}

fn by_c_library(question: &Question) -> f64 {
    let x = question.arguments[0];
    // SAFETY: these C functions take and give doubles and touch no memory of ours.
    unsafe {
        match question.function {
            0 => c::exp(x),
            1 => c::log(x),
            2 => c::log10(x),
            4 => c::sin(x),
            5 => c::cos(x),
            6 => c::tan(x),
            7 => c::tanh(x),
            16 => c::pow(x, question.arguments[1]),
            other => unreachable!("function {other} is no question"),
        }
    }
}

mod c {
    #[link(name = "m")]
    extern "C" {
        pub fn exp(x: f64) -> f64;
        pub fn log(x: f64) -> f64;
        pub fn log10(x: f64) -> f64;
        pub fn sin(x: f64) -> f64;
        pub fn cos(x: f64) -> f64;
        pub fn tan(x: f64) -> f64;
        pub fn tanh(x: f64) -> f64;
        pub fn pow(x: f64, y: f64) -> f64;
    }
}

pub fn exp(x: f64) -> f64 {
    ask(0, &[x])
}
pub fn log(x: f64) -> f64 {
    ask(1, &[x])
}
pub fn log10(x: f64) -> f64 {
    ask(2, &[x])
}
pub fn sin(x: f64) -> f64 {
    ask(4, &[x])
}
pub fn cos(x: f64) -> f64 {
    ask(5, &[x])
}
pub fn tan(x: f64) -> f64 {
    ask(6, &[x])
}
pub fn tanh(x: f64) -> f64 {
    ask(7, &[x])
}
pub fn pow(x: f64, y: f64) -> f64 {
    ask(16, &[x, y])
}
pub fn sqrt(x: f64) -> f64 {
    x.sqrt()
}
pub fn floor(x: f64) -> f64 {
    x.floor()
}
pub fn ceil(x: f64) -> f64 {
    x.ceil()
}
