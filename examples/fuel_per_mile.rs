//! Fuel and fuel per mile of the trip formula: fuel_per_mile FOLDER SYMBOL VALUE.., FOLDER made by `vebrostin pack`.
use std::error::Error;
use vebrostin::Program;

fn main() {
    if let Err(error) = print() {
        eprintln!("{error}");
        std::process::exit(1);
    }
}

fn print() -> Result<(), Box<dyn Error>> {
    let words: Vec<String> = std::env::args().skip(1).collect();
    let [folder, symbol, values @ ..] = words.as_slice() else {
        return Err("fuel_per_mile FOLDER SYMBOL VALUE..".into());
    };
    let formula = std::fs::read(format!("{folder}/formula.bin"))?;
    let input = std::fs::read(format!("{folder}/input"))?;
    let names = input.split(|byte| *byte == b'\n').next().unwrap_or_default();
    let inputs = values.iter().map(|value| value.parse()).collect::<Result<Vec<f64>, _>>()?;
    let trip = Program::compile(&formula, names)?;
    let derivative = Program::derive(&formula, names, symbol.parse()?)?;
    println!("fuel {} kg", trip.evaluate(&inputs, |question| question.by_libm())?);
    let slope = derivative.program.evaluate(&inputs, |question| {
        let answer = question.by_libm();
        println!("asked {question:?}, answered {answer}");
        answer
    })?;
    println!("fuel per mile {slope} kg");
    Ok(())
}
