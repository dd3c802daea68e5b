//! `plot`: a formula and its rates over one symbol.
use crate::commands::{counted, table};
use crate::evaluate::{figure, rates, slope, symbol, Rate};
use crate::files::{load, write, Failure, Loaded, Output};
use crate::names::Names;
use crate::print::number;
use crate::svg::{draw, Panel, Picture, COLOURS};
use crate::values::signed;
use std::path::Path;

/// Points of a curve.
const POINTS: usize = 401;

/// `plot FILE [VALUES.csv] --over NAME=FROM..TO [--by NAME,..] -o FILE.svg`: a curve for each line of values.
pub fn plot(file: &str, values: Option<&str>, over: &str, by: &str, out: &str) -> Result<Output, Failure> {
    let loaded = load(file)?;
    let (name, from, to) = range(over)?;
    let over = symbol(&loaded, name)?;
    let rates = rates(&loaded, by)?;
    let rows = rows(&loaded, values, over)?;
    let xs: Vec<f64> = (0..POINTS).map(|at| between(from, to, at as f64 / (POINTS - 1) as f64)).collect();
    let panels = panels(&loaded, &rates, &rows, over as usize, &xs);
    let (fixed, curves) = labels(&loaded.formula.names, &rows, over as usize);
    let missing = panels[0].curves.iter().flatten().filter(|value| value.is_none()).count();
    let picture = Picture { title: loaded.formula.short().into(), fixed, over: name.into(), from, to, curves, panels };
    write(Path::new(out), draw(&picture).as_bytes())?;
    let text = format!("{out}: {} over {name} from {} to {}, ", loaded.formula.short(), number(from.to_bits()), number(to.to_bits()));
    let text = text + &format!("{} of {POINTS} points, {missing} of them without a value\n", counted(rows.len(), "curve"));
    Ok(Output { text, ..Output::default() })
}

fn between(from: f64, to: f64, part: f64) -> f64 {
    from * (1.0 - part) + to * part
}

/// The name and the numbers of `NAME=FROM..TO`.
fn parts(over: &str) -> Option<(&str, f64, f64)> {
    let (name, range) = over.split_once('=')?;
    let (from, to) = range.split_once("..")?;
    Some((name.trim(), signed(from.trim()).ok()?, signed(to.trim()).ok()?))
}

fn range(over: &str) -> Result<(&str, f64, f64), Failure> {
    match parts(over) {
        Some((_, from, to)) if from >= to => Err(Failure::trouble(format!("--over {over}: the first number has to be below the second"))),
        Some((_, from, to)) if !(to - from).is_finite() => Err(Failure::trouble(format!("--over {over}: the range is too long"))),
        Some(range) => Ok(range),
        None => Err(Failure::trouble(format!("--over {over}: write it as distance=100..900"))),
    }
}

/// The lines of values; without a file there must be no other symbol.
fn rows(loaded: &Loaded, values: Option<&str>, over: u32) -> Result<Vec<Vec<f64>>, Failure> {
    let names = &loaded.formula.names;
    let Some(values) = values else {
        if names.len() > 1 {
            return Err(Failure::trouble("the formula has other names too: give a VALUES.csv with their values"));
        }
        return Ok(vec![vec![0.0; names.len()]]);
    };
    let (text, rows) = table(values, names, Some(over))?;
    let rows: Vec<Vec<f64>> = rows.into_iter().collect::<Result<_, _>>().map_err(|problem| Failure::refused(values, &text, &problem))?;
    match rows.len() {
        0 => Err(Failure::trouble(format!("{values}: there is no line of values"))),
        count if count > COLOURS.len() => Err(Failure::trouble(format!("{values}: {count} lines of values, but at most {} curves", COLOURS.len()))),
        _ => Ok(rows),
    }
}

/// The figure's panel, then one for each rate.
fn panels(loaded: &Loaded, rates: &[Rate], rows: &[Vec<f64>], over: usize, xs: &[f64]) -> Vec<Panel> {
    let curves = |value: &dyn Fn(&[f64]) -> Option<f64>| -> Vec<Vec<Option<f64>>> {
        let curve = |row: &Vec<f64>| {
            let mut inputs = row.clone();
            xs.iter().map(|x| at(&mut inputs, over, *x, value)).collect()
        };
        rows.iter().map(curve).collect()
    };
    let mut panels = vec![Panel { label: loaded.formula.short().into(), curves: curves(&|inputs| figure(loaded, inputs).ok()) }];
    for rate in rates {
        let label = format!("{} per {}", loaded.formula.short(), rate.name);
        panels.push(Panel { label, curves: curves(&|inputs| slope(rate, loaded, inputs).ok()) });
    }
    panels
}

/// A value with one input set.
fn at(inputs: &mut [f64], over: usize, x: f64, value: &dyn Fn(&[f64]) -> Option<f64>) -> Option<f64> {
    *inputs.get_mut(over)? = x;
    value(inputs)
}

/// What is the same on all lines, and for each line what is not.
fn labels(names: &Names, rows: &[Vec<f64>], over: usize) -> (String, Vec<String>) {
    let varies = |at: usize| rows.iter().any(|row| row[at].to_bits() != rows[0][at].to_bits());
    let said = |row: &Vec<f64>, moving: bool| -> String {
        let shown = names.all().enumerate().filter(|(at, _)| *at != over && varies(*at) == moving);
        let texts: Vec<String> = shown.map(|(at, name)| format!("{name} {}", number(row[at].to_bits()))).collect();
        texts.join(", ")
    };
    (said(&rows[0], false), rows.iter().map(|row| said(row, true)).collect())
}
