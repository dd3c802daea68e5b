// The modules of the reference for a program that has it in its own crate: `include!` this at the crate's root, which also
// needs modules `libm` and `steps`, those beside this file or others.
#[allow(dead_code)]
#[path = "compile/mod.rs"]
mod compile;
#[allow(dead_code)]
#[path = "errors.rs"]
mod errors;
#[allow(dead_code)]
#[path = "expression.rs"]
mod expression;
#[allow(dead_code)]
#[path = "labelled/mod.rs"]
mod labelled;
#[allow(dead_code)]
#[path = "names.rs"]
mod names;
#[allow(dead_code)]
#[path = "nodes.rs"]
mod nodes;
#[path = "numbers.rs"]
mod numbers;
#[allow(dead_code)]
#[path = "refusals.rs"]
mod refusals;
