//! The worked flights of docs/REFERENCE.md, and each refusal's text, through the crate.
use vebrostin::slices::{self, PATH, RECORD, REPORT, STATE};
use vebrostin::{Answer, Error, Program, Question, Record, Refusal, Rule, Run};

const NAMES: &[u8] = b"climb:p,burn:p,distance:i,tas:i,wind:i";

fn node(kind: u8, operator: u8, symbol: u32, value: u64, children: &[Vec<u8>]) -> Vec<u8> {
    let mut bytes = vec![kind, operator];
    bytes.extend((children.len() as u16).to_le_bytes());
    bytes.extend(symbol.to_le_bytes());
    bytes.extend(value.to_le_bytes());
    children.iter().for_each(|child| bytes.extend(child));
    bytes
}

fn number(x: f64) -> Vec<u8> {
    node(0, 0, 0, x.to_bits(), &[])
}

fn symbol(n: u32) -> Vec<u8> {
    node(2, 0, n, 0, &[])
}

fn binary(operator: u8, a: Vec<u8>, b: Vec<u8>) -> Vec<u8> {
    node(4, operator, 0, 0, &[a, b])
}

fn call(function: u8, arguments: &[Vec<u8>]) -> Vec<u8> {
    node(7, function, 0, 0, arguments)
}

/// Add(climb, Divide(Multiply(burn, distance), Add(tas, wind)))
fn flight() -> Vec<u8> {
    binary(0, symbol(0), binary(3, binary(2, symbol(1), symbol(2)), binary(0, symbol(3), symbol(4))))
}

/// The value of a formula without names; no question is expected.
fn value(formula: &[u8]) -> Result<f64, Error> {
    Program::compile(formula, b"")?.evaluate(&[], |question| panic!("asks {question:?}"))
}

#[test]
fn flights() {
    let program = Program::compile(&flight(), NAMES).unwrap();
    assert_eq!((program.instructions(), program.registers(), program.inputs()), (9, 9, 5));
    let mut run = Run::new(&program);
    assert_eq!(run.start(&[90.0, 300.0, 400.0, 200.0, 0.0], 100), Ok(Answer::Value(690.0)));
    assert_eq!(run.completed(), 9);
    let error = run.start(&[90.0, 300.0, 400.0, 200.0, -200.0], 100).unwrap_err();
    assert_eq!((error.refusal, error.place.as_deref(), run.completed()), (Refusal::Domain, Some("root.arguments[1]"), 7));
}

#[test]
fn derivative_by_distance() {
    let derivative = Program::derive(&flight(), NAMES, 2).unwrap();
    assert_eq!(derivative.tree.len(), 23 * 16);
    let inputs = [90.0, 300.0, 400.0, 200.0, 0.0];
    let mut asked = Vec::new();
    let slope = derivative.program.evaluate(&inputs, |question| {
        asked.push(question);
        question.by_libm()
    });
    assert_eq!(slope, Ok(1.5));
    assert_eq!(asked, [Question::Power(200.0, 2.0)]);
}

/// Rule and node of each record of a derivative by symbol 0, less the first three and those of the formula's copy.
fn records(formula: &[u8], names: &[u8]) -> Vec<(u32, u32)> {
    let nodes = formula.len() / 16;
    let derivative = Program::derive(formula, names, 0).unwrap();
    let pairs: Vec<_> = derivative.records.iter().map(|record| (record.rule.number(), record.node)).collect();
    assert_eq!(pairs.len(), derivative.tree.len() / 16);
    assert_eq!(pairs[..3], [(27, 0); 3]);
    assert!(pairs[3..3 + nodes].iter().copied().eq((0..nodes as u32).map(|node| (0, node))));
    pairs[3 + nodes..].to_vec()
}

/// Lists of docs/DERIVATIVE.md; tools/derivative/worked.py has more.
#[test]
fn rules_of_nodes() {
    let derivative = Program::derive(&flight(), NAMES, 2).unwrap();
    let (divide, copied) = (Rule::Divide, Rule::Copied);
    let wanted = [(divide, 2), (divide, 2), (copied, 4), (copied, 6), (copied, 7), (copied, 8), (divide, 2), (copied, 6), (copied, 7), (copied, 8), (divide, 2)];
    assert_eq!(derivative.records[12..], wanted.map(|(rule, node)| Record { rule, node }));
    let (a, b, zero) = (symbol(0), symbol(1), number(0.0));
    let both = b"a:p,b:p";
    assert_eq!(records(&binary(4, a.clone(), number(3.0)), both), [(8, 0), (8, 0), (8, 0), (0, 1), (8, 0)]);
    let least = call(11, &[a.clone(), b.clone()]);
    assert_eq!(records(&least, both), [(12, 0), (12, 0), (0, 1), (0, 0), (0, 1), (0, 2), (1, 1), (26, 2)]);
    let nothing = binary(2, zero, a.clone());
    assert_eq!(records(&binary(0, b.clone(), nothing.clone()), both), [(24, 2)]);
    assert_eq!(records(&binary(0, nothing, b.clone()), both), [(26, 4)]);
    let either = call(14, &[node(5, 0, 0, 0, &[b.clone(), number(1.0)]), a, b]);
    assert_eq!(records(&either, both), [(11, 0), (0, 1), (0, 2), (0, 3), (1, 4), (26, 5)]);
}

#[test]
fn rule_numbers() {
    for number in 0..28 {
        let rule = Rule::from_number(number).unwrap();
        assert_eq!(rule.number(), number);
        let record = Record { rule, node: 0x0403_0201 };
        assert_eq!(record.to_bytes(), [number as u8, 0, 0, 0, 1, 2, 3, 4]);
        assert_eq!(Record::from_bytes(record.to_bytes()), Some(record));
    }
    assert_eq!(Rule::from_number(28), None);
    assert_eq!(Record::from_bytes([0, 1, 0, 0, 0, 0, 0, 0]), None);
    assert_eq!((Rule::Divide.to_string(), Rule::Outer.name()), ("rule for Divide".into(), "0 × formula + derivative"));
}

/// The list slice: 8 bytes a node are enough, zeros follow; one record fewer is refusal 1, and then tree and list are all zero.
#[test]
fn list_slices() {
    let formula = flight();
    let derive = |list: &mut [u8], formula: &[u8], symbol: u32| {
        let (mut path, mut tree, mut program) = ([7; PATH], [7; 16 * 25], vec![7; 240 * 25]);
        let number = slices::derive(formula, NAMES, symbol, &mut path, &mut tree, list, &mut program, &mut [0; REPORT]);
        let left = |slice: &[u8], byte: u8| slice.iter().all(|other| *other == byte);
        (number, left(&path, 7), left(&tree, 0), left(&tree, 7), left(&program, 7))
    };
    let (need, made) = (23 * RECORD, (0, true, false, false, false));
    let mut list = vec![7; need];
    assert_eq!(derive(&mut list, &formula, 2), made);
    let mut longer = vec![7; need + 13];
    assert_eq!(derive(&mut longer, &formula, 2), made);
    assert_eq!((&longer[..need], &longer[need..]), (&list[..], &[0; 13][..]));
    for short in [need - 1, need - RECORD, 0] {
        let mut list = vec![7; short];
        assert_eq!(derive(&mut list, &formula, 2), (1, true, true, false, true));
        assert_eq!(list, vec![0; short]);
    }
    let mut list = vec![7; need];
    assert_eq!(derive(&mut list, &formula, 9), (6, false, true, false, true));
    assert_eq!(list, vec![0; need]);
    let mut list = vec![7; need];
    assert_eq!(derive(&mut list, &formula[..40], 2), (12, true, false, true, true));
    assert_eq!(list, vec![7; need]);
}

#[test]
fn values() {
    let bits = |formula: &[u8]| value(formula).map(f64::to_bits);
    assert_eq!(bits(&binary(5, number(-1.0), number(3.0))), Ok(2.0f64.to_bits()));
    assert_eq!(bits(&binary(5, number(-1e-20), number(3.0))), Ok(0.0f64.to_bits()));
    assert_eq!(bits(&binary(5, number(-3.0), number(3.0))), Ok((-0.0f64).to_bits()));
    assert_eq!(bits(&call(13, &[number(0.0), number(2.0), number(1.0)])), Ok(0));
    assert_eq!(bits(&call(3, &[number(2.0)])), Ok(0x3ff6_a09e_667f_3bcd));
    assert_eq!(bits(&call(10, &[number(-0.5)])), Ok((-0.0f64).to_bits()));
    for (base, exponent) in [(0.0, 0.0), (-8.0, 0.5)] {
        assert_eq!(value(&binary(4, number(base), number(exponent))).unwrap_err().refusal, Refusal::Domain);
    }
}

#[test]
fn budgets() {
    let formula = node(8, 0, 0, 0, &[node(5, 0, 0, 0, &[symbol(0), number(1.0)]), number(2.0), number(3.0)]);
    let program = Program::compile(&formula, b"p:p").unwrap();
    let mut run = Run::new(&program);
    assert_eq!(run.start(&[0.0], 5), Ok(Answer::Spent));
    assert_eq!(run.resume(&[0.0], 5), Ok(Answer::Value(2.0)));
    assert_eq!(run.completed(), 2);
    assert_eq!(run.resume(&[0.0], 5).unwrap_err().refusal, Refusal::State);
    assert_eq!(run.completed(), 0);
    assert_eq!(run.start(&[0.0], 0).unwrap_err().refusal, Refusal::InvalidInput);
}

#[test]
fn refusals() {
    let refused = |formula: &[u8], names: &[u8]| Program::compile(formula, names).unwrap_err().to_string();
    assert_eq!(refused(&[9; 16], b""), "refusal 2 at node 0: a field of the node is wrong");
    assert_eq!(refused(&[0; 15], b""), "refusal 12 at node 0: the bytes end before the formula does");
    assert_eq!(refused(&[0; 17], b""), "refusal 13 at node 1: bytes follow the formula's last node");
    assert_eq!(refused(&number(1.0), b"9a:p"), "refusal 3: the name line is not well formed");
    assert_eq!(refused(&call(11, &vec![number(1.0); 256]), b""), "refusal 4 at root: the formula has more than 256 nodes or more than 32 levels");
    let one = refused(&call(0, &[]), b"");
    assert_eq!(one, "refusal 5 at root: a function or operator has a wrong number of arguments");
    let unknown = refused(&binary(0, number(1.0), symbol(7)), b"a:p");
    assert_eq!(unknown, "refusal 6 at root.arguments[1]: the symbol's number is not in the name line");
    let derived = Program::derive(&node(1, 0, 0, 1, &[]), b"a:p", 0).unwrap_err();
    assert_eq!((derived.refusal, derived.place.as_deref()), (Refusal::Type, Some("root")));
    assert_eq!((0..=14).filter_map(Refusal::from_number).map(Refusal::number).collect::<Vec<_>>(), (1..=13).collect::<Vec<_>>());
}

/// The refusal and its node by compile and by derive, which are the same.
fn fault(formula: &[u8], names: &[u8]) -> (Refusal, Option<u64>) {
    let compiled = Program::compile(formula, names).unwrap_err();
    let derived = Program::derive(formula, names, 0).unwrap_err();
    assert_eq!((compiled.refusal, compiled.node), (derived.refusal, derived.node));
    assert_eq!(compiled.place, None);
    (compiled.refusal, compiled.node)
}

/// The bytes with another one at a place.
fn with(bytes: &[u8], at: usize, byte: u8) -> Vec<u8> {
    let mut bytes = bytes.to_vec();
    bytes[at] = byte;
    bytes
}

/// The head of a Min of so many arguments.
fn minimum(count: u16) -> Vec<u8> {
    let [low, high] = count.to_le_bytes();
    with(&with(&node(7, 11, 0, 0, &[]), 2, low), 3, high)
}

/// Files cut and damaged in transfer: the refusal's number and its node.
#[test]
fn transfers() {
    let (f, one, none) = (flight(), symbol(0), vec![9; 16]);
    let told = |formula: &[u8], names: &[u8]| {
        let (refusal, node) = fault(formula, names);
        (refusal.number(), node)
    };
    for (count, node) in [(0, 0), (5, 0), (16, 1), (40, 2), (128, 8), (143, 8)] {
        assert_eq!(told(&f[..count], NAMES), (12, Some(node)));
    }
    assert_eq!(told(&f[..40], b"a:p,"), (12, Some(2)));
    assert_eq!(told(&f, b"a:p,"), (3, None));
    assert_eq!(told(&[&f[..], &[0]].concat(), NAMES), (13, Some(9)));
    assert_eq!(told(&[&f[..], &one].concat(), NAMES), (13, Some(9)));
    assert_eq!(told(&with(&f, 48, 9), NAMES), (2, Some(3)));
    assert_eq!(told(&with(&f, 48, 9)[..70], NAMES), (2, Some(3)));
    assert_eq!(told(&with(&f, 48, 9)[..50], NAMES), (12, Some(3)));
    assert_eq!(told(&with(&f, 2, 3), NAMES), (2, Some(0)));
    let three = one.repeat(3);
    assert_eq!(told(&[minimum(2), three.clone()].concat(), NAMES), (13, Some(3)));
    assert_eq!(told(&[minimum(4), three.clone()].concat(), NAMES), (12, Some(4)));
    assert_eq!(told(&[minimum(65535), three].concat(), NAMES), (12, Some(4)));
    assert_eq!(told(&[minimum(65535), one.repeat(2), none, one.clone()].concat(), NAMES), (2, Some(3)));
    assert_eq!(told(&minimum(65535).repeat(256), NAMES), (12, Some(256)));
    let deep = [node(3, 1, 0, 0, &[vec![]]).repeat(200), one].concat();
    assert_eq!(told(&deep[..deep.len() - 1], NAMES), (12, Some(200)));
}

#[test]
fn faults() {
    use Refusal::{EndedEarly, LeftOver, Names, WrongField};
    let formula = flight();
    for cut in 0..formula.len() {
        assert_eq!(fault(&formula[..cut], NAMES), (EndedEarly, Some(cut as u64 / 16)));
    }
    assert_eq!(fault(&formula[..40], b"a:p,"), (EndedEarly, Some(2)));
    assert_eq!(fault(&formula, b"a:p,"), (Names, None));
    for more in [vec![0], vec![9; 15], symbol(0), vec![9; 17]] {
        assert_eq!(fault(&[formula.clone(), more].concat(), NAMES), (LeftOver, Some(9)));
    }
    for node in 0..9 {
        let mut wrong = formula.clone();
        wrong[16 * node] = 9;
        assert_eq!(fault(&wrong, NAMES), (WrongField, Some(node as u64)));
        assert_eq!(fault(&wrong[..16 * node + 16], NAMES), (WrongField, Some(node as u64)));
        assert_eq!(fault(&wrong[..16 * node + 15], NAMES), (EndedEarly, Some(node as u64)));
    }
    let most = [7, 11, 255, 255, 0, 0, 0, 0, 0, 0, 0, 0, 0, 0, 0, 0];
    assert_eq!(fault(&most.repeat(1000), NAMES), (EndedEarly, Some(1000)));
    assert_eq!(fault(&[most.repeat(1000), vec![9; 16], symbol(0)].concat(), NAMES), (WrongField, Some(1000)));
    assert_eq!(fault(&[most.to_vec(), symbol(0).repeat(65536)].concat(), NAMES), (LeftOver, Some(65536)));
}

/// Compile and derive write the node's place of the report, 0 where there is none, and no other; runs leave the whole report.
#[test]
fn reports() {
    let node = |number: usize, node: u64| ((number, number), [node, 7, 7, 7, 7, 7, 7, 7], [node, 7, 7, 7, 7, 7, 7, 7]);
    let both = |formula: &[u8], names: &[u8], room: usize| {
        let (mut path, mut tree, mut list, mut program) = ([7; PATH], [7; 1600], [7; 800], vec![7; room]);
        let (mut compiled, mut derived) = ([7; REPORT], [7; REPORT]);
        let number = slices::compile(formula, names, &mut path, &mut program, &mut compiled);
        ((number, slices::derive(formula, names, 2, &mut path, &mut tree, &mut list, &mut program, &mut derived)), compiled, derived)
    };
    let formula = flight();
    assert_eq!(both(&formula, NAMES, 24_000), node(0, 0));
    assert_eq!(both(&formula[..140], NAMES, 24_000), node(12, 8));
    assert_eq!(both(&formula[..140], NAMES, 8 * 240), node(1, 0));
    assert_eq!(both(&[&formula[..], &[0]].concat(), NAMES, 24_000), node(13, 9));
    assert_eq!(both(&[0, 1].repeat(8), NAMES, 24_000), node(2, 0));
    assert_eq!(both(&formula, b"A", 24_000), node(3, 0));
    assert_eq!(both(&formula, b"a:p", 24_000), node(6, 0));
    let program = Program::compile(&formula, NAMES).unwrap();
    let (mut registers, mut path, mut cells, mut report) = ([7.0; 9], [7; PATH], [7; STATE], [7; REPORT]);
    for inputs in [&[90.0, 300.0, 400.0, 200.0, 0.0][..], &[]] {
        slices::run(program.bytes(), inputs, &mut registers, &mut path, 2, &mut cells, &mut report);
        slices::resume(program.bytes(), inputs, &mut registers, &mut path, 2, &mut cells, &mut report, None);
        slices::resume(program.bytes(), inputs, &mut registers, &mut path, 2, &mut cells, &mut report, Some(1.0));
    }
    assert_eq!(report, [7; REPORT]);
}

#[test]
fn short_report() {
    let (mut path, mut tree, mut list, mut program, mut cells) = ([7; PATH], [7; 16], [7; 8], [7; 240], [7; STATE]);
    let (formula, report) = (number(1.0), &mut [7; REPORT - 1]);
    assert_eq!(slices::compile(&formula, b"", &mut path, &mut program, report), 1);
    assert_eq!(slices::derive(&formula, b"a:p", 0, &mut path, &mut tree, &mut list, &mut program, report), 1);
    assert_eq!(slices::run(&program, &[], &mut [7.0], &mut path, 1, &mut cells, report), 1);
    assert_eq!(slices::resume(&program, &[], &mut [7.0], &mut path, 1, &mut cells, report, None), 1);
    assert_eq!(slices::resume(&program, &[], &mut [7.0], &mut path, 1, &mut cells, report, Some(1.0)), 1);
    assert_eq!((path, tree, list, program, cells, *report), ([7; PATH], [7; 16], [7; 8], [7; 240], [7; STATE], [7; REPORT - 1]));
}

#[test]
fn programs_from_bytes() {
    let program = Program::compile(&flight(), NAMES).unwrap();
    assert_eq!(Program::from_bytes(program.bytes().to_vec()), Ok(program.clone()));
    let mut bytes = program.bytes().to_vec();
    bytes[4] += 1;
    let error = Program::from_bytes(bytes).unwrap_err();
    assert_eq!((error.refusal, error.place), (Refusal::Program, None));
}
