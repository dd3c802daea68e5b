//! Text and bytes back and forth on random trees, every message, and no panic on any bytes.
#[path = "../../../../tools/compare/random.rs"]
#[allow(dead_code)]
mod random;

use crate::bytes::{decode, encode, NODE};
use crate::explain;
use crate::names::Names;
use crate::parse::{parse, NESTED};
use crate::place::locate;
use crate::print::print;
use crate::text::{write, Formula};
use crate::tree::{Head, Tree, LEVELS};
use crate::{run, values, STACK};
use random::Random;
use vebrostin::{Action, Error, Program, Refusal};

/// Runs a test with the command's stack.
fn deep(test: fn()) {
    let worker = std::thread::Builder::new().stack_size(STACK).spawn(test).expect("a thread");
    worker.join().expect("no panic");
}

/// Names of which some are words of the text or functions.
fn names() -> Names {
    Names::from_line(b"climb:p,and:p,min:i,infinity:s,not:t,x1:p,if:p,true:i,e5:p,exp:p").expect("a name line")
}

/// Bits of numbers: those that people write, and any.
fn number(random: &mut Random) -> u64 {
    const BITS: [u64; 10] = [
        0, 1 << 63, 0x7ff0_0000_0000_0000, 0xfff0_0000_0000_0000, 0x7ff8_0000_0000_0000, 0xfff8_0000_0000_0001, 0x7ff0_0000_0000_0001, 1,
        0x7fef_ffff_ffff_ffff, 0x8000_0000_0000_0001,
    ];
    match random.below(4) {
        0 => random.choice(&BITS),
        1 => random.bits(),
        2 => ((random.below(2001) as f64 - 1000.0) / 8.0).to_bits(),
        _ => (random.below(20) as f64 - 10.0).to_bits(),
    }
}

/// A tree with any operators and any count of children where the bytes allow it.
fn tree(random: &mut Random, levels: usize) -> Tree {
    let leaf = levels == 1 || random.chance(0.2);
    let head = match if leaf { random.below(4) } else { 4 + random.below(8) } {
        0 | 1 => Head::Number(number(random)),
        2 => Head::Truth(random.chance(0.5)),
        3 => Head::Symbol(if random.chance(0.9) { random.below(12) as u32 } else { random.bits() as u32 }),
        4 | 5 => Head::Unary(random.below(3) as u8),
        6 | 7 => Head::Binary(random.below(6) as u8),
        8 => Head::Compare(random.below(6) as u8),
        9 => Head::Boolean(random.below(2) as u8),
        10 => Head::Call(random.below(16) as u8),
        _ => Head::Conditional,
    };
    let count = match head {
        Head::Unary(_) => 1,
        Head::Binary(_) | Head::Compare(_) => 2,
        Head::Conditional => 3,
        Head::Boolean(_) | Head::Call(_) => random.below(5),
        _ => 0,
    };
    Tree::new(head, (0..count).map(|_| tree(random, levels - 1)).collect(), 0..0)
}

#[test]
fn text_and_bytes_back_and_forth() {
    let mut random = Random::new(1);
    let names = names();
    for round in 0..100_000 {
        let tree = tree(&mut random, 1 + round % 7);
        let bytes = encode(&tree);
        let text = print(&tree, &names);
        let read = parse(&text, 0, &names).unwrap_or_else(|problem| panic!("{}", problem.show("tree", &text)));
        assert_eq!(encode(&read), bytes, "{text}");
        assert!(read.same(&tree) && decode(&bytes).is_ok_and(|decoded| decoded.same(&tree)), "{text}");
        let file = write("trees", &names, &tree);
        let formula = Formula::read(&file).unwrap_or_else(|problem| panic!("{}", problem.show("file", &file)));
        assert!(formula.names == names && formula.tree.same(&tree), "{file}");
    }
}

/// Without any one of its pairs of parentheses that only group, a text is refused or another tree.
#[test]
fn no_parentheses_too_many() {
    let mut random = Random::new(2);
    let names = names();
    for round in 0..20_000 {
        let tree = tree(&mut random, 2 + round % 4);
        let text = print(&tree, &names);
        for (open, close) in groups(&text) {
            let mut fewer = text.clone().into_bytes();
            (fewer[open], fewer[close]) = (b' ', b' ');
            let fewer = String::from_utf8(fewer).expect("a text");
            assert!(parse(&fewer, 0, &names).map_or(true, |read| !read.same(&tree)), "{text}\n{fewer}");
        }
    }
}

/// The pairs of parentheses that belong to no function.
fn groups(text: &str) -> Vec<(usize, usize)> {
    let mut open = Vec::new();
    let mut pairs = Vec::new();
    for (at, byte) in text.bytes().enumerate() {
        match byte {
            b'(' => open.push(at),
            b')' => pairs.push((open.pop().expect("an open one"), at)),
            _ => {}
        }
    }
    let grouping = |at: usize| at == 0 || !text.as_bytes()[at - 1].is_ascii_alphanumeric() && text.as_bytes()[at - 1] != b'_';
    pairs.into_iter().filter(|(at, _)| grouping(*at)).collect()
}

/// Any words in any order: what is read at all is read again from its own print.
#[test]
fn random_words() {
    const WORDS: [&str; 40] = [
        "+", "-", "*", "/", "^", "%", "(", ")", "(", ")", ",", "<", "<=", "=", "<>", "!=", "and", "or", "not", "if", "min", "and(", "sqrt(", "if(",
        "true", "false", "infinity", "climb", "x1", "e5", "$3", "$99", "1", "2.5", "-3", "1e5", ".5", "0x7ff8000000000000", "# x\n", "1e400",
    ];
    let mut random = Random::new(3);
    let names = names();
    let mut read = 0;
    for _ in 0..300_000 {
        let words: Vec<&str> = (0..1 + random.below(9)).map(|_| random.choice(&WORDS)).collect();
        let text = words.join(" ");
        if let Ok(tree) = parse(&text, 0, &names) {
            let printed = print(&tree, &names);
            assert!(parse(&printed, 0, &names).is_ok_and(|again| again.same(&tree)), "{text}\n{printed}");
            read += 1;
        }
    }
    assert!(read > 5_000, "{read}");
}

#[test]
fn decimals() {
    let mut random = Random::new(4);
    for _ in 0..100_000 {
        let bits = random.bits();
        let value = f64::from_bits(bits);
        if value.is_finite() {
            assert_eq!(values::signed(&crate::print::number(bits)).map(f64::to_bits), Ok(bits));
        }
    }
    for (text, value) in [("690", 690.0), ("0.1", 0.1), ("-0", -0.0), ("1e23", 1e23), (".5", 0.5), ("+2E-3", 0.002)] {
        assert_eq!(values::signed(text).map(f64::to_bits), Ok(f64::to_bits(value)), "{text}");
    }
    for text in ["", "-", "1.", "1e", "nan", "inf", "infinity", "1e999", "0x10", "1_000", "--1", "1 2", "é"] {
        assert!(values::signed(text).is_err(), "{text}");
    }
}

/// Texts that are nested without end are turned away, and the deepest trees are not.
#[test]
fn depth() {
    deep(|| {
        let names = names();
        for part in ["(", "-", "not ", "min(", "1+", "1*(", "a or (", "if(1,(", "2^(", "-(", "1 and not -("] {
            assert!(parse(&part.repeat(2 * NESTED), 0, &names).is_err());
            let close = part.matches('(').count();
            let text = format!("{}1{}", part.repeat(NESTED + 1), ")".repeat((NESTED + 1) * close));
            assert!(parse(&text, 0, &names).is_err(), "{part}");
        }
        for head in [Head::Unary(1), Head::Unary(2), Head::Unary(0), Head::Call(0), Head::Boolean(0)] {
            let leaf = Tree::new(Head::Number(0), vec![], 0..0);
            let tree = (1..LEVELS).fold(leaf, |tree, at| Tree::new(if at % 2 == 0 { head } else { Head::Unary(1) }, vec![tree], 0..0));
            let text = print(&tree, &names);
            assert!(parse(&text, 0, &names).is_ok_and(|read| read.same(&tree)));
            assert!(decode(&encode(&tree)).is_ok_and(|read| read.same(&tree)));
            assert!(decode(&[&encode(&tree)[..NODE * (LEVELS - 1)], &encode(&tree)].concat()).is_err());
        }
    });
}

/// Any bytes as a formula, and well-formed ones with a byte changed: a tree with these very bytes, or a reason.
#[test]
fn random_bytes() {
    let mut random = Random::new(5);
    let mut read = 0;
    for _ in 0..200_000 {
        let mut bytes = encode(&tree(&mut random, 4));
        for _ in 0..random.below(3) {
            let at = random.below(bytes.len());
            bytes[at] = random.choice(&[0, 1, 2, 3, 4, 5, 8, 255]);
        }
        bytes.truncate(if random.chance(0.9) { bytes.len() } else { random.below(bytes.len()) });
        let compiled = Program::compile(&bytes, names().line().as_bytes());
        match decode(&bytes) {
            Ok(tree) => {
                read += 1;
                assert_eq!(encode(&tree), bytes);
                assert!(compiled.is_ok() || compiled.is_err_and(|error| !error.refusal.has_node() && placed(&error, &tree)));
            }
            Err(malformed) => assert!(compiled.is_err_and(|error| error.node == Some((malformed.at / NODE) as u64))),
        }
    }
    assert!(read > 20_000, "{read}");
}

/// A refusal's place is found in the tree, and the message about it is made.
fn placed(error: &Error, tree: &Tree) -> bool {
    let formula = Formula { counts: "any".into(), names: names(), tree: tree.clone() };
    let problem = explain::compile(error, &formula);
    !problem.message.is_empty() && error.place.as_deref().is_none_or(|path| locate(tree, path).is_some())
}

/// A text with changes here and there, and any bytes, through every command.
#[test]
fn random_files() {
    let folder = std::env::temp_dir().join(format!("vebrostin-test-{}", std::process::id()));
    std::fs::create_dir_all(&folder).expect("a folder");
    let file = |name: &str| folder.join(name).display().to_string();
    let seeds: [(&str, &[u8]); 5] = [
        ("formula.txt", b"counts: fuel\nnames: a:p, # kg\n b:i\nmax(a, if(a < 1, 2, 3) * b) ^ 2 + sqrt(a / b) # end\n"),
        ("values.csv", b"a,b\n1,2\n-3,4e5\n0,0\n"),
        ("formula.bin", &encode(&tree(&mut Random::new(6), 5))),
        ("input", b"a:p,b:i\n3ff0000000000000,4000000000000000\n"),
        ("output", b"no,answer,detail,steps\n1,value,4085900000000000,9\n2,domain,root.arguments[1],7\n3,ask,16:4069000000000000:4000000000000000,1\ntotal,1,1,1,0,17\n"),
    ];
    let mut random = Random::new(7);
    for _ in 0..3_000 {
        for (name, seed) in &seeds {
            let mut content = seed.to_vec();
            for _ in 0..random.below(4) {
                let at = random.below(content.len());
                let byte = if random.chance(0.5) { random.choice(b"(),+-^%:#\n\r=<.0e9$ \xff\xc3") } else { random.bits() as u8 };
                match random.below(3) {
                    0 => content[at] = byte,
                    1 => content.insert(at, byte),
                    _ => content.truncate(at.max(1)),
                }
            }
            std::fs::write(file(name), content).expect("a file");
        }
        let (formula, values, here) = (file("formula.txt"), file("values.csv"), folder.display().to_string());
        let (out, svg) = (file("out"), file("plot.svg"));
        let commands: [&[&str]; 5] = [
            &["check", &formula], &["eval", &formula, &values, "--by", "a,b"], &["show", &here], &["pack", &formula, &values, &out],
            &["plot", &formula, &values, "--over", "b=-1..1", "-o", &svg],
        ];
        for words in commands.iter().take(if random.chance(0.1) { 5 } else { 4 }) {
            let output = run(&words.iter().map(|word| word.to_string()).collect::<Vec<_>>());
            assert!(output.status == 0 || !output.errors.is_empty() || !output.text.is_empty());
        }
    }
    std::fs::remove_dir_all(&folder).expect("the folder");
}

/// The message of every refusal has words, also of those that no text can cause.
#[test]
fn all_refusals() {
    let text = "counts: fuel\nnames: a:i\na + 1\n";
    let formula = Formula::read(text).unwrap_or_else(|problem| panic!("{}", problem.message));
    for refusal in (1..=13).filter_map(Refusal::from_number) {
        for place in [None, Some("root"), Some("root.arguments[7]"), Some("nowhere")] {
            let error = Error { refusal, action: Action::Compile, place: place.map(String::from), node: refusal.has_node().then_some(5) };
            let problem = explain::compile(&error, &formula);
            assert!(problem.show("f", text).starts_with(&format!("f:3:1: refused ({}): ", refusal.number())));
            let problem = explain::derive(&error, &formula, 0);
            assert!(problem.show("f", text).starts_with(&format!("f:3:1: refused ({}): ", refusal.number())));
        }
    }
}

/// Why a value is missing, for each way of that.
#[test]
fn reasons() {
    let cases = [
        ("1 + a / b", "a / b has no value: 2 / 0 divides by zero"),
        ("(a + b) / -b", "(a + b) / -b has no value: 2 / -0 divides by zero"),
        ("a % b", "a % b has no value: 2 % 0 is a remainder by a number that isn't above 0"),
        ("b ^ -a", "b ^ -a has no value: 0 ^ -2 is a power of 0 with an exponent that isn't above 0"),
        ("(-a) ^ 0.5", "(-a) ^ 0.5 has no value: (-2) ^ 0.5 is a power of a number below 0 with a fraction as exponent"),
        ("(a * 1e300) ^ a", "(a * 1e300) ^ a has no value: 2e300 ^ 2 is too large for a number"),
        ("2 * sqrt(b - 1)", "sqrt(b - 1) has no value: sqrt(-1) is a root of a number below 0"),
        ("log(b)", "log(b) has no value: log(0) is a logarithm of a number that isn't above 0"),
        ("log10(-a)", "log10(-a) has no value: log10(-2) is a logarithm of a number that isn't above 0"),
        ("hill(a, b, 1)", "hill(a, b, 1) has no value: hill(2, 0, 1) has a second or third argument that isn't above 0"),
        ("exp(1000)", "exp(1000) has no value: exp(1000) is too large for a number"),
        ("1e308 * 10 * a", "1e308 * 10 has no value: 1e308 * 10 is too large for a number"),
        ("if(a > 1 and b < 1, 1 / b, 2)", "1 / b has no value: 1 / 0 divides by zero"),
        ("if(a > 1 or 1 / b > 2, 1, 2) + a / b", "a / b has no value: 2 / 0 divides by zero"),
        ("if(a < 1 or a > 1 and 1 / b > 2, 1, 2)", "1 / b has no value: 1 / 0 divides by zero"),
    ];
    for (text, why) in cases {
        let formula = Formula::read(&format!("counts: any\nnames: a:p, b:p\n{text}\n")).unwrap_or_else(|problem| panic!("{text}: {}", problem.message));
        let program = Program::compile(&encode(&formula.tree), b"a:p,b:p").unwrap_or_else(|error| panic!("{text}: {error}"));
        let error = program.evaluate(&[2.0, 0.0], |question| question.by_libm()).expect_err(text);
        assert_eq!(explain::domain(&formula.tree, error.place.as_deref().unwrap_or(""), &formula.names, &[2.0, 0.0]), why);
    }
}

/// Characters that move what a terminal shows are neither read nor shown.
#[test]
fn odd_characters() {
    for (odd, code) in [("\u{7}", "7"), ("\u{1b}", "1b"), ("\u{202e}", "202e"), ("\r", "d"), ("\u{0}", "0")] {
        let shown = message(&format!("counts: fuel\nnames: a:p\na {odd} + 1\n"));
        let said = format!("formula:3:3: the character \\u{{{code}}} doesn't belong into a text\n    a \u{fffd} + 1\n      ^\n");
        assert_eq!(shown, said + "Save the file as plain text in UTF-8.\n");
    }
}

/// Each text of tools/command/refusals.txt has the message that stands below it; WRITE=1 writes the messages anew.
#[test]
fn messages() {
    const FILE: &str = concat!(env!("CARGO_MANIFEST_DIR"), "/../tools/command/refusals.txt");
    let cases = std::fs::read_to_string(FILE).expect("tools/command/refusals.txt");
    let mut anew = String::new();
    for case in cases.split("=====\n").skip(1) {
        let (text, _) = case.split_once("-----\n").unwrap_or((case, ""));
        anew += &format!("=====\n{text}-----\n{}", message(text));
    }
    let head = cases.split("=====\n").next().unwrap_or("").to_string();
    if std::env::var_os("WRITE").is_some() {
        std::fs::write(FILE, head.clone() + &anew).expect("the file is written");
    }
    assert_eq!(head + &anew, std::fs::read_to_string(FILE).expect("it is there"));
}

/// What `check` says of a text, or `eval --by` of the first symbol that has no rate.
fn message(text: &str) -> String {
    let formula = match Formula::read(text) {
        Ok(formula) => formula,
        Err(problem) => return problem.show("formula", text),
    };
    let (bytes, line) = (encode(&formula.tree), formula.names.line());
    if let Err(error) = Program::compile(&bytes, line.as_bytes()) {
        return explain::compile(&error, &formula).show("formula", text);
    }
    for symbol in 0..formula.names.len() as u32 {
        if let Err(error) = Program::derive(&bytes, line.as_bytes(), symbol) {
            return explain::derive(&error, &formula, symbol).show("formula", text);
        }
    }
    "compiles\n".into()
}
