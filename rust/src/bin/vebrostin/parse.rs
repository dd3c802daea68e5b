//! A formula's text to its tree. docs/FORMULAS.md has the grammar; each level of it is a function here.
use crate::names::Names;
use crate::problem::Problem;
use crate::suggest::nearest;
use crate::tree::{Head, Span, Tree, BINARY, BOOLEAN, CALLS, CHILDREN, COMPARE, LEVELS, RESERVED};
use crate::tree::{AND, DIVIDE, MODULO, MULTIPLY, NEGATIVE, NOT, OR, POWER};
use crate::words::{words, Word};

/// The bit of an f64's sign.
const SIGN: u64 = 1 << 63;

/// Parentheses and signs within each other; a tree of `LEVELS` levels needs at most two of these a level.
pub const NESTED: usize = 2 * LEVELS + 100;

type Parsed = Result<Tree, Problem>;

struct Parser<'a> {
    words: Vec<(Word<'a>, Span)>,
    at: usize,
    nested: usize,
    names: &'a Names,
}

/// The tree of the formula that stands in a text from a byte on.
pub fn parse(text: &str, from: usize, names: &Names) -> Parsed {
    let mut parser = Parser { words: words(text, from)?, at: 0, nested: 0, names };
    let tree = parser.formula()?;
    match parser.word() {
        Word::End => Ok(tree),
        Word::Sign(")") => Err(parser.here("this ) closes nothing", "Take it away, or write a ( before.")),
        Word::Sign(",") => Err(parser.here("a comma stands outside a function", "Numbers have a point and no commas: 1250.5")),
        _ => Err(parser.here("an operator is missing before this", "Write * for a product: 3 * distance")),
    }
}

impl<'a> Parser<'a> {
    fn word(&self) -> Word<'a> {
        self.words[self.at].0
    }

    fn span(&self) -> Span {
        self.words[self.at].1.clone()
    }

    /// Goes on by a word; `End` stays.
    fn step(&mut self) {
        self.at = (self.at + 1).min(self.words.len() - 1);
    }

    fn here(&self, message: &str, advice: &str) -> Problem {
        Problem::new(self.span(), message, advice)
    }

    fn takes(&mut self, word: Word<'_>) -> bool {
        let found = self.word() == word;
        if found {
            self.step();
        }
        found
    }

    /// The number of the sign that stands here, among those of a table.
    fn sign_of(&self, signs: &[&str]) -> Option<u8> {
        let Word::Sign(sign) = self.word() else {
            return None;
        };
        signs.iter().position(|known| *known == sign).map(|at| at as u8)
    }

    fn node(&self, head: Head, children: Vec<Tree>, span: Span) -> Parsed {
        let count = children.len();
        let tree = Tree::new(head, children, span.clone());
        if tree.levels > LEVELS || count > CHILDREN {
            return Err(Problem::new(span, "this is too large to be read", "A formula has at most 256 nodes and 32 levels."));
        }
        Ok(tree)
    }

    fn binary(&self, head: Head, left: Tree, right: Tree) -> Parsed {
        let span = left.span.start..right.span.end;
        self.node(head, vec![left, right], span)
    }

    /// One level of nesting more, for as long as a part is read.
    fn within(&mut self, part: fn(&mut Self) -> Parsed) -> Parsed {
        if self.nested == NESTED {
            return Err(self.here("this is nested too deep to be read", "A formula has at most 32 levels."));
        }
        self.nested += 1;
        let tree = part(self);
        self.nested -= 1;
        tree
    }

    fn formula(&mut self) -> Parsed {
        self.within(|parser| parser.chain(OR, |parser| parser.chain(AND, Self::negation)))
    }

    /// `a and b and c` is one node, as is `a or b or c`.
    fn chain(&mut self, operator: u8, part: fn(&mut Self) -> Parsed) -> Parsed {
        let mut children = vec![part(self)?];
        while self.takes(Word::Name(BOOLEAN[usize::from(operator)])) {
            children.push(part(self)?);
        }
        if children.len() == 1 {
            return Ok(children.remove(0));
        }
        let span = children[0].span.start..children[children.len() - 1].span.end;
        self.node(Head::Boolean(operator), children, span)
    }

    fn negation(&mut self) -> Parsed {
        let start = self.span().start;
        if !self.takes(Word::Name("not")) {
            return self.comparison();
        }
        let part = self.within(Self::negation)?;
        let span = start..part.span.end;
        self.node(Head::Unary(NOT), vec![part], span)
    }

    fn comparison(&mut self) -> Parsed {
        let left = self.sum()?;
        let Some(operator) = self.sign_of(&COMPARE) else {
            return Ok(left);
        };
        self.step();
        let right = self.sum()?;
        if self.sign_of(&COMPARE).is_some() {
            return Err(self.here("comparisons can't be strung together", "Write a < b and b < c."));
        }
        self.binary(Head::Compare(operator), left, right)
    }

    fn sum(&mut self) -> Parsed {
        let mut left = self.product()?;
        while let Some(operator) = self.sign_of(&BINARY[..2]) {
            self.step();
            let right = self.product()?;
            left = self.binary(Head::Binary(operator), left, right)?;
        }
        Ok(left)
    }

    fn product(&mut self) -> Parsed {
        let mut left = self.power()?;
        let mut last = None;
        while let Some(operator @ (MULTIPLY | DIVIDE | MODULO)) = self.sign_of(&BINARY) {
            if last.is_some_and(|last| last == MODULO || operator == MODULO) {
                return Err(self.here("% beside *, / or % may be read in two ways", "Write (a * b) % c or a * (b % c)."));
            }
            last = Some(operator);
            self.step();
            let right = self.power()?;
            left = self.binary(Head::Binary(operator), left, right)?;
        }
        Ok(left)
    }

    fn power(&mut self) -> Parsed {
        let signed = self.sign_of(&BINARY[..2]).is_some();
        let base = self.signed()?;
        if !self.takes(Word::Sign(BINARY[usize::from(POWER)])) {
            return Ok(base);
        }
        if signed {
            return Err(Problem::new(base.span, "a sign before a power may be read in two ways", "Write -(a ^ b) or (-a) ^ b."));
        }
        let exponent = self.signed()?;
        if self.word() == Word::Sign("^") {
            return Err(self.here("powers can't be strung together", "Write (a ^ b) ^ c or a ^ (b ^ c)."));
        }
        self.binary(Head::Binary(POWER), base, exponent)
    }

    /// A minus sign before a number belongs to the number: -3 is one node, -(3) two.
    fn signed(&mut self) -> Parsed {
        let start = self.span().start;
        let Some(operator) = self.sign_of(&BINARY[..2]) else {
            return self.atom();
        };
        self.step();
        if let (NEGATIVE, Word::Number(bits)) = (operator, self.word()) {
            let span = start..self.span().end;
            self.step();
            return self.node(Head::Number(bits ^ SIGN), vec![], span);
        }
        let part = self.within(Self::signed)?;
        let span = start..part.span.end;
        self.node(Head::Unary(operator), vec![part], span)
    }

    fn atom(&mut self) -> Parsed {
        let (word, span) = (self.word(), self.span());
        let head = match word {
            Word::Number(bits) | Word::Bits(bits) => Head::Number(bits),
            Word::Symbol(symbol) => Head::Symbol(symbol),
            Word::Name(name) => return self.named(name, span),
            Word::Sign("(") => return self.group(span),
            _ => return Err(self.missing()),
        };
        self.step();
        self.node(head, vec![], span)
    }

    fn group(&mut self, open: Span) -> Parsed {
        self.step();
        let mut tree = self.formula()?;
        tree.span = open.start..self.span().end;
        match self.word() {
            Word::Sign(",") => Err(self.here("a comma stands outside a function", "Numbers have a point and no commas: 1250.5")),
            _ => self.closed(open).map(|_| tree),
        }
    }

    fn closed(&mut self, open: Span) -> Result<(), Problem> {
        match self.word() {
            Word::Sign(")") => {
                self.step();
                Ok(())
            }
            Word::End => Err(Problem::new(open, "this ( is never closed", "Write a ) where it ends.")),
            _ => Err(self.here("an operator or ) is missing before this", "Write * for a product: 3 * distance")),
        }
    }

    /// What stands at a name: a truth value, a function with its arguments, or a symbol.
    fn named(&mut self, name: &str, span: Span) -> Parsed {
        self.step();
        if let "true" | "false" = name {
            return self.node(Head::Truth(name == "true"), vec![], span);
        }
        if self.word() == Word::Sign("(") {
            return self.call(name, span);
        }
        if RESERVED.contains(&name) || CALLS.contains(&name) && self.names.symbol(name).is_none() {
            self.at -= 1;
            return Err(self.misplaced(name));
        }
        match self.names.symbol(name) {
            Some(symbol) => self.node(Head::Symbol(symbol), vec![], span),
            None => {
                let message = format!("{name} is not in the name line");
                let advice = nearest(name, self.names.all()).map_or("Give it a name and a kind there.".into(), |near| format!("Is {near} meant?"));
                Err(Problem::new(span, message, advice))
            }
        }
    }

    fn call(&mut self, name: &str, span: Span) -> Parsed {
        let number = |words: &[&str]| words.iter().position(|word| *word == name).map(|at| at as u8);
        let head = match (number(&BOOLEAN), number(&CALLS)) {
            (Some(operator), _) => Head::Boolean(operator),
            (_, Some(function)) => Head::Call(function),
            _ if name == "if" => Head::Conditional,
            _ => {
                let near = nearest(name, CALLS.iter().copied().chain(["if"]));
                let advice = near.map_or("docs/FORMULAS.md lists the functions; a product needs *.".into(), |near| format!("Is {near} meant?"));
                return Err(Problem::new(span, format!("{name} is no function"), advice));
            }
        };
        let arguments = self.arguments()?;
        let whole = span.start..self.words[self.at - 1].1.end;
        if head == Head::Conditional && arguments.len() != 3 {
            let message = format!("if takes a condition and two parts, here are {}", arguments.len());
            return Err(Problem::new(whole, message, "Write if(condition, value where it holds, value where not)."));
        }
        self.node(head, arguments, whole)
    }

    fn arguments(&mut self) -> Result<Vec<Tree>, Problem> {
        let open = self.span();
        self.step();
        let mut list = Vec::new();
        if self.takes(Word::Sign(")")) {
            return Ok(list);
        }
        loop {
            list.push(self.formula()?);
            if !self.takes(Word::Sign(",")) {
                return self.closed(open).map(|_| list);
            }
        }
    }

    fn misplaced(&self, name: &str) -> Problem {
        if let Some(symbol) = self.names.symbol(name) {
            return self.here(&format!("{name} is a word of formulas"), &format!("As a name it is written ${symbol}."));
        }
        match name {
            "not" => self.here("not stands inside an operation", "Write it in parentheses: (not a)"),
            "and" | "or" => self.here(&format!("a part is missing before {name}"), "Write a part on each side."),
            _ => self.here(&format!("{name} is a function, without its arguments"), &format!("Write {name}( and its arguments.")),
        }
    }

    fn missing(&self) -> Problem {
        let before = self.at.checked_sub(1).map(|at| self.words[at].0);
        let advice = match before {
            Some(Word::Sign("%")) => "% is the remainder of a division; for per cent write / 100.",
            _ => "",
        };
        let message = match before {
            None if self.word() == Word::End => "the formula is missing",
            _ => "a number, a name or ( is missing here",
        };
        self.here(message, advice)
    }
}
