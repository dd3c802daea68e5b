//! A path of the compiler or the run, found in the tree.
use crate::names::Names;
use crate::print::print;
use crate::tree::{Head, Span, Tree, AND, IFELSE};

/// What a path leads to. And and Or are read as conditionals, so a path may lead to parts that no node stands for.
#[derive(Clone, Copy, Debug)]
pub enum Place<'a> {
    Node(&'a Tree),
    /// An And or Or from an argument on: `b and c` in `a and b and c`.
    Rest(&'a Tree, usize),
    /// The truth value that an And or Or gives without looking further.
    Added(&'a Tree, bool),
}

/// The place of a path such as `root.arguments[1].then`; none where the tree has no such part.
pub fn locate<'a>(tree: &'a Tree, path: &str) -> Option<Place<'a>> {
    let steps = path.strip_prefix("root")?;
    steps.split('.').skip(1).try_fold(Place::Node(tree), step)
}

fn step<'a>(place: Place<'a>, step: &str) -> Option<Place<'a>> {
    let (tree, from) = match place {
        Place::Node(tree) => (tree, 0),
        Place::Rest(tree, from) => (tree, from),
        Place::Added(..) => return None,
    };
    match tree.head {
        Head::Boolean(operator) => match (step, operator == AND) {
            ("condition", _) => tree.children.get(from).map(Place::Node),
            ("then", true) | ("else", false) => rest(tree, from + 1),
            ("then", false) => Some(Place::Added(tree, true)),
            ("else", true) => Some(Place::Added(tree, false)),
            _ => None,
        },
        Head::Conditional | Head::Call(IFELSE) => {
            let at = ["condition", "then", "else"].iter().position(|name| *name == step)?;
            tree.children.get(at).map(Place::Node)
        }
        _ => {
            let at: usize = step.strip_prefix("arguments[")?.strip_suffix(']')?.parse().ok()?;
            tree.children.get(at).map(Place::Node)
        }
    }
}

fn rest(tree: &Tree, from: usize) -> Option<Place<'_>> {
    let last = tree.children.len().checked_sub(1)?;
    match from.cmp(&last) {
        std::cmp::Ordering::Less => Some(Place::Rest(tree, from)),
        std::cmp::Ordering::Equal => tree.children.get(from).map(Place::Node),
        std::cmp::Ordering::Greater => None,
    }
}

impl Place<'_> {
    /// The piece of text; for a truth value that was added, the And or Or that adds it.
    pub fn span(self) -> Span {
        match self {
            Place::Node(tree) | Place::Added(tree, _) => tree.span.clone(),
            Place::Rest(tree, from) => match (tree.children.get(from), tree.children.last()) {
                (Some(first), Some(last)) => first.span.start..last.span.end,
                _ => tree.span.clone(),
            },
        }
    }

    /// The text of the part, printed.
    pub fn text(self, names: &Names) -> String {
        match self {
            Place::Node(tree) => print(tree, names),
            Place::Rest(tree, from) => {
                let children = tree.children.get(from..).unwrap_or_default().to_vec();
                print(&Tree::new(tree.head, children, 0..0), names)
            }
            Place::Added(tree, truth) => format!("the {truth} that {} adds", tree.operator()),
        }
    }

    /// The node that it belongs to.
    pub fn node(&self) -> &Tree {
        match self {
            Place::Node(tree) | Place::Rest(tree, _) | Place::Added(tree, _) => tree,
        }
    }
}
