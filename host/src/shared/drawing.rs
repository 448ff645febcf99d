//! Inputs as values: a theory, proposed ranks and a series of candidates.

use std::fmt;
use tight::call::Tables;
use tight::{Check, Counts};

#[derive(Clone, Debug, PartialEq, Eq)]
pub enum Node {
    Atom(u32),
    False,
    Implies(u32, u32),
    And(Vec<u32>),
    Or(Vec<u32>),
}

impl Node {
    pub fn operands(&self) -> &[u32] {
        match self {
            Node::And(operands) | Node::Or(operands) => operands,
            _ => &[],
        }
    }
}

/// A theory. The harness gives each the same stamp.
#[derive(Clone, Debug, Default, PartialEq, Eq)]
pub struct Drawing {
    pub atoms: usize,
    pub nodes: Vec<Node>,
    pub roots: Vec<u32>,
}

pub const STAMP: u32 = 7;

impl Drawing {
    pub fn push(&mut self, node: Node) -> u32 {
        self.nodes.push(node);
        self.nodes.len() as u32 - 1
    }

    pub fn words(&self) -> usize {
        self.atoms.div_ceil(64)
    }
}

/// A candidate; a foreign one has another stamp.
#[derive(Clone, Debug, PartialEq, Eq)]
pub struct Candidate {
    pub foreign: bool,
    pub words: Vec<u64>,
}

impl Candidate {
    pub fn of_words(words: Vec<u64>) -> Self {
        Self {
            foreign: false,
            words,
        }
    }

    pub fn stamp(&self) -> u32 {
        STAMP + u32::from(self.foreign)
    }

    pub fn has(&self, atom: usize) -> bool {
        self.words[atom / 64] >> (atom % 64) & 1 != 0
    }

    pub fn flip(&mut self, atom: usize) {
        self.words[atom / 64] ^= 1 << (atom % 64);
    }

    /// Its atoms, rising.
    pub fn atoms(&self) -> impl Iterator<Item = usize> + '_ {
        (0..64 * self.words.len()).filter(|&atom| self.has(atom))
    }
}

/// One input of the comparison.
#[derive(Clone, Debug, Default, PartialEq, Eq)]
pub struct Case {
    pub drawing: Drawing,
    pub proposals: Vec<Vec<u32>>,
    pub series: Vec<Candidate>,
}

/// A theory's tables as they are lent.
#[derive(Clone, Debug)]
pub struct Encoded {
    pub counts: Counts,
    pub nodes: Vec<u32>,
    pub operands: Vec<u32>,
    pub roots: Vec<u32>,
}

impl Encoded {
    pub fn new(drawing: &Drawing) -> Self {
        let mut nodes = Vec::with_capacity(3 * drawing.nodes.len());
        let mut operands = Vec::new();
        for node in &drawing.nodes {
            let span = [operands.len() as u32, node.operands().len() as u32];
            nodes.extend(match *node {
                Node::Atom(atom) => [0, atom, 0],
                Node::False => [1, 0, 0],
                Node::Implies(left, right) => [2, left, right],
                Node::And(_) => [3, span[0], span[1]],
                Node::Or(_) => [4, span[0], span[1]],
            });
            operands.extend_from_slice(node.operands());
        }
        Self {
            counts: Counts {
                stamp: STAMP,
                atoms: drawing.atoms,
                nodes: drawing.nodes.len(),
                operands: operands.len(),
                roots: drawing.roots.len(),
            },
            nodes,
            operands,
            roots: drawing.roots.clone(),
        }
    }

    pub fn tables(&self) -> Tables<'_> {
        Tables {
            nodes: &self.nodes,
            operands: &self.operands,
            roots: &self.roots,
        }
    }
}

/// More of an input than this is told by its length.
const SHOWN: usize = 64;

fn list<T: fmt::Debug>(f: &mut fmt::Formatter<'_>, name: &str, values: &[T]) -> fmt::Result {
    if values.len() > SHOWN {
        return writeln!(f, "{name}: {} of them", values.len());
    }
    write!(f, "{name}:")?;
    for value in values {
        write!(f, " {value:?}")?;
    }
    writeln!(f)
}

impl fmt::Display for Case {
    fn fmt(&self, f: &mut fmt::Formatter<'_>) -> fmt::Result {
        writeln!(f, "atoms: {}", self.drawing.atoms)?;
        list(f, "nodes", &self.drawing.nodes)?;
        list(f, "roots", &self.drawing.roots)?;
        list(f, "proposals", &self.proposals)?;
        for candidate in self.series.iter().take(SHOWN) {
            let atoms: Vec<_> = candidate.atoms().collect();
            let name = if candidate.foreign {
                "foreign candidate"
            } else {
                "candidate"
            };
            list(f, name, &atoms)?;
        }
        Ok(())
    }
}

/// What a run tells of a theory that is planned, and of its candidates.
#[derive(Clone, Debug, PartialEq, Eq)]
pub struct Told {
    pub producers: usize,
    pub ranks: Vec<u32>,
    pub checks: Vec<Check>,
}
