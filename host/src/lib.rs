//! A safe wrapper over the C functions of libtight.a: plan a theory, check candidates by the plan.
//!
//! [`call`] lends slices as the C functions take them. [`Theory`], [`Plan`] and [`Checker`] own
//! their buffers, at the lengths that document 01 lists.

pub mod call;

pub use call::Counts;

use call::Answer;

/// A refusal by its number in document 01, with its place.
#[derive(Clone, Copy, Debug, PartialEq, Eq)]
pub enum Refusal {
    /// 1: a node of unknown kind.
    Kind { node: u64 },
    /// 3: a limit passed; 0 atoms, 1 nodes, 2 operands, 3 roots.
    Limit { table: u64 },
    /// 4: an atom not below the number of atoms.
    Atom { node: u64 },
    /// 5: an operand that is no lower node, or a span outside its table.
    Operand { node: u64 },
    /// 6: And or Or without operands.
    Empty { node: u64 },
    /// 7: a root that is no node.
    Root { position: u64 },
    /// 9: a buffer shorter than listed.
    Buffer { number: u64 },
    /// 10: a root that gives no producer.
    UnsupportedRoot { root: u64 },
    /// 11: a producer with an Opaque body.
    UnsupportedBody { root: u64, body: u64 },
    /// 12: a positive cycle.
    PositiveCycle { atom: u64 },
    /// 13: proposed ranks of wrong length, or one not below the number of atoms.
    RankShape,
    /// 14: proposed ranks that do not rise into a head.
    RankOrder { head: u64 },
    /// 15: a stamp that is not the theory's.
    Stamp,
    /// 16: a candidate bit at or above the number of atoms.
    Beyond { atom: u64 },
    /// 17: an entry met is not as planned.
    Entry { node: u64 },
}

impl Refusal {
    /// The refusal that an answer tells, if it tells one.
    ///
    /// # Panics
    /// If it is not laid out as the answer of one of these refusals.
    pub fn of_answer(answer: Answer) -> Option<Self> {
        let [number, place, body] = [answer.refusal(), answer.place(), answer.body()];
        let refusal = match number {
            0 => return None,
            1 => Self::Kind { node: place },
            3 => Self::Limit { table: place },
            4 => Self::Atom { node: place },
            5 => Self::Operand { node: place },
            6 => Self::Empty { node: place },
            7 => Self::Root { position: place },
            9 => Self::Buffer { number: place },
            10 => Self::UnsupportedRoot { root: place },
            11 => Self::UnsupportedBody { root: place, body },
            12 => Self::PositiveCycle { atom: place },
            13 => Self::RankShape,
            14 => Self::RankOrder { head: place },
            15 => Self::Stamp,
            16 => Self::Beyond { atom: place },
            17 => Self::Entry { node: place },
            _ => panic!("{answer:?}: no call on tables has refusal {number}"),
        };
        assert_eq!(Answer::refused(refusal.numbers()), answer, "{refusal:?}");
        Some(refusal)
    }

    /// Number, place and, for 11, the body.
    pub fn numbers(self) -> [u64; 3] {
        match self {
            Self::Kind { node } => [1, node, 0],
            Self::Limit { table } => [3, table, 0],
            Self::Atom { node } => [4, node, 0],
            Self::Operand { node } => [5, node, 0],
            Self::Empty { node } => [6, node, 0],
            Self::Root { position } => [7, position, 0],
            Self::Buffer { number } => [9, number, 0],
            Self::UnsupportedRoot { root } => [10, root, 0],
            Self::UnsupportedBody { root, body } => [11, root, body],
            Self::PositiveCycle { atom } => [12, atom, 0],
            Self::RankShape => [13, 0, 0],
            Self::RankOrder { head } => [14, head, 0],
            Self::Stamp => [15, 0, 0],
            Self::Beyond { atom } => [16, atom, 0],
            Self::Entry { node } => [17, node, 0],
        }
    }
}

/// What a check says of a candidate.
#[derive(Clone, Copy, Debug, PartialEq, Eq)]
pub enum Verdict {
    Stable,
    /// The first false root in root order, by its node.
    NotModel {
        root: u64,
    },
    /// The lowest candidate atom without a producer that holds. It is the lowest that can be taken
    /// out alone: the candidate without it satisfies the candidate's reduct.
    Residual {
        atom: u64,
    },
}

/// An accepted check.
#[derive(Clone, Copy, Debug, PartialEq, Eq)]
pub struct Check {
    pub verdict: Verdict,
    /// Nodes visited.
    pub nodes: u64,
}

impl Check {
    /// The check that an answer tells.
    ///
    /// # Errors
    /// The refusal that it tells.
    ///
    /// # Panics
    /// If it is not laid out as the answer of a check.
    pub fn of_answer(answer: Answer) -> Result<Self, Refusal> {
        if let Some(refusal) = Refusal::of_answer(answer) {
            return Err(refusal);
        }
        let named = answer.root_or_atom();
        let verdict = match answer.verdict() {
            0 => Verdict::Stable,
            1 => Verdict::NotModel { root: named },
            2 => Verdict::Residual { atom: named },
            number => panic!("{answer:?}: verdict {number} is not in document 01"),
        };
        let nodes = answer.visited();
        let check = Self { verdict, nodes };
        assert_eq!(Answer::checked(check.numbers()), answer, "{check:?}");
        Ok(check)
    }

    /// The verdict's number, the root or atom that it names or 0, and the nodes visited.
    pub fn numbers(self) -> [u64; 3] {
        match self.verdict {
            Verdict::Stable => [0, 0, self.nodes],
            Verdict::NotModel { root } => [1, root, self.nodes],
            Verdict::Residual { atom } => [2, atom, self.nodes],
        }
    }
}

/// The number of producers that the answer of a planning call tells.
///
/// # Errors
/// The refusal that it tells.
///
/// # Panics
/// If it is not laid out as the answer of a planning call.
pub fn producers_of_answer(answer: Answer) -> Result<usize, Refusal> {
    if let Some(refusal) = Refusal::of_answer(answer) {
        return Err(refusal);
    }
    let producers = answer.producers();
    assert_eq!(Answer::planned(producers), answer, "{producers} producers");
    Ok(producers)
}

/// A node to append to a theory.
#[derive(Clone, Copy, Debug, PartialEq, Eq)]
pub enum Node<'a> {
    Atom(u32),
    False,
    Implies(u32, u32),
    And(&'a [u32]),
    Or(&'a [u32]),
}

/// A theory's tables. They are judged when it is planned, not here.
#[derive(Clone, Debug, PartialEq, Eq)]
pub struct Theory {
    stamp: u32,
    atoms: usize,
    nodes: Vec<u32>,
    operands: Vec<u32>,
    roots: Vec<u32>,
}

/// A length as a table word; one that does not fit is over every limit.
fn word(length: usize) -> u32 {
    u32::try_from(length).unwrap_or(u32::MAX)
}

impl Theory {
    pub fn new(stamp: u32, atoms: usize) -> Self {
        Self {
            stamp,
            atoms,
            nodes: Vec::new(),
            operands: Vec::new(),
            roots: Vec::new(),
        }
    }

    /// Appends a node and answers its number.
    pub fn push(&mut self, node: Node<'_>) -> u32 {
        let number = word(self.nodes.len() / 3);
        let start = word(self.operands.len());
        self.nodes.extend(match node {
            Node::Atom(atom) => [0, atom, 0],
            Node::False => [1, 0, 0],
            Node::Implies(left, right) => [2, left, right],
            Node::And(operands) => [3, start, word(operands.len())],
            Node::Or(operands) => [4, start, word(operands.len())],
        });
        if let Node::And(operands) | Node::Or(operands) = node {
            self.operands.extend_from_slice(operands);
        }
        number
    }

    /// Appends a root.
    pub fn root(&mut self, node: u32) {
        self.roots.push(node);
    }

    pub fn counts(&self) -> Counts {
        Counts {
            stamp: self.stamp,
            atoms: self.atoms,
            nodes: self.nodes.len() / 3,
            operands: self.operands.len(),
            roots: self.roots.len(),
        }
    }

    /// The tables as lent: nodes, operands, roots.
    pub fn tables(&self) -> call::Tables<'_> {
        call::Tables {
            nodes: &self.nodes,
            operands: &self.operands,
            roots: &self.roots,
        }
    }

    /// Plans with derived ranks.
    ///
    /// # Errors
    /// 3, 1, 6, 4, 5, 7, 10, 11 or 12.
    pub fn plan(&self) -> Result<Plan<'_>, Refusal> {
        self.planned(None)
    }

    /// Plans with proposed ranks.
    ///
    /// # Errors
    /// 3, 1, 6, 4, 5, 7, 10, 11, 13 or 14.
    pub fn certify(&self, ranks: &[u32]) -> Result<Plan<'_>, Refusal> {
        self.planned(Some(ranks))
    }

    fn planned(&self, proposed: Option<&[u32]>) -> Result<Plan<'_>, Refusal> {
        let counts = self.counts();
        let lengths = counts.lengths();
        let mut plan = Plan {
            theory: self,
            producer_count: 0,
            producers: vec![0; lengths.producers],
            ranks: vec![0; lengths.ranks],
            readers: vec![0; lengths.readers],
        };
        let planned = call::Planned {
            producers: &mut plan.producers,
            ranks: &mut plan.ranks,
            readers: &mut plan.readers,
            work: &mut vec![0; lengths.work],
        };
        let answer = match proposed {
            None => call::plan(counts, self.tables(), planned),
            Some(ranks) => call::certify(counts, self.tables(), ranks, planned),
        };
        plan.producer_count = producers_of_answer(answer)?;
        Ok(plan)
    }
}

/// The head form of a producer.
#[derive(Clone, Copy, Debug, PartialEq, Eq)]
pub enum Head {
    Normal,
    Choice,
}

/// A producer, in root order.
#[derive(Clone, Copy, Debug, PartialEq, Eq)]
pub struct Producer {
    pub head: u32,
    pub body: Option<u32>,
    pub root: u32,
    pub kind: Head,
}

impl Producer {
    /// The producer in four table words.
    pub fn of_words(words: [u32; 4]) -> Self {
        let [head, body, root, kind] = words;
        Self {
            head,
            body: body.checked_sub(1),
            root,
            kind: if kind == 0 {
                Head::Normal
            } else {
                Head::Choice
            },
        }
    }
}

/// What the planner wrote for a theory that it accepted.
#[derive(Clone, Debug)]
pub struct Plan<'t> {
    theory: &'t Theory,
    producer_count: usize,
    producers: Vec<u32>,
    ranks: Vec<u32>,
    readers: Vec<u64>,
}

impl Plan<'_> {
    pub fn theory(&self) -> &Theory {
        self.theory
    }

    pub fn producers(&self) -> impl ExactSizeIterator<Item = Producer> + '_ {
        let (words, _) = self.producers.as_chunks();
        words[..self.producer_count]
            .iter()
            .map(|&words| Producer::of_words(words))
    }

    pub fn ranks(&self) -> &[u32] {
        &self.ranks
    }

    /// The packed readers of a node: tag (0 node, 2 producer, 3 root) in the top two bits.
    pub fn readers_of(&self, node: usize) -> Option<&[u64]> {
        (node < self.theory.counts().nodes).then(|| call::reader_list(&self.readers, node))?
    }

    /// The atom nodes of an atom, rising.
    pub fn atom_nodes(&self, atom: usize) -> Option<&[u64]> {
        let counts = self.theory.counts();
        (atom < counts.atoms).then(|| call::reader_list(&self.readers, counts.nodes + 1 + atom))?
    }

    /// A checker that holds no check yet.
    pub fn checker(&self) -> Checker<'_> {
        Checker {
            plan: self,
            kept: vec![0; self.theory.counts().lengths().kept],
        }
    }
}

/// A set of atoms, for theories of one stamp.
#[derive(Clone, Debug, PartialEq, Eq)]
pub struct Candidate {
    stamp: u32,
    words: Vec<u64>,
}

impl Candidate {
    /// The candidate of a theory with these atoms.
    ///
    /// # Errors
    /// 16 for the lowest atom that the theory does not have.
    pub fn of_atoms(theory: &Theory, atoms: &[u32]) -> Result<Self, Refusal> {
        let beyond = atoms.iter().filter(|&&atom| atom as usize >= theory.atoms);
        if let Some(&atom) = beyond.min() {
            return Err(Refusal::Beyond { atom: atom.into() });
        }
        let mut words = vec![0; theory.atoms.div_ceil(64)];
        for &atom in atoms {
            words[atom as usize / 64] |= 1 << (atom % 64);
        }
        Ok(Self::of_words(theory.stamp, words))
    }

    /// A candidate by its words, atom 0 the lowest bit of word 0. A check ignores words past those
    /// that its theory's atoms need.
    pub fn of_words(stamp: u32, words: Vec<u64>) -> Self {
        Self { stamp, words }
    }
}

/// Checks candidates by one plan, and keeps the evaluation from one check to the next.
#[derive(Clone, Debug)]
pub struct Checker<'p> {
    plan: &'p Plan<'p>,
    kept: Vec<u32>,
}

impl Checker<'_> {
    /// Checks a candidate.
    ///
    /// # Errors
    /// 9 (candidate too short), 15 or 16; the kept evaluation is then unaltered.
    pub fn check(&mut self, candidate: &Candidate) -> Result<Check, Refusal> {
        let Plan {
            theory,
            producer_count,
            ref producers,
            ref readers,
            ..
        } = *self.plan;
        Check::of_answer(call::check(
            theory.counts(),
            theory.tables(),
            call::Lent {
                stamp: theory.stamp,
                producer_count,
                producers,
                readers,
            },
            call::CandidateWords {
                stamp: candidate.stamp,
                words: &candidate.words,
            },
            &mut self.kept,
        ))
    }

    /// The kept evaluation's words.
    pub fn kept(&self) -> &[u32] {
        &self.kept
    }
}
