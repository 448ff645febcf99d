//! The theory file and the text of a run, by document 01.

use crate::drawing::{Candidate, Drawing, Node, Told};
use std::fmt::Write;
use tight::call::LIMITS;
use tight::{Refusal, Verdict};

/// The most bytes of a run's file.
pub const MOST_BYTES: usize = 65_536;

/// Atoms, nodes, operand entries and roots for which a run has room.
pub const ROOM: [usize; 4] = [512, 1024, 1024, 512];

/// A sound file.
#[derive(Clone, Debug, Default, PartialEq, Eq)]
pub struct TheoryFile {
    pub stamp: u32,
    pub drawing: Drawing,
    pub series: Vec<Candidate>,
}

/// Number and place of a refusal.
pub type Place = [u64; 2];

/// Where a mark stands in the order of records, and whether its first number is a count of those
/// behind it; else how many numbers it has.
fn form(mark: &[u8]) -> Option<(u8, Option<usize>)> {
    Some(match mark {
        b"TH" => (0, Some(2)),
        b"NA" => (1, Some(1)),
        b"NF" => (1, Some(0)),
        b"NI" => (1, Some(2)),
        b"NC" | b"ND" => (1, None),
        b"RT" => (2, Some(1)),
        b"CA" => (3, None),
        _ => return None,
    })
}

/// The record's numbers: of 1 and 2, the refusal.
fn record(rest: &[u8], order: Option<u8>) -> Result<(u8, Vec<u32>), u64> {
    if rest.len() == 1 {
        return Err(2);
    }
    let (stage, count) = rest.get(..2).and_then(form).ok_or(1_u64)?;
    // the first record is `TH`, and no other
    if order.is_none() != (stage == 0) || order.is_some_and(|last| stage < last) {
        return Err(1);
    }
    let (numbers, _) = rest[2..].as_chunks();
    let length = match (count, numbers.first()) {
        (Some(length), _) => length,
        (None, Some(&count)) => 1 + u32::from_le_bytes(count) as usize,
        (None, None) => return Err(2),
    };
    let numbers = numbers.get(..length).ok_or(2_u64)?;
    let numbers = numbers.iter().map(|&bytes| u32::from_le_bytes(bytes));
    Ok((stage, numbers.collect()))
}

/// How many operand entries the nodes have.
fn entries(nodes: &[Node]) -> usize {
    nodes.iter().map(|node| node.operands().len()).sum()
}

impl TheoryFile {
    /// Takes a record in; of 3, 6, 4, 5, 7, 8, the refusal. `operands` counts operand entries.
    fn take(&mut self, mark: &[u8], numbers: &[u32], operands: &mut usize) -> Result<(), u64> {
        let Drawing {
            atoms,
            nodes,
            roots,
        } = &mut self.drawing;
        let refuse = |refused: bool, number: u64| if refused { Err(number) } else { Ok(()) };
        let no_atom = |atom: &u32| *atom as usize >= *atoms;
        let count = nodes.len();
        let not_lower = |node: &u32| *node as usize >= count;
        match mark {
            b"TH" => {
                self.stamp = numbers[0];
                *atoms = numbers[1] as usize;
                return refuse(*atoms > LIMITS[0], 3);
            }
            b"RT" => {
                refuse(roots.len() >= LIMITS[3], 3)?;
                refuse(not_lower(&numbers[0]), 7)?;
                roots.push(numbers[0]);
                return Ok(());
            }
            b"CA" => {
                let set = &numbers[1..];
                refuse(set.iter().any(no_atom), 4)?;
                refuse(set.windows(2).any(|pair| pair[0] >= pair[1]), 8)?;
                let mut candidate = Candidate::of_words(vec![0; atoms.div_ceil(64)]);
                for &atom in set {
                    candidate.flip(atom as usize);
                }
                self.series.push(candidate);
                return Ok(());
            }
            _ => {}
        }
        refuse(count >= LIMITS[1], 3)?;
        nodes.push(match mark {
            b"NA" => {
                refuse(no_atom(&numbers[0]), 4)?;
                Node::Atom(numbers[0])
            }
            b"NF" => Node::False,
            b"NI" => {
                refuse(numbers.iter().any(not_lower), 5)?;
                Node::Implies(numbers[0], numbers[1])
            }
            _ => {
                let group = numbers[1..].to_vec();
                *operands += group.len();
                refuse(*operands > LIMITS[2], 3)?;
                refuse(group.is_empty(), 6)?;
                refuse(group.iter().any(not_lower), 5)?;
                if mark == b"NC" {
                    Node::And(group)
                } else {
                    Node::Or(group)
                }
            }
        });
        Ok(())
    }

    /// Reads a run's file: the 65,537th byte, then record by record.
    pub fn read(file: &[u8]) -> Result<Self, Place> {
        if file.len() > MOST_BYTES {
            return Err([3, MOST_BYTES as u64]);
        }
        let mut theory = Self::default();
        let (mut rest, mut order, mut operands) = (file, None, 0);
        for place in 0.. {
            if rest.is_empty() && place > 0 {
                break;
            }
            let refused = |number| [number, place];
            let (stage, numbers) = record(rest, order).map_err(refused)?;
            let taken = theory.take(&rest[..2], &numbers, &mut operands);
            taken.map_err(refused)?;
            order = Some(stage);
            rest = &rest[2 + 4 * numbers.len()..];
        }
        Ok(theory)
    }

    /// 9: the lowest table for which a run has no room.
    fn room(&self) -> Result<(), Place> {
        let Drawing {
            atoms,
            nodes,
            roots,
        } = &self.drawing;
        let counts = [*atoms, nodes.len(), entries(nodes), roots.len()];
        match (0..4).find(|&table| counts[table] > ROOM[table]) {
            Some(table) => Err([9, table as u64]),
            None => Ok(()),
        }
    }

    /// The records, each in its bytes.
    pub fn records(&self) -> Vec<Vec<u8>> {
        let head = [encoded(b"TH", &[self.stamp, self.drawing.atoms as u32])];
        let nodes = self.drawing.nodes.iter().map(|node| match node {
            Node::Atom(atom) => encoded(b"NA", &[*atom]),
            Node::False => encoded(b"NF", &[]),
            Node::Implies(left, right) => encoded(b"NI", &[*left, *right]),
            Node::And(operands) => counted(b"NC", operands),
            Node::Or(operands) => counted(b"ND", operands),
        });
        let roots = self.drawing.roots.iter();
        let roots = roots.map(|&root| encoded(b"RT", &[root]));
        let candidates = self.series.iter().map(|candidate| {
            let atoms: Vec<u32> = candidate.atoms().map(|atom| atom as u32).collect();
            counted(b"CA", &atoms)
        });
        let records = head.into_iter().chain(nodes).chain(roots);
        records.chain(candidates).collect()
    }
}

/// A record of a mark and numbers.
pub fn encoded(mark: &[u8; 2], numbers: &[u32]) -> Vec<u8> {
    let numbers = numbers.iter().flat_map(|number| number.to_le_bytes());
    mark.iter().copied().chain(numbers).collect()
}

/// A record of a mark, a count and as many numbers.
pub fn counted(mark: &[u8; 2], numbers: &[u32]) -> Vec<u8> {
    let count = [numbers.len() as u32];
    encoded(mark, &[&count, numbers].concat())
}

fn lines(stamp: u32, drawing: &Drawing, told: &Told) -> String {
    let mut text = format!(
        "th {stamp} atoms {} nodes {} roots {} producers {}\nranks",
        drawing.atoms,
        drawing.nodes.len(),
        drawing.roots.len(),
        told.producers,
    );
    for rank in &told.ranks {
        write!(text, " {rank}").expect("a string takes it");
    }
    for (number, check) in told.checks.iter().enumerate() {
        let verdict = match check.verdict {
            Verdict::Stable => "stable -".to_owned(),
            Verdict::NotModel { root } => format!("notmodel {root}"),
            Verdict::Residual { atom } => format!("residual {atom}"),
        };
        write!(text, "\n{number} {verdict} {}", check.nodes).expect("a string takes it");
    }
    text + "\n"
}

/// The text of a run, by what one side tells of planned theories.
pub fn text(
    file: &[u8],
    told: impl FnOnce(&Drawing, &[Candidate]) -> Result<Told, Refusal>,
) -> String {
    let theory = TheoryFile::read(file).and_then(|theory| {
        theory.room()?;
        Ok(theory)
    });
    let theory = match theory {
        Ok(theory) => theory,
        Err([number, place]) => return format!("refused {number} {place}\n"),
    };
    match told(&theory.drawing, &theory.series) {
        Ok(told) => lines(theory.stamp, &theory.drawing, &told),
        Err(refusal @ Refusal::UnsupportedBody { .. }) => {
            let [number, root, body] = refusal.numbers();
            format!("refused {number} {root} {body}\n")
        }
        Err(refusal) => {
            let [number, place, _] = refusal.numbers();
            format!("refused {number} {place}\n")
        }
    }
}
