//! The inputs: theories of a few shapes, each with a stable candidate and the atoms that a kept
//! check may change.

use crate::drawing::{Candidate, Drawing, Node};
use crate::random::Random;

pub struct Input {
    pub drawing: Drawing,
    pub base: Candidate,
    /// Atoms to change.
    pub free: Vec<u32>,
}

pub const MOST_ATOMS: usize = 65_536;

/// The atoms as nodes, then False.
fn atoms_first(atoms: usize) -> (Drawing, u32) {
    let mut drawing = Drawing {
        atoms,
        ..Drawing::default()
    };
    for atom in 0..atoms as u32 {
        drawing.push(Node::Atom(atom));
    }
    let falsum = drawing.push(Node::False);
    (drawing, falsum)
}

/// A root "atom or not atom".
fn choice(drawing: &mut Drawing, falsum: u32, atom: u32) {
    let negation = drawing.push(Node::Implies(atom, falsum));
    let head = drawing.push(Node::Or(vec![atom, negation]));
    drawing.roots.push(head);
}

fn rule(drawing: &mut Drawing, body: u32, head: u32) {
    let node = drawing.push(Node::Implies(body, head));
    drawing.roots.push(node);
}

/// Repeats the last `most` roots in turn until there are `count`.
fn repeat_roots(drawing: &mut Drawing, most: usize, count: usize) {
    let first = drawing.roots.len() - most;
    for position in first..first + count.saturating_sub(drawing.roots.len()) {
        drawing.roots.push(drawing.roots[position]);
    }
}

fn candidate(drawing: &Drawing, atoms: impl Iterator<Item = u32>) -> Candidate {
    let mut candidate = Candidate::of_words(vec![0; drawing.words()]);
    for atom in atoms {
        candidate.words[atom as usize / 64] |= 1 << (atom % 64);
    }
    candidate
}

/// Atom 0 by choice, each other one from the one before it. All atoms are in the candidate.
pub fn chain(nodes: usize) -> Input {
    let atoms = ((nodes - 2) / 2).min(MOST_ATOMS);
    let (mut drawing, falsum) = atoms_first(atoms);
    choice(&mut drawing, falsum, 0);
    for head in 1..atoms as u32 {
        rule(&mut drawing, head - 1, head);
    }
    Input {
        base: candidate(&drawing, 0..atoms as u32),
        drawing,
        free: (0..atoms as u32).collect(),
    }
}

/// And over atoms that are in the candidate and Or over atoms that are not, by turns, so that each
/// is read to its end; as many groups as a group has operands, about. Groups are bodies of rules for
/// the upper half of the atoms. Operand entries are four times the nodes, and roots as many.
pub fn wide(nodes: usize) -> Input {
    let (atoms, low) = (nodes / 4, nodes / 8);
    let groups = (4 * nodes).isqrt();
    let width = (4 * nodes - 2 * low) / groups;
    let mut random = Random::new(1);
    let (mut drawing, falsum) = atoms_first(atoms);
    for atom in 0..low as u32 {
        choice(&mut drawing, falsum, atom);
    }
    let first = drawing.nodes.len() as u32;
    for group in 0..groups {
        let half = low / 2;
        let start = if group % 2 == 0 { 0 } else { half };
        let operands = (0..width)
            .map(|_| start as u32 + random.index(half))
            .collect();
        drawing.push(if group % 2 == 0 {
            Node::And(operands)
        } else {
            Node::Or(operands)
        });
    }
    let mut held = vec![false; atoms];
    held[..low / 2].fill(true);
    let rules = nodes - drawing.nodes.len();
    for _ in 0..rules {
        let group = random.index(groups);
        let head = low as u32 + random.index(atoms - low);
        held[head as usize] |= group.is_multiple_of(2);
        rule(&mut drawing, first + group, head);
    }
    repeat_roots(&mut drawing, rules, nodes);
    Input {
        base: candidate(
            &drawing,
            (0..atoms as u32).filter(|&atom| held[atom as usize]),
        ),
        drawing,
        free: (0..low as u32).collect(),
    }
}

/// Eight heads, each with a rule from every eighth other atom, over and over; the others by choice,
/// every second one in the candidate. As many roots as nodes.
pub fn heads(nodes: usize) -> Input {
    const HEADS: u32 = 8;
    let atoms = nodes / 4;
    let (mut drawing, falsum) = atoms_first(atoms);
    for atom in HEADS..atoms as u32 {
        choice(&mut drawing, falsum, atom);
    }
    let bodies = atoms as u32 - HEADS;
    let rules = (nodes - drawing.nodes.len()) as u32;
    for number in 0..rules {
        let body = number % bodies;
        rule(&mut drawing, HEADS + body, body / 2 % HEADS);
    }
    repeat_roots(&mut drawing, rules as usize, nodes);
    Input {
        base: candidate(
            &drawing,
            (0..atoms as u32).filter(|atom| *atom < HEADS || atom % 2 == 0),
        ),
        drawing,
        free: (HEADS..atoms as u32).collect(),
    }
}

/// The load of ticket No. 14: `rules` rules over `atoms` atoms by a seed. The candidate has atom 0
/// and what follows from it.
pub fn load(mut seed: u32, atoms: usize, rules: usize) -> Input {
    let mut draw = || {
        seed = seed.wrapping_mul(1_664_525).wrapping_add(1_013_904_223);
        seed / 65_536
    };
    let (mut drawing, falsum) = atoms_first(atoms);
    choice(&mut drawing, falsum, 0);
    let mut pairs = Vec::with_capacity(rules);
    for _ in 0..rules {
        let head = 1 + draw() % (atoms as u32 - 1);
        let body = draw() % head;
        rule(&mut drawing, body, head);
        pairs.push((head, body));
    }
    pairs.sort_unstable();
    let mut held = vec![false; atoms];
    held[0] = true;
    for (head, body) in pairs {
        held[head as usize] |= held[body as usize];
    }
    Input {
        base: candidate(
            &drawing,
            (0..atoms as u32).filter(|&atom| held[atom as usize]),
        ),
        drawing,
        free: (0..atoms as u32).collect(),
    }
}

/// A load of about so many nodes, with three rules an atom.
pub fn load_of(nodes: usize) -> Input {
    load(14, nodes / 4, nodes - nodes / 4 - 3)
}

/// 64 atoms by choice, each under a tower of negations; the towers rise together.
pub fn deep(nodes: usize) -> Input {
    const ATOMS: u32 = 64;
    let (mut drawing, falsum) = atoms_first(ATOMS as usize);
    for atom in 0..ATOMS {
        choice(&mut drawing, falsum, atom);
    }
    let mut below: Vec<u32> = (0..ATOMS).collect();
    while drawing.nodes.len() + below.len() <= nodes {
        for node in &mut below {
            *node = drawing.push(Node::Implies(*node, falsum));
        }
    }
    Input {
        base: candidate(&drawing, (0..ATOMS).filter(|atom| atom % 2 == 0)),
        drawing,
        free: (0..ATOMS).collect(),
    }
}

/// 64 atoms by choice, each under a tower of negations, one tower after the other, and behind them
/// each atom's node again: a change goes through its tower while a node at the theory's end waits.
pub fn late(nodes: usize) -> Input {
    towers(nodes, 1)
}

/// The same with two negations of each node of a tower; on the second one the tower goes on.
pub fn forks(nodes: usize) -> Input {
    towers(nodes, 2)
}

fn towers(nodes: usize, negations: usize) -> Input {
    const ATOMS: u32 = 64;
    let (mut drawing, falsum) = atoms_first(ATOMS as usize);
    for atom in 0..ATOMS {
        choice(&mut drawing, falsum, atom);
    }
    let rest = nodes - drawing.nodes.len();
    for atom in 0..ATOMS {
        let mut top = atom;
        for _ in 1..rest / ATOMS as usize / negations {
            let below = top;
            for _ in 0..negations {
                top = drawing.push(Node::Implies(below, falsum));
            }
        }
    }
    for atom in 0..ATOMS {
        drawing.push(Node::Atom(atom));
    }
    Input {
        base: candidate(&drawing, (0..ATOMS).filter(|atom| atom % 2 == 0)),
        drawing,
        free: (0..ATOMS).collect(),
    }
}

/// A chain over 512 of 1,024 atoms, and rules among the others up to so many nodes, before the
/// chain's (`behind`) or after them. Only atoms of the chain are changed, so that a check goes over
/// as many nodes whatever the size.
pub fn fixed(nodes: usize, behind: bool) -> Input {
    const CHAIN: u32 = 512;
    const ATOMS: u32 = 1024;
    let mut random = Random::new(2);
    let (mut drawing, falsum) = atoms_first(ATOMS as usize);
    choice(&mut drawing, falsum, 0);
    let links = |drawing: &mut Drawing| (1..CHAIN).for_each(|head| rule(drawing, head - 1, head));
    let others = nodes - drawing.nodes.len() - (CHAIN as usize - 1);
    if !behind {
        links(&mut drawing);
    }
    for _ in 0..others {
        let body = CHAIN + random.index((ATOMS - CHAIN - 1) as usize);
        let head = body + 1 + random.index((ATOMS - body - 1) as usize);
        rule(&mut drawing, body, head);
    }
    if behind {
        links(&mut drawing);
    }
    Input {
        base: candidate(&drawing, 0..CHAIN),
        drawing,
        free: (0..CHAIN).collect(),
    }
}
