//! Document 01 read a second time: what planning and checking answer, by definition and not by the
//! Rust's algorithms.

use crate::drawing::{Candidate, Drawing, Node, STAMP, Told};
use tight::call::{LIMITS, Tables};
use tight::{Check, Counts, Head, Producer, Refusal, Verdict};

#[derive(Clone, Copy, Debug, PartialEq, Eq)]
pub enum Class {
    Opaque,
    Frozen,
    Positive,
}

/// The class of a node over lower ones.
pub fn class(nodes: &[Node], classes: &[Class], node: &Node) -> Class {
    let all = |class| {
        node.operands()
            .iter()
            .all(|&operand| classes[operand as usize] == class)
    };
    let some = |class| {
        node.operands()
            .iter()
            .any(|&operand| classes[operand as usize] == class)
    };
    match *node {
        Node::Atom(_) => Class::Positive,
        Node::False => Class::Frozen,
        Node::Implies(_, right) if nodes[right as usize] == Node::False => Class::Frozen,
        Node::Implies(..) => Class::Opaque,
        Node::And(_) | Node::Or(_) if some(Class::Opaque) => Class::Opaque,
        Node::And(_) | Node::Or(_) if all(Class::Frozen) => Class::Frozen,
        Node::And(_) | Node::Or(_) => Class::Positive,
    }
}

pub fn classes(drawing: &Drawing) -> Vec<Class> {
    let mut classes = Vec::with_capacity(drawing.nodes.len());
    for node in &drawing.nodes {
        classes.push(class(&drawing.nodes, &classes, node));
    }
    classes
}

/// The head of a node, if it is an atom or a choice of one.
fn head(nodes: &[Node], node: u32) -> Option<(u32, Head)> {
    match nodes[node as usize] {
        Node::Atom(atom) => Some((atom, Head::Normal)),
        Node::Or(ref operands) if operands.len() == 2 => {
            let (left, right) = (operands[0], operands[1]);
            for (plain, negated) in [(left, right), (right, left)] {
                if let Node::Atom(atom) = nodes[plain as usize]
                    && let Node::Implies(from, to) = nodes[negated as usize]
                    && from == plain
                    && nodes[to as usize] == Node::False
                {
                    return Some((atom, Head::Choice));
                }
            }
            None
        }
        _ => None,
    }
}

pub fn producers(drawing: &Drawing, classes: &[Class]) -> Result<Vec<Producer>, Refusal> {
    let nodes = &drawing.nodes;
    let mut producers = Vec::new();
    for &root in &drawing.roots {
        let (body, node) = match nodes[root as usize] {
            Node::False => continue,
            Node::Implies(_, right) if nodes[right as usize] == Node::False => continue,
            Node::Implies(left, right) => (Some(left), right),
            _ => (None, root),
        };
        let (head, kind) =
            head(nodes, node).ok_or(Refusal::UnsupportedRoot { root: root.into() })?;
        if let Some(body) = body
            && classes[body as usize] == Class::Opaque
        {
            return Err(Refusal::UnsupportedBody {
                root: root.into(),
                body: body.into(),
            });
        }
        producers.push(Producer {
            head,
            body,
            root,
            kind,
        });
    }
    Ok(producers)
}

/// The atoms reached from a body through Positive And and Or.
fn reached(drawing: &Drawing, classes: &[Class], body: u32) -> Vec<u32> {
    let (mut atoms, mut seen, mut open) = (Vec::new(), Vec::new(), vec![body]);
    while let Some(node) = open.pop() {
        if seen.contains(&node) {
            continue;
        }
        seen.push(node);
        match drawing.nodes[node as usize] {
            Node::Atom(atom) => atoms.push(atom),
            Node::And(ref operands) | Node::Or(ref operands)
                if classes[node as usize] == Class::Positive =>
            {
                open.extend(operands);
            }
            _ => {}
        }
    }
    atoms
}

/// Head and reached atoms of each producer with a Positive body, in producer order.
pub struct Steps(Vec<(u32, Vec<u32>)>);

pub fn steps(drawing: &Drawing, classes: &[Class], producers: &[Producer]) -> Steps {
    let positive = |body: &u32| classes[*body as usize] == Class::Positive;
    Steps(
        producers
            .iter()
            .filter_map(|producer| {
                let body = producer.body.filter(positive)?;
                Some((producer.head, reached(drawing, classes, body)))
            })
            .collect(),
    )
}

/// The most steps on a path into each atom. A path of as many steps as there are atoms meets a
/// cycle, and the lowest atom with one is named.
pub fn ranks(atoms: usize, steps: &Steps) -> Result<Vec<u32>, Refusal> {
    let mut ranks = vec![0; atoms];
    for _ in 0..atoms {
        let before = ranks.clone();
        for (head, body) in &steps.0 {
            let highest = body.iter().map(|&atom| before[atom as usize]).max();
            let rank = &mut ranks[*head as usize];
            *rank = (*rank).max(highest.map_or(0, |highest| highest + 1));
        }
        if ranks == before {
            break;
        }
    }
    match ranks.iter().position(|&rank| rank as usize >= atoms) {
        Some(atom) => Err(Refusal::PositiveCycle { atom: atom as u64 }),
        None => Ok(ranks),
    }
}

pub fn certify(atoms: usize, steps: &Steps, ranks: &[u32]) -> Result<(), Refusal> {
    if ranks.len() != atoms || ranks.iter().any(|&rank| rank as usize >= atoms) {
        return Err(Refusal::RankShape);
    }
    for (head, body) in &steps.0 {
        if body
            .iter()
            .any(|&atom| ranks[atom as usize] >= ranks[*head as usize])
        {
            return Err(Refusal::RankOrder {
                head: (*head).into(),
            });
        }
    }
    Ok(())
}

/// The readers of each node and the atom nodes of each atom.
pub fn readers(drawing: &Drawing, producers: &[Producer]) -> (Vec<Vec<u64>>, Vec<Vec<u64>>) {
    let mut readers = vec![Vec::new(); drawing.nodes.len()];
    let mut atom_nodes = vec![Vec::new(); drawing.atoms];
    for (index, node) in drawing.nodes.iter().enumerate() {
        match *node {
            Node::Atom(atom) => atom_nodes[atom as usize].push(index as u64),
            Node::Implies(left, right) => {
                readers[left as usize].push(index as u64);
                readers[right as usize].push(index as u64);
            }
            _ => {
                for &operand in node.operands() {
                    readers[operand as usize].push(index as u64);
                }
            }
        }
    }
    for (index, producer) in producers.iter().enumerate() {
        if let Some(body) = producer.body {
            readers[body as usize].push(2 << 62 | index as u64);
        }
    }
    for (position, &root) in drawing.roots.iter().enumerate() {
        readers[root as usize].push(3 << 62 | position as u64);
    }
    (readers, atom_nodes)
}

pub fn truths(drawing: &Drawing, candidate: &Candidate) -> Vec<bool> {
    let mut truths: Vec<bool> = Vec::with_capacity(drawing.nodes.len());
    for node in &drawing.nodes {
        let truth = |operand: &u32| truths[*operand as usize];
        truths.push(match node {
            Node::Atom(atom) => candidate.has(*atom as usize),
            Node::False => false,
            Node::Implies(left, right) => !truth(left) || truth(right),
            Node::And(operands) => operands.iter().all(truth),
            Node::Or(operands) => operands.iter().any(truth),
        });
    }
    truths
}

/// What the kept evaluation holds of a candidate.
#[derive(Clone, Debug, PartialEq, Eq)]
pub struct Evaluation {
    pub candidate: Candidate,
    pub truths: Vec<bool>,
    pub support: Vec<u32>,
    pub missing: Vec<usize>,
    pub false_roots: Vec<usize>,
}

pub fn evaluation(drawing: &Drawing, producers: &[Producer], candidate: &Candidate) -> Evaluation {
    let truths = truths(drawing, candidate);
    let mut support = vec![0; drawing.atoms];
    for producer in producers {
        if producer.body.is_none_or(|body| truths[body as usize]) {
            support[producer.head as usize] += 1;
        }
    }
    let missing = candidate
        .atoms()
        .filter(|&atom| support[atom] == 0)
        .collect();
    let false_roots = (0..drawing.roots.len())
        .filter(|&position| !truths[drawing.roots[position] as usize])
        .collect();
    Evaluation {
        candidate: candidate.clone(),
        truths,
        support,
        missing,
        false_roots,
    }
}

impl Evaluation {
    pub fn verdict(&self, drawing: &Drawing) -> Verdict {
        match (self.false_roots.first(), self.missing.first()) {
            (Some(&position), _) => Verdict::NotModel {
                root: drawing.roots[position].into(),
            },
            (None, Some(&atom)) => Verdict::Residual { atom: atom as u64 },
            (None, None) => Verdict::Stable,
        }
    }

    /// The words that hold it: docs/DECISIONS.md, "Layout".
    pub fn kept_words(&self, counts: Counts) -> Vec<u32> {
        let mut words = vec![
            1,
            STAMP,
            self.missing.len() as u32,
            self.false_roots.len() as u32,
            0,
            counts.nodes as u32,
        ];
        words.resize(8, 0);
        words.extend(self.truths.iter().map(|&truth| u32::from(truth)));
        words.resize(words.len() + counts.nodes.div_ceil(32), 0);
        words.extend(&self.support);
        let mut set = |places: &mut dyn Iterator<Item = usize>, size: usize| {
            let start = words.len();
            words.resize(start + size.div_ceil(32), 0);
            for place in places {
                words[start + place / 32] |= 1 << (place % 32);
            }
        };
        set(&mut self.candidate.atoms(), counts.atoms);
        set(&mut self.missing.iter().copied(), counts.atoms);
        set(&mut self.false_roots.iter().copied(), counts.roots);
        words.resize(counts.lengths().kept, 0);
        words
    }
}

/// The atoms at which two candidates differ.
pub fn changed(old: &Candidate, new: &Candidate) -> u32 {
    let pairs = old.words.iter().zip(&new.words);
    pairs.map(|(old, new)| (old ^ new).count_ones()).sum()
}

/// Whether a check after one of `old` is kept.
pub fn is_kept(drawing: &Drawing, old: &Candidate, new: &Candidate) -> bool {
    changed(old, new) as usize <= (drawing.atoms / 8).max(64)
}

/// The nodes that a kept check goes over, rising: the atom nodes of changed atoms, and the nodes
/// with an operand whose truth changed.
pub fn gone_over(drawing: &Drawing, old: &Evaluation, new: &Evaluation) -> Vec<usize> {
    let turned = |operand: &u32| old.truths[*operand as usize] != new.truths[*operand as usize];
    let enters = |node: &Node| match node {
        Node::Atom(atom) => old.candidate.has(*atom as usize) != new.candidate.has(*atom as usize),
        Node::False => false,
        Node::Implies(left, right) => turned(left) || turned(right),
        Node::And(operands) | Node::Or(operands) => operands.iter().any(turned),
    };
    (0..drawing.nodes.len())
        .filter(|&node| enters(&drawing.nodes[node]))
        .collect()
}

/// The tests of a check before 17, once counts and buffers are as listed.
pub fn candidate_refusal(atoms: usize, plan_stamp: u32, candidate: &Candidate) -> Option<Refusal> {
    if plan_stamp != STAMP || candidate.stamp() != STAMP {
        return Some(Refusal::Stamp);
    }
    candidate
        .atoms()
        .find(|&atom| atom >= atoms)
        .map(|atom| Refusal::Beyond { atom: atom as u64 })
}

/// 3 by counts.
pub fn limit_refusal(counts: Counts) -> Option<Refusal> {
    let over = (0..4).find(|&table| counts.numbers()[table] > LIMITS[table])?;
    Some(Refusal::Limit { table: over as u64 })
}

/// 9 for the lowest buffer shorter than listed; pairs of number, listed and lent length, rising.
pub fn buffer_refusal(buffers: &[(u64, usize, usize)]) -> Option<Refusal> {
    let short = buffers.iter().find(|(_, listed, lent)| lent < listed)?;
    Some(Refusal::Buffer { number: short.0 })
}

/// The theory in lent tables, or the first of 1, 6, 4, 5 by node and 7 by root.
pub fn admitted(counts: Counts, tables: Tables<'_>) -> Result<Drawing, Refusal> {
    let mut drawing = Drawing {
        atoms: counts.atoms,
        ..Drawing::default()
    };
    let mut end = 0;
    let (words, _) = tables.nodes[..3 * counts.nodes].as_chunks::<3>();
    for (index, &[kind, first, second]) in words.iter().enumerate() {
        let node = index as u64;
        let lower = |operand: u32| (operand as usize) < index;
        drawing.nodes.push(match kind {
            0 if first as usize >= counts.atoms => return Err(Refusal::Atom { node }),
            0 => Node::Atom(first),
            1 => Node::False,
            2 if !lower(first) || !lower(second) => return Err(Refusal::Operand { node }),
            2 => Node::Implies(first, second),
            3 | 4 => {
                if second == 0 {
                    return Err(Refusal::Empty { node });
                }
                let (start, stop) = (first as usize, first as usize + second as usize);
                if start != end || stop > counts.operands {
                    return Err(Refusal::Operand { node });
                }
                end = stop;
                let operands = tables.operands[start..stop].to_vec();
                if !operands.iter().all(|&operand| lower(operand)) {
                    return Err(Refusal::Operand { node });
                }
                if kind == 3 {
                    Node::And(operands)
                } else {
                    Node::Or(operands)
                }
            }
            _ => return Err(Refusal::Kind { node }),
        });
    }
    for (position, &root) in tables.roots[..counts.roots].iter().enumerate() {
        if root as usize >= counts.nodes {
            return Err(Refusal::Root {
                position: position as u64,
            });
        }
        drawing.roots.push(root);
    }
    Ok(drawing)
}

/// What a planning call answers for an admitted theory: its producers, then its ranks.
pub fn planned(
    drawing: &Drawing,
    proposed: Option<&[u32]>,
) -> Result<(Vec<Producer>, Vec<u32>), Refusal> {
    let classes = classes(drawing);
    let producers = producers(drawing, &classes)?;
    let steps = steps(drawing, &classes, &producers);
    let ranks = match proposed {
        None => ranks(drawing.atoms, &steps)?,
        Some(ranks) => certify(drawing.atoms, &steps, ranks).map(|()| ranks.to_vec())?,
    };
    Ok((producers, ranks))
}

/// An accepted check's answer after one of `old`.
pub fn check(drawing: &Drawing, old: Option<&Evaluation>, new: &Evaluation) -> (Check, Vec<usize>) {
    let kept = old.filter(|old| is_kept(drawing, &old.candidate, &new.candidate));
    let nodes = match kept {
        Some(old) => gone_over(drawing, old, new),
        None => (0..drawing.nodes.len()).collect(),
    };
    let check = Check {
        verdict: new.verdict(drawing),
        nodes: nodes.len() as u64,
    };
    (check, nodes)
}

/// What a run tells of a theory and a series of candidates.
pub fn told(drawing: &Drawing, series: &[Candidate]) -> Result<Told, Refusal> {
    let (producers, ranks) = planned(drawing, None)?;
    let mut last = None;
    let mut checks = Vec::with_capacity(series.len());
    for candidate in series {
        let new = evaluation(drawing, &producers, candidate);
        checks.push(check(drawing, last.as_ref(), &new).0);
        last = Some(new);
    }
    Ok(Told {
        producers: producers.len(),
        ranks,
        checks,
    })
}
