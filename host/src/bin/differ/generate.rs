//! Inputs: small theories of a few shapes, all of them; random ones; series across the bound
//! between kept and fresh; theories at the limits.

use crate::document::{self, Class};
use crate::drawing::{Candidate, Case, Drawing, Node};
use crate::random::Random;
use tight::Head;

/// Every candidate, in an order that meets many changes.
fn all_candidates(atoms: usize) -> Vec<Candidate> {
    let count = 1_u64 << atoms;
    let rising = 0..count;
    let strided = (0..count).map(|place| (place * 5 + 3) % count);
    let words = |word| vec![word; atoms.div_ceil(64)];
    rising
        .chain(strided)
        .map(|word| Candidate::of_words(words(word)))
        .collect()
}

/// Every node over `lower` nodes with at most two operands.
fn small_nodes(atoms: usize, lower: u32) -> Vec<Node> {
    let mut nodes: Vec<Node> = (0..atoms as u32).map(Node::Atom).collect();
    nodes.push(Node::False);
    for left in 0..lower {
        nodes.push(Node::And(vec![left]));
        nodes.push(Node::Or(vec![left]));
        for right in 0..lower {
            nodes.push(Node::Implies(left, right));
            nodes.push(Node::And(vec![left, right]));
            nodes.push(Node::Or(vec![left, right]));
        }
    }
    nodes
}

/// All theories of `nodes` nodes with at most two operands, and at most two roots.
pub fn all_tables(atoms: usize, nodes: u32, visit: &mut dyn FnMut(Case) -> bool) -> bool {
    fn grow(
        drawing: &mut Drawing,
        left: u32,
        series: &[Candidate],
        visit: &mut dyn FnMut(Case) -> bool,
    ) -> bool {
        let count = drawing.nodes.len() as u32;
        if left > 0 {
            for node in small_nodes(drawing.atoms, count) {
                drawing.nodes.push(node);
                let more = grow(drawing, left - 1, series, visit);
                drawing.nodes.pop();
                if !more {
                    return false;
                }
            }
            return true;
        }
        let ones = (0..count).map(|root| vec![root]);
        let twos = (0..count).flat_map(|first| (0..count).map(move |second| vec![first, second]));
        for roots in std::iter::once(Vec::new()).chain(ones).chain(twos) {
            let mut drawing = drawing.clone();
            drawing.roots = roots;
            if !visit(Case {
                drawing,
                proposals: Vec::new(),
                series: series.to_vec(),
            }) {
                return false;
            }
        }
        true
    }
    let mut drawing = Drawing {
        atoms,
        ..Drawing::default()
    };
    grow(&mut drawing, nodes, &all_candidates(atoms), visit)
}

/// All programs of three atoms with at most one producer each: none, or a plain or choice head with
/// no body, a literal, or two literals in And or Or.
pub fn all_programs(visit: &mut dyn FnMut(Case) -> bool) -> bool {
    const ATOMS: u32 = 3;
    // nodes 0 to 2 atoms, 3 False, 4 to 6 their negations, 7 to 9 their choices
    let mut base = Drawing {
        atoms: ATOMS as usize,
        ..Drawing::default()
    };
    for atom in 0..ATOMS {
        base.push(Node::Atom(atom));
    }
    let falsum = base.push(Node::False);
    for atom in 0..ATOMS {
        base.push(Node::Implies(atom, falsum));
    }
    for atom in 0..ATOMS {
        base.push(Node::Or(vec![4 + atom, atom]));
    }
    let literals = [0, 1, 2, 4, 5, 6];
    let mut bodies = vec![Vec::new()];
    bodies.extend(literals.map(|literal| vec![literal]));
    for (place, &left) in literals.iter().enumerate() {
        bodies.extend(literals[place + 1..].iter().map(|&right| vec![left, right]));
    }
    // 0 for no producer, then bodies with plain heads, with choice heads
    let options = 1 + 2 * bodies.len();
    let series = all_candidates(ATOMS as usize);
    for number in 0..options.pow(ATOMS) {
        let mut drawing = base.clone();
        for atom in 0..ATOMS {
            let Some(option) = (number / options.pow(atom) % options).checked_sub(1) else {
                continue;
            };
            let head = if option < bodies.len() {
                atom
            } else {
                7 + atom
            };
            let root = match bodies[option % bodies.len()][..] {
                [] => head,
                [body] => drawing.push(Node::Implies(body, head)),
                _ => {
                    let operands = bodies[option % bodies.len()].clone();
                    let body = drawing.push(if (number + option).is_multiple_of(2) {
                        Node::And(operands)
                    } else {
                        Node::Or(operands)
                    });
                    drawing.push(Node::Implies(body, head))
                }
            };
            drawing.roots.push(root);
        }
        if !visit(Case {
            drawing,
            proposals: Vec::new(),
            series: series.clone(),
        }) {
            return false;
        }
    }
    true
}

/// A theory that grows node by node, with a hidden rank for each atom that its rules follow.
struct Builder<'r> {
    random: &'r mut Random,
    drawing: Drawing,
    classes: Vec<Class>,
    /// One more than the highest hidden rank reached, 0 for none.
    heights: Vec<u32>,
    hidden: Vec<u32>,
    atom_nodes: Vec<Vec<u32>>,
    falsums: Vec<u32>,
    /// Percent of body atoms that do not keep to the hidden ranks, and of bodies that may be Opaque.
    wild: usize,
}

impl<'r> Builder<'r> {
    fn new(random: &'r mut Random, atoms: usize) -> Self {
        let wild = *random.pick(&[0, 0, 0, 0, 0, 0, 1, 2, 5, 20]);
        let spread = 1 + random.below(atoms);
        Self {
            drawing: Drawing {
                atoms,
                ..Drawing::default()
            },
            classes: Vec::new(),
            heights: Vec::new(),
            hidden: (0..atoms).map(|_| random.index(spread)).collect(),
            atom_nodes: vec![Vec::new(); atoms],
            falsums: Vec::new(),
            wild,
            random,
        }
    }

    fn push(&mut self, node: Node) -> u32 {
        let class = document::class(&self.drawing.nodes, &self.classes, &node);
        let operands = node.operands().iter();
        let highest = operands
            .map(|&operand| self.heights[operand as usize])
            .max();
        self.heights.push(match node {
            Node::Atom(atom) => self.hidden[atom as usize] + 1,
            _ if class == Class::Positive => highest.unwrap_or(0),
            _ => 0,
        });
        self.classes.push(class);
        self.drawing.push(node)
    }

    fn atom(&mut self, atom: u32) -> u32 {
        let nodes = &self.atom_nodes[atom as usize];
        if !nodes.is_empty() && self.random.chance(85) {
            return *self.random.pick(nodes);
        }
        let node = self.push(Node::Atom(atom));
        self.atom_nodes[atom as usize].push(node);
        node
    }

    fn falsum(&mut self) -> u32 {
        if !self.falsums.is_empty() && self.random.chance(95) {
            return *self.random.pick(&self.falsums);
        }
        let node = self.push(Node::False);
        self.falsums.push(node);
        node
    }

    fn not(&mut self, node: u32) -> u32 {
        let falsum = self.falsum();
        self.push(Node::Implies(node, falsum))
    }

    fn any_atom(&mut self) -> u32 {
        self.random.index(self.drawing.atoms)
    }

    /// A node over anything, Opaque ones too: for the inside of a negation.
    fn anything(&mut self, depth: usize) -> u32 {
        if self.random.chance(15) {
            let atom = self.any_atom();
            let right = self.atom(atom);
            let left = self.body(u32::MAX, depth);
            return self.push(Node::Implies(left, right));
        }
        self.body(u32::MAX, depth)
    }

    /// A body whose atoms have hidden ranks below `limit`.
    fn body(&mut self, limit: u32, depth: usize) -> u32 {
        match self.random.below(100) {
            roll if roll < 40 || depth == 0 => {
                let atom = self.any_atom();
                let node = self.atom(atom);
                if self.hidden[atom as usize] < limit && roll % 4 != 0
                    || self.random.chance(self.wild)
                {
                    node
                } else {
                    self.not(node)
                }
            }
            roll if roll < 58 => {
                let node = self.anything(depth - 1);
                self.not(node)
            }
            roll if roll < 90 => {
                let width = 1 + self.random.below(4);
                let mut operands: Vec<u32> = Vec::new();
                for _ in 0..width {
                    let operand = if !operands.is_empty() && self.random.chance(20) {
                        *self.random.pick(&operands)
                    } else if self.random.chance(self.wild) {
                        self.anything(depth - 1)
                    } else {
                        self.body(limit, depth - 1)
                    };
                    operands.push(operand);
                }
                let conjunction = self.random.chance(50);
                self.push(if conjunction {
                    Node::And(operands)
                } else {
                    Node::Or(operands)
                })
            }
            _ => {
                for _ in 0..6 {
                    let count = self.drawing.nodes.len();
                    let node = self.random.below(count.max(1));
                    if node < count
                        && self.classes[node] != Class::Opaque
                        && self.heights[node] <= limit
                    {
                        return node as u32;
                    }
                }
                self.falsum()
            }
        }
    }

    fn choice(&mut self, atom: u32) -> u32 {
        let plain = self.atom(atom);
        let negated = self.not(plain);
        let mut operands = vec![plain, negated];
        if self.random.chance(50) {
            operands.reverse();
        }
        self.push(Node::Or(operands))
    }

    fn root(&mut self) {
        let atom = self.any_atom();
        let limit = self.hidden[atom as usize];
        let depth = self.random.below(4);
        let root = match self.random.below(100) {
            0..45 => {
                let body = self.body(limit, depth);
                let head = self.atom(atom);
                self.push(Node::Implies(body, head))
            }
            45..62 => {
                let body = self.body(limit, depth);
                let head = self.choice(atom);
                self.push(Node::Implies(body, head))
            }
            62..74 => self.choice(atom),
            74..82 => self.atom(atom),
            82..95 => {
                let node = self.anything(depth);
                self.not(node)
            }
            95 if self.random.chance(30) => self.falsum(),
            96 if self.random.chance(self.wild) => self.anything(depth),
            97 if self.random.chance(self.wild) => {
                let body = self.anything(depth);
                let head = self.atom(atom);
                self.push(Node::Implies(body, head))
            }
            _ => match self.drawing.roots.last() {
                Some(&root) => root,
                None => self.choice(atom),
            },
        };
        self.drawing.roots.push(root);
    }
}

/// A random theory, most of them accepted.
pub fn theory(random: &mut Random, atoms: usize, roots: usize) -> Drawing {
    let mut builder = Builder::new(random, atoms);
    for _ in 0..roots {
        builder.root();
    }
    if builder.random.chance(30) {
        let roots = &mut builder.drawing.roots;
        for place in (1..roots.len()).rev() {
            roots.swap(place, builder.random.below(place + 1));
        }
    }
    builder.drawing
}

/// Any nodes over lower ones, any roots; most are refused.
fn tables(random: &mut Random) -> Drawing {
    let mut drawing = Drawing {
        atoms: 1 + random.below(4),
        ..Drawing::default()
    };
    let nodes = random.below(9);
    for count in 0..nodes {
        let lower = |random: &mut Random| random.index(count.max(1));
        let node = match random.below(if count == 0 { 4 } else { 12 }) {
            0..3 => Node::Atom(random.index(drawing.atoms)),
            3 => Node::False,
            4..8 => Node::Implies(lower(random), lower(random)),
            kind => {
                let operands = (0..=random.below(3)).map(|_| lower(random)).collect();
                if kind < 10 {
                    Node::And(operands)
                } else {
                    Node::Or(operands)
                }
            }
        };
        drawing.push(node);
    }
    if nodes > 0 {
        let roots = random.below(4);
        drawing.roots = (0..roots).map(|_| random.index(nodes)).collect();
    }
    drawing
}

fn any_candidate(random: &mut Random, drawing: &Drawing) -> Candidate {
    let mut candidate = Candidate::of_words(vec![0; drawing.words()]);
    let percent = *random.pick(&[5, 20, 50, 80]);
    for atom in 0..drawing.atoms {
        if random.chance(percent) {
            candidate.flip(atom);
        }
    }
    candidate
}

/// A candidate that producers make, with choices drawn: often stable.
fn produced(random: &mut Random, drawing: &Drawing, from: &Candidate) -> Candidate {
    let Ok((producers, ranks)) = document::planned(drawing, None) else {
        return from.clone();
    };
    let mut candidate = from.clone();
    let highest = ranks.iter().copied().max().unwrap_or(0);
    for rank in (0..=highest).chain(0..=highest) {
        let truths = document::truths(drawing, &candidate);
        for (atom, _) in ranks.iter().enumerate().filter(|(_, r)| **r == rank) {
            let mut present = false;
            for producer in producers.iter().filter(|p| p.head as usize == atom) {
                let holds = producer.body.is_none_or(|body| truths[body as usize]);
                present |= holds && (producer.kind == Head::Normal || candidate.has(atom));
            }
            if present != candidate.has(atom) && random.chance(95) {
                candidate.flip(atom);
            }
        }
    }
    candidate
}

/// Flips exactly `count` atoms, or all if there are not so many.
fn flipped(random: &mut Random, drawing: &Drawing, from: &Candidate, count: usize) -> Candidate {
    let mut atoms: Vec<usize> = (0..drawing.atoms).collect();
    let mut candidate = from.clone();
    for place in 0..count.min(atoms.len()) {
        atoms.swap(place, place + random.below(drawing.atoms - place));
        candidate.flip(atoms[place]);
    }
    candidate
}

fn series(random: &mut Random, drawing: &Drawing, length: usize) -> Vec<Candidate> {
    let mut series: Vec<Candidate> = Vec::with_capacity(length);
    let mut last = any_candidate(random, drawing);
    for _ in 0..length {
        let mut next = match random.below(100) {
            0..35 => {
                let count = 1 + random.below(3);
                flipped(random, drawing, &last, count)
            }
            35..50 => {
                let count = random.below(drawing.atoms + 1);
                flipped(random, drawing, &last, count)
            }
            50..60 => any_candidate(random, drawing),
            60..85 if drawing.atoms <= 100 => produced(random, drawing, &last),
            85..89 => last.clone(),
            89..92 => Candidate::of_words(vec![0; drawing.words()]),
            92..96 => match series.is_empty() {
                true => last.clone(),
                false => random.pick(&series).clone(),
            },
            _ => flipped(random, drawing, &last, 1),
        };
        next.foreign = false;
        if random.chance(5) {
            next.foreign = true;
        }
        if random.chance(5) && !drawing.atoms.is_multiple_of(64) {
            let beyond = 64 - drawing.atoms % 64;
            next.flip(drawing.atoms + random.below(beyond));
        }
        let accepted = document::candidate_refusal(drawing.atoms, crate::drawing::STAMP, &next);
        if accepted.is_none() {
            last = next.clone();
        }
        series.push(next);
    }
    series
}

/// Rank lists near the derived ones, of other lengths and at random.
fn proposals(random: &mut Random, drawing: &Drawing) -> Vec<Vec<u32>> {
    let atoms = drawing.atoms;
    let derived = document::planned(drawing, None).map(|(_, ranks)| ranks);
    let derived = derived.unwrap_or_else(|_| vec![0; atoms]);
    let mut proposals = vec![derived.clone()];
    let mut near = derived.clone();
    for _ in 0..=random.below(3) {
        let place = random.below(atoms);
        near[place] = match random.below(3) {
            0 => near[place] + 1,
            1 => near[place].saturating_sub(1),
            _ => random.index(atoms + 1),
        };
    }
    proposals.push(near);
    // gaps, still rising
    proposals.push(derived.iter().map(|&rank| 2 * rank).collect());
    proposals.push((0..atoms).map(|_| random.index(atoms)).collect());
    if random.chance(20) {
        let mut short = derived;
        if random.chance(50) {
            short.pop();
        } else {
            short.push(0);
        }
        proposals.push(short);
    }
    proposals
}

/// A random input.
pub fn random(random: &mut Random) -> Case {
    let drawing = if random.chance(8) {
        tables(random)
    } else {
        let atoms = match random.below(1000) {
            0..600 => 1 + random.below(6),
            600..870 => 7 + random.below(4),
            870..995 => 11 + random.below(90),
            _ => 100 + random.below(500),
        };
        let roots = random.below(2 * atoms + 3);
        theory(random, atoms, roots)
    };
    let length = if drawing.atoms > 100 {
        4
    } else {
        4 + random.below(9)
    };
    Case {
        proposals: proposals(random, &drawing),
        series: series(random, &drawing, length),
        drawing,
    }
}

/// A theory in which nearly every set of atoms is a model: choices alone, with bodies and without.
fn choices(random: &mut Random, atoms: usize) -> Drawing {
    let mut builder = Builder::new(random, atoms);
    builder.wild = 0;
    for atom in 0..atoms as u32 {
        if builder.random.below(atoms) != 0 {
            let root = builder.choice(atom);
            builder.drawing.roots.push(root);
        }
        if builder.random.chance(30) {
            let body = builder.body(builder.hidden[atom as usize], 2);
            let head = builder.choice(atom);
            let root = builder.push(Node::Implies(body, head));
            builder.drawing.roots.push(root);
        }
    }
    builder.drawing
}

/// A theory and a series across the bound between kept and fresh.
pub fn boundary(random: &mut Random, atoms: usize) -> Case {
    let drawing = loop {
        let drawing = if random.chance(50) {
            choices(random, atoms)
        } else {
            theory(random, atoms, atoms + atoms / 2)
        };
        if document::planned(&drawing, None).is_ok() {
            break drawing;
        }
    };
    Case {
        series: across(random, &drawing, 3),
        proposals: Vec::new(),
        drawing,
    }
}

/// A series with changes of as many atoms as a kept check takes, one fewer, one and two more.
pub fn across(random: &mut Random, drawing: &Drawing, rounds: usize) -> Vec<Candidate> {
    let most = (drawing.atoms / 8).max(64);
    let mut series = vec![any_candidate(random, drawing)];
    for _ in 0..rounds {
        for count in [most, most + 1, most - 1, most + 2, 1, 0, 64, 65] {
            let last = series.last().expect("a first candidate");
            let next = flipped(random, drawing, last, count);
            series.push(next);
        }
    }
    series
}

/// The greatest counts of every table at once: 65,536 atoms, 131,072 groups of eight operands and
/// 65,535 rules, each of them a root four times or more.
pub fn at_limits(random: &mut Random) -> Case {
    const ATOMS: u32 = 65_536;
    const GROUPS: u32 = 131_072;
    let mut drawing = Drawing {
        atoms: ATOMS as usize,
        ..Drawing::default()
    };
    for atom in 0..ATOMS {
        drawing.push(Node::Atom(atom));
    }
    let falsum = drawing.push(Node::False);
    // Group g reads atoms below g / 2 + 1, and groups before it.
    for group in 0..GROUPS {
        let operands = (0..8)
            .map(|_| match random.below(4) {
                0 if group > 0 => falsum + 1 + group - 1 - random.index(group.min(50) as usize),
                _ => random.index(group as usize / 2 + 1),
            })
            .collect();
        drawing.push(if random.chance(60) {
            Node::Or(operands)
        } else {
            Node::And(operands)
        });
    }
    for rule in 0..ATOMS - 1 {
        let group = 2 * rule + random.index(2);
        let body = falsum + 1 + group;
        let lowest = group / 2 + 1;
        let head = lowest + random.index((ATOMS - lowest).min(1000) as usize);
        let root = drawing.push(Node::Implies(body, head));
        drawing.roots.extend([root; 4]);
    }
    drawing.roots.extend_from_within(..4);
    let none = Candidate::of_words(vec![0; drawing.words()]);
    let all = Candidate::of_words(vec![u64::MAX; drawing.words()]);
    let mut series = Vec::new();
    for start in [any_candidate(random, &drawing), all, none] {
        series.push(start);
        for count in [1, 8, 64, 8192, 8193, 0, 8192] {
            let last = series.last().expect("a first candidate");
            let next = flipped(random, &drawing, last, count);
            series.push(next);
        }
    }
    Case {
        drawing,
        proposals: vec![vec![0; ATOMS as usize], vec![0; 1]],
        series,
    }
}

/// The longest chain of negations over one atom: a change goes over every node.
pub fn longest_chain() -> Case {
    let mut drawing = Drawing {
        atoms: 1,
        nodes: vec![Node::False, Node::Atom(0)],
        roots: Vec::new(),
    };
    while drawing.nodes.len() < 262_144 {
        let last = drawing.nodes.len() as u32 - 1;
        drawing.push(Node::Implies(last, 0));
    }
    drawing.roots = vec![1, 262_143, 262_142];
    Case {
        drawing,
        proposals: vec![vec![0], vec![1]],
        series: all_candidates(1),
    }
}
