//! Stable models as Ferraris (2005) defines them, by trying every proper subset; atoms that can be
//! taken out of a candidate alone, by trying each.

use crate::document;
use crate::drawing::{Candidate, Drawing, Node};

/// The most atoms for which it is tried.
pub const MOST_ATOMS: usize = 10;

/// Bit s of number j: whether subset s has present atom j.
const LANES: [u64; 6] = [
    0xaaaa_aaaa_aaaa_aaaa,
    0xcccc_cccc_cccc_cccc,
    0xf0f0_f0f0_f0f0_f0f0,
    0xff00_ff00_ff00_ff00,
    0xffff_0000_ffff_0000,
    0xffff_ffff_0000_0000,
];

/// Whether the candidate satisfies every root and no proper subset satisfies the reduct, 64 subsets
/// at a time.
pub fn is_stable(drawing: &Drawing, candidate: &Candidate) -> bool {
    let truths = document::truths(drawing, candidate);
    if drawing.roots.iter().any(|&root| !truths[root as usize]) {
        return false;
    }
    let present: Vec<usize> = candidate.atoms().collect();
    let subsets = 1_u64 << present.len();
    let mut block = 0;
    while 64 * block < subsets {
        let here = (subsets - 64 * block).min(64);
        let mut lanes = u64::MAX >> (64 - here);
        if 64 * block + here == subsets {
            // the candidate itself is no proper subset
            lanes &= !(1 << (here - 1));
        }
        let has = |place: usize| match place {
            place if place < 6 => LANES[place],
            place if block >> (place - 6) & 1 != 0 => u64::MAX,
            _ => 0,
        };
        if lanes & reduct_holds(drawing, &truths, &present, has) != 0 {
            return false;
        }
        block += 1;
    }
    true
}

/// The atoms of the candidate that can be taken out alone: what is left satisfies the candidate's
/// reduct. Each is tried.
pub fn removable(drawing: &Drawing, candidate: &Candidate) -> Vec<usize> {
    let truths = document::truths(drawing, candidate);
    let present: Vec<usize> = candidate.atoms().collect();
    // subset number j lacks present atom j
    let holds = reduct_holds(drawing, &truths, &present, |place| !(1 << place));
    let lone = present.iter().enumerate();
    lone.filter(|&(place, _)| holds >> place & 1 != 0)
        .map(|(_, &atom)| atom)
        .collect()
}

/// In which of 64 subsets of the candidate every root's reduct is satisfied; `has` tells in which
/// of them the present atom of that number is.
fn reduct_holds(
    drawing: &Drawing,
    truths: &[bool],
    present: &[usize],
    has: impl Fn(usize) -> u64,
) -> u64 {
    let mut reduct: Vec<u64> = Vec::with_capacity(drawing.nodes.len());
    for (node, &truth) in drawing.nodes.iter().zip(truths) {
        let value = |operand: &u32| reduct[*operand as usize];
        reduct.push(match node {
            _ if !truth => 0,
            Node::Atom(atom) => {
                let place = present.iter().position(|&a| a == *atom as usize);
                has(place.expect("a true atom is present"))
            }
            Node::False => 0,
            Node::Implies(left, right) => !value(left) | value(right),
            Node::And(operands) => operands.iter().map(value).fold(u64::MAX, |a, b| a & b),
            Node::Or(operands) => operands.iter().map(value).fold(0, |a, b| a | b),
        });
    }
    let roots = drawing.roots.iter();
    roots.fold(u64::MAX, |holds, &root| holds & reduct[root as usize])
}

#[cfg(test)]
mod tests {
    use super::*;

    fn of(words: u64) -> Candidate {
        Candidate::of_words(vec![words])
    }

    /// 0 from its double negation.
    fn doubled() -> Drawing {
        Drawing {
            atoms: 1,
            nodes: vec![
                Node::Atom(0),
                Node::False,
                Node::Implies(0, 1),
                Node::Implies(2, 1),
                Node::Implies(3, 0),
            ],
            roots: vec![4],
        }
    }

    #[test]
    fn double_negation_is_free() {
        let drawing = doubled();
        assert!(is_stable(&drawing, &of(0)));
        assert!(is_stable(&drawing, &of(1)));
    }

    #[test]
    fn a_disjunction_is_minimal() {
        let drawing = Drawing {
            atoms: 2,
            nodes: vec![Node::Atom(0), Node::Atom(1), Node::Or(vec![0, 1])],
            roots: vec![2],
        };
        let stable: Vec<bool> = (0..4)
            .map(|words| is_stable(&drawing, &of(words)))
            .collect();
        assert_eq!(stable, [false, true, true, false]);
    }

    /// A loop of eight atoms is not founded; with a fact it is.
    #[test]
    fn subsets_past_one_block() {
        let mut drawing = Drawing {
            atoms: 8,
            ..Drawing::default()
        };
        for atom in 0..8 {
            drawing.push(Node::Atom(atom));
        }
        for atom in 0..8 {
            let rule = drawing.push(Node::Implies(atom, (atom + 1) % 8));
            drawing.roots.push(rule);
        }
        assert!(!is_stable(&drawing, &of(255)));
        drawing.roots.push(6);
        assert!(is_stable(&drawing, &of(255)));
    }

    /// The empty set satisfies the roots, but not the reduct under {0}.
    #[test]
    fn by_the_reduct_not_by_the_roots() {
        assert_eq!(removable(&doubled(), &of(1)), []);
    }

    /// 1 from 0 with {0, 1}: 0 has no rule, and 1 cannot go without it.
    #[test]
    fn the_atom_without_a_rule_is_removable() {
        let drawing = Drawing {
            atoms: 2,
            nodes: vec![Node::Atom(0), Node::Atom(1), Node::Implies(0, 1)],
            roots: vec![2],
        };
        assert_eq!(removable(&drawing, &of(3)), [0]);
        assert_eq!(removable(&drawing, &of(2)), [1]);
    }

    /// 0 from 0 has no ranks: 1 has no rule, yet 0 below it can be taken out.
    #[test]
    fn a_loop_is_removable() {
        let drawing = Drawing {
            atoms: 2,
            nodes: vec![Node::Atom(0), Node::Atom(1), Node::Implies(0, 0)],
            roots: vec![2],
        };
        assert_eq!(removable(&drawing, &of(3)), [0, 1]);
    }
}
