//! Choice heads by document 01's rule: an Or of two operands in either order, an Atom node n and an
//! Implies from n to a False node.

use super::{NodeView, Theory};

pub fn atom(theory: &Theory, head: usize) -> Option<usize> {
    let node = |index| theory.view().node(index).ok();
    let NodeView::Or(&[left, right]) = node(head)? else {
        return None;
    };
    [(left, right), (right, left)]
        .into_iter()
        .find_map(|(plain, negated)| match (node(plain)?, node(negated)?) {
            (NodeView::Atom(atom), NodeView::Implies(from, to))
                if from == plain && node(to)? == NodeView::False =>
            {
                Some(atom)
            }
            _ => None,
        })
}
