//! A smaller input with the same kind of difference.

use crate::compare::{Compared, Difference, Subject, Tally, compare};
use crate::drawing::{Case, Drawing, Node};
use std::panic::{AssertUnwindSafe, catch_unwind};
use std::time::{Duration, Instant};

/// How long smaller inputs are tried.
const TIME: Duration = Duration::from_secs(60);

/// Compares one input.
pub fn compared(subject: &impl Subject, case: &Case, tally: &mut Tally) -> Compared {
    caught(|| compare(subject, case, tally))
}

/// A panic of a side is a difference too.
pub fn caught(compare: impl FnOnce() -> Compared) -> Compared {
    catch_unwind(AssertUnwindSafe(compare)).unwrap_or_else(|_| {
        Err(Difference {
            kind: "panic".into(),
            detail: "a side panicked".into(),
        })
    })
}

/// The drawing without node `gone` and its places in groups and roots; none if an Implies reads it
/// or a group has nothing else.
fn without_node(drawing: &Drawing, gone: usize) -> Option<Drawing> {
    let mut new = Drawing {
        atoms: drawing.atoms,
        ..Drawing::default()
    };
    let moved = |node: u32| match (node as usize).cmp(&gone) {
        std::cmp::Ordering::Less => Some(node),
        std::cmp::Ordering::Equal => None,
        std::cmp::Ordering::Greater => Some(node - 1),
    };
    let group = |operands: &[u32]| -> Option<Vec<u32>> {
        let left: Vec<u32> = operands.iter().filter_map(|&node| moved(node)).collect();
        (!left.is_empty()).then_some(left)
    };
    for (index, node) in drawing.nodes.iter().enumerate() {
        if index != gone {
            new.nodes.push(match node {
                Node::Implies(left, right) => Node::Implies(moved(*left)?, moved(*right)?),
                Node::And(operands) => Node::And(group(operands)?),
                Node::Or(operands) => Node::Or(group(operands)?),
                plain => plain.clone(),
            });
        }
    }
    new.roots = drawing
        .roots
        .iter()
        .filter_map(|&root| moved(root))
        .collect();
    Some(new)
}

/// A list without each of its parts, long parts first.
pub fn without_parts<T: Clone>(values: &[T]) -> impl Iterator<Item = Vec<T>> + '_ {
    let mut sizes = vec![];
    let mut size = values.len();
    while size > 0 {
        sizes.push(size);
        size /= 2;
    }
    sizes.into_iter().flat_map(move |size| {
        (0..values.len()).step_by(size).map(move |start| {
            let mut left = values.to_vec();
            left.drain(start..(start + size).min(values.len()));
            left
        })
    })
}

/// Smaller inputs, large steps first.
pub fn smaller(case: &Case) -> impl Iterator<Item = Case> + '_ {
    let series = without_parts(&case.series).map(|series| Case {
        series,
        ..case.clone()
    });
    let proposals = without_parts(&case.proposals).map(|proposals| Case {
        proposals,
        ..case.clone()
    });
    let roots = without_parts(&case.drawing.roots).map(|roots| {
        let mut case = case.clone();
        case.drawing.roots = roots;
        case
    });
    let nodes = (0..case.drawing.nodes.len()).rev().filter_map(|gone| {
        Some(Case {
            drawing: without_node(&case.drawing, gone)?,
            ..case.clone()
        })
    });
    let operands = (0..case.drawing.nodes.len()).flat_map(move |index| {
        let operands = case.drawing.nodes[index].operands();
        (0..operands.len().saturating_sub(1)).map(move |place| {
            let mut case = case.clone();
            if let Node::And(operands) | Node::Or(operands) = &mut case.drawing.nodes[index] {
                operands.remove(place);
            }
            case
        })
    });
    let bits = (0..case.series.len()).flat_map(move |place| {
        case.series[place].atoms().map(move |atom| {
            let mut case = case.clone();
            case.series[place].flip(atom);
            case
        })
    });
    let used = |atom: u32| case.drawing.nodes.contains(&Node::Atom(atom));
    let last = case.drawing.atoms as u32;
    let atoms = (last > 1 && !used(last - 1)).then(|| {
        let mut case = case.clone();
        case.drawing.atoms -= 1;
        let words = case.drawing.words();
        for candidate in &mut case.series {
            candidate.words.truncate(words);
        }
        for ranks in &mut case.proposals {
            ranks.truncate(last as usize - 1);
        }
        case
    });
    series
        .chain(proposals)
        .chain(roots)
        .chain(nodes)
        .chain(operands)
        .chain(atoms)
        .chain(bits)
}

/// The smallest input found with a difference of the same kind.
pub fn shrink(subject: &impl Subject, case: Case, difference: Difference) -> (Case, Difference) {
    smallest(
        case,
        difference,
        |case| Box::new(smaller(case)),
        |case| compared(subject, case, &mut Tally::default()),
    )
}

/// Goes to a smaller input with a difference of the same kind as long as there is one.
pub fn smallest<T>(
    input: T,
    difference: Difference,
    smaller: impl Fn(&T) -> Box<dyn Iterator<Item = T> + '_>,
    compared: impl Fn(&T) -> Compared,
) -> (T, Difference) {
    let (mut best, mut told) = (input, difference);
    let start = Instant::now();
    loop {
        let found = smaller(&best)
            .take_while(|_| start.elapsed() < TIME)
            .find_map(|input| {
                let difference = compared(&input).err()?;
                (difference.kind == told.kind).then_some((input, difference))
            });
        match found {
            Some(smaller) => (best, told) = smaller,
            None => return (best, told),
        }
    }
}
