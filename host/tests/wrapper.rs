//! The wrapper on document 01's example, drawings and small inputs.

use tight::{Candidate, Check, Head, Node, Producer, Refusal, Theory, Verdict};

/// Document 01's example: a choice of atom 0, and atom 1 from atom 0.
fn example() -> Theory {
    let mut theory = Theory::new(7, 2);
    theory.push(Node::Atom(0));
    theory.push(Node::Atom(1));
    theory.push(Node::Implies(0, 1));
    theory.push(Node::False);
    theory.push(Node::Implies(0, 3));
    theory.push(Node::Or(&[0, 4]));
    theory.root(5);
    theory.root(2);
    theory
}

fn checks(theory: &Theory, candidates: &[&[u32]]) -> Vec<(Verdict, u64)> {
    let plan = theory.plan().expect("planned");
    let mut checker = plan.checker();
    candidates
        .iter()
        .map(|atoms| {
            let candidate = Candidate::of_atoms(theory, atoms).expect("atoms of the theory");
            let Check { verdict, nodes } = checker.check(&candidate).expect("accepted");
            (verdict, nodes)
        })
        .collect()
}

#[test]
fn example_is_planned() {
    let theory = example();
    let plan = theory.plan().expect("planned");
    assert_eq!(plan.ranks(), [0, 1]);
    let producers: Vec<_> = plan.producers().collect();
    let choice = Producer {
        head: 0,
        body: None,
        root: 5,
        kind: Head::Choice,
    };
    let rule = Producer {
        head: 1,
        body: Some(0),
        root: 2,
        kind: Head::Normal,
    };
    assert_eq!(producers, [choice, rule]);
    assert_eq!(plan.readers_of(0), Some(&[2, 4, 5, 2 << 62 | 1][..]));
    assert_eq!(plan.readers_of(5), Some(&[3 << 62][..]));
    assert_eq!(plan.readers_of(6), None);
    assert_eq!(plan.atom_nodes(1), Some(&[1][..]));
    assert_eq!(plan.atom_nodes(2), None);
}

#[test]
fn example_is_checked() {
    assert_eq!(
        checks(&example(), &[&[1], &[0, 1], &[0], &[]]),
        [
            (Verdict::Residual { atom: 1 }, 6),
            (Verdict::Stable, 4),
            (Verdict::NotModel { root: 2 }, 2),
            (Verdict::Stable, 4),
        ]
    );
}

#[test]
fn ranks_are_certified() {
    let theory = example();
    assert_eq!(theory.certify(&[0, 1]).expect("certified").ranks(), [0, 1]);
    assert_eq!(theory.certify(&[0, 2]).err(), Some(Refusal::RankShape));
    assert_eq!(theory.certify(&[0]).err(), Some(Refusal::RankShape));
    assert_eq!(
        theory.certify(&[0, 0]).err(),
        Some(Refusal::RankOrder { head: 1 })
    );
}

#[test]
fn a_refused_check_alters_nothing() {
    let theory = example();
    let plan = theory.plan().expect("planned");
    let mut checker = plan.checker();
    let own = Candidate::of_atoms(&theory, &[0, 1]).expect("atoms of the theory");
    checker.check(&own).expect("accepted");
    let kept = checker.kept().to_vec();
    for (candidate, refusal) in [
        (Candidate::of_words(8, vec![1]), Refusal::Stamp),
        (Candidate::of_words(7, vec![4]), Refusal::Beyond { atom: 2 }),
        (
            Candidate::of_words(7, Vec::new()),
            Refusal::Buffer { number: 0 },
        ),
    ] {
        assert_eq!(checker.check(&candidate), Err(refusal));
        assert_eq!(checker.kept(), kept);
    }
    assert_eq!(checker.check(&own).expect("accepted").nodes, 0);
    assert_eq!(
        Candidate::of_atoms(&theory, &[0, 3, 2]),
        Err(Refusal::Beyond { atom: 2 })
    );
}

/// A theory of these nodes and roots, and what its planning refuses.
fn refusal(atoms: usize, nodes: &[Node<'_>], roots: &[u32]) -> Option<Refusal> {
    let mut theory = Theory::new(1, atoms);
    for &node in nodes {
        theory.push(node);
    }
    for &root in roots {
        theory.root(root);
    }
    theory.plan().err()
}

#[test]
fn plans_are_refused() {
    use Node::{And, Atom, Implies};
    let two = [Atom(0), Atom(1)];
    assert_eq!(refusal(2, &[Atom(2)], &[]), Some(Refusal::Atom { node: 0 }));
    assert_eq!(
        refusal(2, &[Implies(0, 0)], &[]),
        Some(Refusal::Operand { node: 0 })
    );
    assert_eq!(
        refusal(2, &[And(&[])], &[]),
        Some(Refusal::Empty { node: 0 })
    );
    assert_eq!(
        refusal(2, &two, &[0, 2]),
        Some(Refusal::Root { position: 1 })
    );
    assert_eq!(refusal(65_537, &[], &[]), Some(Refusal::Limit { table: 0 }));
    assert_eq!(
        refusal(2, &[Atom(0), Atom(1), And(&[0, 1])], &[2]),
        Some(Refusal::UnsupportedRoot { root: 2 })
    );
    // C6
    let nodes = [Atom(0), Atom(1), Implies(0, 1), Atom(2), Implies(2, 3)];
    assert_eq!(
        refusal(3, &nodes, &[4]),
        Some(Refusal::UnsupportedBody { root: 4, body: 2 })
    );
    // C5
    let nodes = [
        Atom(0),
        Atom(1),
        Atom(2),
        Implies(2, 1),
        Implies(1, 2),
        Implies(1, 0),
    ];
    assert_eq!(
        refusal(3, &nodes, &[3, 4, 5]),
        Some(Refusal::PositiveCycle { atom: 0 })
    );
}

#[test]
fn drawings_c7_to_c9() {
    let mut double = Theory::new(1, 1);
    double.push(Node::Atom(0));
    double.push(Node::False);
    double.push(Node::Implies(0, 1));
    double.push(Node::Implies(2, 1));
    double.push(Node::Implies(3, 0));
    double.root(4);
    assert_eq!(
        checks(&double, &[&[], &[0]]),
        [(Verdict::Stable, 5), (Verdict::Stable, 4)]
    );
    assert_eq!(
        checks(&Theory::new(1, 1), &[&[], &[0]]),
        [(Verdict::Stable, 0), (Verdict::Residual { atom: 0 }, 0)]
    );
    let mut falsum = Theory::new(1, 0);
    falsum.push(Node::False);
    falsum.root(0);
    assert_eq!(
        checks(&falsum, &[&[]]),
        [(Verdict::NotModel { root: 0 }, 1)]
    );
}

#[test]
fn example_file_is_run() {
    let file = include_bytes!("../../crates/tightcheck/stdin");
    let text = include_bytes!("../../crates/tightcheck/stdout");
    let mut out = [0; 200];
    assert_eq!(tight::call::run(file, &mut out), text.len());
    assert_eq!(out[..text.len()], text[..]);
    assert_eq!(tight::call::run(file, &mut [0; 106]), 0);
}
