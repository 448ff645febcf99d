//! The stack that tight.h promises for the calls on tables: the least one of a thread is enough.

use std::thread;
use tight::call::{CandidateWords, Counts, Lent, Planned, Tables, certify, check, plan};

/// The least stack of a thread (`PTHREAD_STACK_MIN`).
const STACK: usize = 16 * 1024;

/// Each atom from the one before it, at the most atoms, and an And over some of them.
fn chain() -> (Counts, [Vec<u32>; 3]) {
    let atoms = 65_536;
    let mut nodes: Vec<u32> = (0..atoms).flat_map(|atom| [0, atom, 0]).collect();
    nodes.extend((1..atoms).flat_map(|head| [2, head - 1, head]));
    nodes.extend([3, 0, 1000]);
    let operands: Vec<u32> = (0..1000).collect();
    let roots: Vec<u32> = (atoms..2 * atoms - 1).chain([0]).collect();
    let counts = Counts {
        stamp: 7,
        atoms: atoms as usize,
        nodes: nodes.len() / 3,
        operands: operands.len(),
        roots: roots.len(),
    };
    (counts, [nodes, operands, roots])
}

/// Runs on a thread with the least stack; a call that needs more ends the process.
fn on_least_stack<T: Send>(run: impl FnOnce() -> T + Send) -> T {
    thread::scope(|scope| {
        let thread = thread::Builder::new().stack_size(STACK);
        let thread = thread.spawn_scoped(scope, run).expect("a thread");
        thread.join().expect("no panic")
    })
}

#[test]
fn calls_on_tables_run_on_the_least_stack() {
    let (counts, [nodes, operands, roots]) = chain();
    let tables = Tables {
        nodes: &nodes,
        operands: &operands,
        roots: &roots,
    };
    let lengths = counts.lengths();
    let (mut producers, mut ranks) = (vec![0; lengths.producers], vec![0; lengths.ranks]);
    let (mut readers, mut work) = (vec![0; lengths.readers], vec![0; lengths.work]);
    let mut proposed: Option<Vec<u32>> = None;
    for _ in 0..2 {
        let planned = Planned {
            producers: &mut producers,
            ranks: &mut ranks,
            readers: &mut readers,
            work: &mut work,
        };
        let answer = on_least_stack(|| match &proposed {
            None => plan(counts, tables, planned),
            Some(ranks) => certify(counts, tables, ranks, planned),
        });
        assert_eq!((answer.refusal(), answer.producers()), (0, counts.roots));
        proposed = Some(ranks.clone());
    }
    let lent = Lent {
        stamp: 7,
        producer_count: counts.roots,
        producers: &producers,
        readers: &readers,
    };
    let mut kept = vec![0; lengths.kept];
    let mut words = vec![u64::MAX; lengths.candidate];
    for visited in [counts.nodes, 0, 4] {
        if visited == 4 {
            words[0] ^= 2;
        }
        let candidate = CandidateWords {
            stamp: 7,
            words: &words,
        };
        let answer = on_least_stack(|| check(counts, tables, lent, candidate, &mut kept));
        assert_eq!((answer.refusal(), answer.visited()), (0, visited as u64));
    }
}
