//! Both sides on one input: first that they agree, then their times.

use crate::drawing::{Candidate, Encoded, STAMP};
use crate::random::Random;
use crate::reference::Interpretation;
use crate::reference::algebra::Cancellation;
use crate::reference::tight::{TightPlan, TightWorkspace};
use crate::rust::{self, CHECK_LIMITS};
use crate::shapes::{self, Input};
use std::hint::black_box;
use std::time::{Duration, Instant};
use tight::call::{self, Answer, CandidateWords, Lent, Planned};
use tight::{Check, Producer, Verdict, producers_of_answer};

/// Medians of both sides, in nanoseconds.
#[derive(Clone, Copy, Debug)]
pub struct Times {
    pub ours: f64,
    pub rust: f64,
}

impl Times {
    pub fn ratio(self) -> f64 {
        self.ours / self.rust
    }
}

/// The fewest runs of a measure in a pass.
const RUNS: usize = 5;

/// The most runs of a measure in a pass.
const MOST_RUNS: usize = 20_001;

/// Changed candidates of a series; between each two stands the base.
const CHANGES: usize = 16;

fn median(times: &mut [f64]) -> f64 {
    times.sort_by(f64::total_cmp);
    times[times.len() / 2]
}

fn nanoseconds(time: Duration) -> f64 {
    time.as_secs_f64() * 1e9
}

fn timed<T>(run: impl FnOnce() -> T) -> (f64, T) {
    let start = Instant::now();
    let value = run();
    (nanoseconds(start.elapsed()), value)
}

/// The time of the second of two runs; the first one warms the caches for it.
fn warmed<T>(mut run: impl FnMut() -> (f64, T)) -> (f64, T) {
    run();
    run()
}

/// Runs `round`, which gives one time a column, until `least` has passed; the first one is not taken.
fn medians<const N: usize>(least: Duration, mut round: impl FnMut() -> [f64; N]) -> [f64; N] {
    round();
    let mut columns = [const { Vec::new() }; N];
    let start = Instant::now();
    while columns[0].len() < RUNS || (start.elapsed() < least && columns[0].len() < MOST_RUNS) {
        for (column, time) in columns.iter_mut().zip(round()) {
            column.push(time);
        }
    }
    columns.map(|mut column| median(&mut column))
}

/// Our side: tables, plan and kept evaluation in buffers that are made once.
struct Ours {
    tables: Encoded,
    producer_count: usize,
    producers: Vec<u32>,
    ranks: Vec<u32>,
    readers: Vec<u64>,
    work: Vec<u32>,
    kept: Vec<u32>,
}

impl Ours {
    fn new(input: &Input) -> Self {
        let tables = Encoded::new(&input.drawing);
        assert!(tables.counts.within_limits(), "{:?}", tables.counts);
        let lengths = tables.counts.lengths();
        let mut ours = Self {
            tables,
            producer_count: 0,
            producers: vec![0; lengths.producers],
            ranks: vec![0; lengths.ranks],
            readers: vec![0; lengths.readers],
            work: vec![0; lengths.work],
            kept: vec![0; lengths.kept],
        };
        ours.producer_count = producers_of_answer(ours.plan()).expect("a theory that is planned");
        ours
    }

    fn plan(&mut self) -> Answer {
        let planned = Planned {
            producers: &mut self.producers,
            ranks: &mut self.ranks,
            readers: &mut self.readers,
            work: &mut self.work,
        };
        call::plan(self.tables.counts, self.tables.tables(), planned)
    }

    fn check(&mut self, candidate: &Candidate) -> Answer {
        let lent = Lent {
            stamp: STAMP,
            producer_count: self.producer_count,
            producers: &self.producers,
            readers: &self.readers,
        };
        let candidate = CandidateWords {
            stamp: STAMP,
            words: &candidate.words,
        };
        let (counts, tables) = (self.tables.counts, self.tables.tables());
        call::check(counts, tables, lent, candidate, &mut self.kept)
    }

    /// Holds no check any more.
    fn forget(&mut self) {
        self.kept.fill(0);
    }
}

/// The Rust: plan, workspace, and a second plan whose check makes the workspace forget.
struct Theirs {
    plan: TightPlan,
    workspace: TightWorkspace,
    other: TightPlan,
}

impl Theirs {
    fn new(input: &Input) -> Self {
        let other = shapes::chain(8).drawing;
        Self {
            plan: rust::plan(&rust::theory(&input.drawing)).expect("a theory that is planned"),
            workspace: TightWorkspace::default(),
            other: rust::plan(&rust::theory(&other)).expect("a theory that is planned"),
        }
    }

    fn interpretation(&self, candidate: &Candidate) -> Interpretation {
        Interpretation::new(self.plan.theory(), candidate.atoms()).expect("atoms of the theory")
    }

    fn check(&mut self, candidate: &Interpretation) -> Verdict {
        let checked = self
            .workspace
            .check(&self.plan, candidate, CHECK_LIMITS, &Cancellation);
        rust::verdict(checked.result.expect("an accepted check").verdict)
    }

    /// Holds no check of the plan any more; what it allocated stays.
    fn forget(&mut self) {
        let none = Interpretation::new(self.other.theory(), None).expect("no atoms");
        let checked = self
            .workspace
            .check(&self.other, &none, CHECK_LIMITS, &Cancellation);
        checked.result.expect("an accepted check");
    }
}

/// A series of candidates for both sides, and what is known of it.
struct Series {
    words: Vec<Candidate>,
    interpretations: Vec<Interpretation>,
    /// Nodes gone over a check, on the average.
    nodes: f64,
}

pub struct Both {
    ours: Ours,
    theirs: Theirs,
    input: Input,
    least: Duration,
}

impl Both {
    /// Both sides of an input, which agree on producers, ranks and readers.
    pub fn new(input: Input, least: Duration) -> Self {
        let ours = Ours::new(&input);
        let theirs = Theirs::new(&input);
        let (words, _) = ours.producers.as_chunks();
        let producers: Vec<_> = words[..ours.producer_count]
            .iter()
            .map(|&words| Producer::of_words(words))
            .collect();
        assert_eq!(producers, rust::producers(&theirs.plan), "producers");
        assert_eq!(ours.ranks, rust::ranks(&theirs.plan), "ranks");
        let counts = ours.tables.counts;
        for node in 0..counts.nodes {
            let list = call::reader_list(&ours.readers, node).expect("a list");
            assert_eq!(list, theirs.plan.reader_words(node), "readers of {node}");
        }
        for atom in 0..counts.atoms {
            let list = call::reader_list(&ours.readers, counts.nodes + 1 + atom).expect("a list");
            let nodes = theirs.plan.atom_nodes(atom);
            assert!(
                list.iter()
                    .copied()
                    .eq(nodes.iter().map(|&node| node as u64)),
                "atom nodes of {atom}"
            );
        }
        Self {
            ours,
            theirs,
            input,
            least,
        }
    }

    pub fn counts(&self) -> tight::Counts {
        self.ours.tables.counts
    }

    /// The check of one candidate by both sides, which must agree.
    fn agreed(&mut self, candidate: &Candidate, interpretation: &Interpretation) -> Check {
        let check = Check::of_answer(self.ours.check(candidate)).expect("an accepted check");
        assert_eq!(check.verdict, self.theirs.check(interpretation), "verdict");
        check
    }

    /// Planning: the Rust without admission, then with it.
    pub fn plan(&mut self) -> [Times; 2] {
        let Self { ours, input, .. } = self;
        let [ours, built, admitted] = medians(self.least, || {
            let (build, admission) = warmed(|| {
                let columns = rust::columns(&input.drawing);
                let (admission, theory) = timed(|| rust::admit(black_box(columns)));
                let (build, plan) = timed(|| rust::plan(black_box(&theory)));
                drop(black_box(plan));
                (build, admission)
            });
            let (mine, answer) = warmed(|| timed(|| ours.plan()));
            assert_eq!(black_box(answer).refusal(), 0);
            [mine, build, admission + build]
        });
        [built, admitted].map(|rust| Times { ours, rust })
    }

    /// A fresh check of the base; and that with a kept check of the same candidate after it, for
    /// which the Rust makes the counts that a fresh check of ours has made.
    pub fn fresh(&mut self) -> [Times; 2] {
        let candidate = self.input.base.clone();
        let interpretation = self.theirs.interpretation(&candidate);
        for _ in 0..2 {
            self.ours.forget();
            self.theirs.forget();
            let check = self.agreed(&candidate, &interpretation);
            assert_eq!(check.verdict, Verdict::Stable, "the base");
            assert_eq!(check.nodes as usize, self.counts().nodes, "a fresh check");
        }
        let Self { ours, theirs, .. } = self;
        let [mine, mine_again, rust, rust_again] = medians(self.least, || {
            let (mine, mine_again) = warmed(|| {
                ours.forget();
                let mut check = || timed(|| _ = black_box(ours.check(black_box(&candidate)))).0;
                let first = check();
                (first, first + check())
            });
            let (rust, rust_again) = warmed(|| {
                theirs.forget();
                let (first, _) = timed(|| black_box(theirs.check(black_box(&interpretation))));
                let (second, _) = timed(|| black_box(theirs.check(black_box(&interpretation))));
                (first, first + second)
            });
            [mine, mine_again, rust, rust_again]
        });
        [(mine, rust), (mine_again, rust_again)].map(|(ours, rust)| Times { ours, rust })
    }

    /// A series that goes from the base to a candidate with `changes` atoms changed and back, and
    /// again; both sides agree on it.
    fn series(&mut self, changes: usize) -> Series {
        let mut random = Random::new(changes as u64);
        let mut words = Vec::new();
        for _ in 0..CHANGES {
            let mut changed = self.input.base.clone();
            let mut free = self.input.free.clone();
            for _ in 0..changes {
                let atom = free.swap_remove(random.below(free.len()));
                changed.flip(atom as usize);
            }
            words.extend([changed, self.input.base.clone()]);
        }
        let interpretations = words.iter();
        let interpretations: Vec<_> = interpretations
            .map(|candidate| self.theirs.interpretation(candidate))
            .collect();
        self.agreed(&words[1], &interpretations[1]);
        let mut nodes = 0;
        for (candidate, interpretation) in words.iter().zip(&interpretations) {
            nodes += self.agreed(candidate, interpretation).nodes;
        }
        Series {
            nodes: nodes as f64 / words.len() as f64,
            words,
            interpretations,
        }
    }

    /// A kept check with so many changed atoms, and the nodes that it goes over on the average.
    pub fn kept(&mut self, changes: usize) -> (Times, f64) {
        let series = self.series(changes);
        let Self { ours, theirs, .. } = self;
        let [ours, rust] = medians(self.least, || {
            let (mine, ()) = warmed(|| {
                timed(|| {
                    for candidate in &series.words {
                        black_box(ours.check(black_box(candidate)));
                    }
                })
            });
            let (rust, ()) = warmed(|| {
                timed(|| {
                    for interpretation in &series.interpretations {
                        black_box(theirs.check(black_box(interpretation)));
                    }
                })
            });
            [mine, rust].map(|time| time / series.words.len() as f64)
        });
        (Times { ours, rust }, series.nodes)
    }
}
