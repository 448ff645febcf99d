//! The comparison of the library, the Rust and document 01 on one input.

use crate::document::{self, Evaluation};
use crate::drawing::{Candidate, Case, Drawing, Encoded, STAMP};
use crate::reference::tight::TightPlan;
use crate::{rust, stable};
use std::fmt::{self, Debug};
use tight::call::{self, Answer, CandidateWords, Lent, Planned, Tables};
use tight::{Check, Counts, Producer, Refusal, Verdict, producers_of_answer};

/// The calls that are compared; the tests put faulty ones in their place.
pub trait Subject {
    fn plan(&self, counts: Counts, tables: Tables<'_>, planned: Planned<'_>) -> Answer;
    fn certify(
        &self,
        counts: Counts,
        tables: Tables<'_>,
        proposed: &[u32],
        planned: Planned<'_>,
    ) -> Answer;
    fn check(
        &self,
        counts: Counts,
        tables: Tables<'_>,
        lent: Lent<'_>,
        candidate: CandidateWords<'_>,
        kept: &mut [u32],
    ) -> Answer;
    fn run(&self, file: &[u8], out: &mut [u8]) -> usize;
}

/// libtight.a.
pub struct Library;

impl Subject for Library {
    fn plan(&self, counts: Counts, tables: Tables<'_>, planned: Planned<'_>) -> Answer {
        call::plan(counts, tables, planned)
    }

    fn certify(
        &self,
        counts: Counts,
        tables: Tables<'_>,
        proposed: &[u32],
        planned: Planned<'_>,
    ) -> Answer {
        call::certify(counts, tables, proposed, planned)
    }

    fn check(
        &self,
        counts: Counts,
        tables: Tables<'_>,
        lent: Lent<'_>,
        candidate: CandidateWords<'_>,
        kept: &mut [u32],
    ) -> Answer {
        call::check(counts, tables, lent, candidate, kept)
    }

    fn run(&self, file: &[u8], out: &mut [u8]) -> usize {
        call::run(file, out)
    }
}

/// A difference: its kind, and what each side says.
#[derive(Clone, Debug)]
pub struct Difference {
    pub kind: String,
    pub detail: String,
}

pub type Compared = Result<(), Difference>;

fn differ(kind: impl Into<String>, detail: impl Into<String>) -> Compared {
    Err(Difference {
        kind: kind.into(),
        detail: detail.into(),
    })
}

/// The library says what the other side says.
pub fn agree<T: PartialEq + Debug + ?Sized>(
    kind: &str,
    side: &str,
    library: &T,
    other: &T,
) -> Compared {
    if library == other {
        return Ok(());
    }
    differ(
        format!("{kind} ({side})"),
        format!("library: {library:?}\n{side}: {other:?}"),
    )
}

/// The verdict by Ferraris's definition, for few atoms: stable or not, all subsets tried; the atom
/// of a residual, each atom taken out alone.
pub fn compare_ferraris(
    drawing: &Drawing,
    candidate: &Candidate,
    verdict: Verdict,
    tally: &mut Tally,
) -> Compared {
    if drawing.atoms > stable::MOST_ATOMS {
        return Ok(());
    }
    tally.brute_force += 1;
    let is_stable = stable::is_stable(drawing, candidate);
    let says_stable = verdict == Verdict::Stable;
    agree("stable", "Ferraris", &says_stable, &is_stable)?;
    if let Verdict::Residual { atom } = verdict {
        tally.taken_out += candidate.atoms().count() as u64;
        let lowest = stable::removable(drawing, candidate).first().copied();
        agree("residual", "Ferraris", &Some(atom as usize), &lowest)?;
    }
    Ok(())
}

/// How often each thing was compared.
#[derive(Clone, Copy, Debug, Default)]
pub struct Tally {
    pub theories: u64,
    pub accepted: u64,
    pub unsupported: u64,
    pub cycles: u64,
    pub proposals: u64,
    pub proposals_accepted: u64,
    pub fresh: u64,
    pub kept: u64,
    pub refused_checks: u64,
    pub lost_roots: u64,
    pub stable: u64,
    pub notmodel: u64,
    pub residual: u64,
    pub brute_force: u64,
    pub taken_out: u64,
    pub damaged: u64,
    pub files: u64,
    pub files_accepted: u64,
    /// By 1 to 8, by 9, by 10 to 12.
    pub files_refused: [u64; 3],
    pub file_checks: u64,
}

impl Tally {
    pub fn add(&mut self, other: &Self) {
        self.theories += other.theories;
        self.accepted += other.accepted;
        self.unsupported += other.unsupported;
        self.cycles += other.cycles;
        self.proposals += other.proposals;
        self.proposals_accepted += other.proposals_accepted;
        self.fresh += other.fresh;
        self.kept += other.kept;
        self.refused_checks += other.refused_checks;
        self.lost_roots += other.lost_roots;
        self.stable += other.stable;
        self.notmodel += other.notmodel;
        self.residual += other.residual;
        self.brute_force += other.brute_force;
        self.taken_out += other.taken_out;
        self.damaged += other.damaged;
        self.files += other.files;
        self.files_accepted += other.files_accepted;
        for (count, other) in self.files_refused.iter_mut().zip(other.files_refused) {
            *count += other;
        }
        self.file_checks += other.file_checks;
    }
}

impl fmt::Display for Tally {
    fn fmt(&self, f: &mut fmt::Formatter<'_>) -> fmt::Result {
        write!(
            f,
            "theories {} (accepted {}, unsupported {}, cycles {}), proposals {} (accepted {}), \
             checks {} (fresh {}, kept {}, refused {}; stable {}, notmodel {}, residual {}), \
             roots lost {}, brute force {} (atoms taken out {}), damaged {}, \
             files {} (accepted {}, refused by 1 to 8 {}, by 9 {}, by 10 to 12 {}; checks {})",
            self.theories,
            self.accepted,
            self.unsupported,
            self.cycles,
            self.proposals,
            self.proposals_accepted,
            self.fresh + self.kept + self.refused_checks,
            self.fresh,
            self.kept,
            self.refused_checks,
            self.stable,
            self.notmodel,
            self.residual,
            self.lost_roots,
            self.brute_force,
            self.taken_out,
            self.damaged,
            self.files,
            self.files_accepted,
            self.files_refused[0],
            self.files_refused[1],
            self.files_refused[2],
            self.file_checks,
        )
    }
}

/// Words behind what is listed, and what the buffers hold before a call.
const TAIL: usize = 3;
const JUNK: u32 = 0xa5a5_5a5a;
const JUNK64: u64 = 0xa5a5_5a5a_0f0f_f0f0;

/// Ranks by definition take a pass an atom; past this many atoms the Rust alone is asked for them.
const MOST_RANKED: usize = 2048;

/// What a planning call wrote.
pub struct Written {
    pub producer_count: usize,
    pub producers: Vec<u32>,
    pub ranks: Vec<u32>,
    pub readers: Vec<u64>,
}

/// Calls the planner on buffers of the listed lengths and some words more, all holding junk, and
/// sees that nothing is written but what is named.
pub fn plan_call(
    subject: &impl Subject,
    encoded: &Encoded,
    proposed: Option<&[u32]>,
) -> Result<Result<Written, Refusal>, Difference> {
    let lengths = encoded.counts.lengths();
    let mut producers = vec![JUNK; lengths.producers + TAIL];
    let mut ranks = vec![JUNK; lengths.ranks + TAIL];
    let mut readers = vec![JUNK64; lengths.readers + TAIL];
    let mut work = vec![JUNK; lengths.work + TAIL];
    let planned = Planned {
        producers: &mut producers,
        ranks: &mut ranks,
        readers: &mut readers,
        work: &mut work,
    };
    let answer = match proposed {
        None => subject.plan(encoded.counts, encoded.tables(), planned),
        Some(ranks) => subject.certify(encoded.counts, encoded.tables(), ranks, planned),
    };
    if work.iter().any(|&word| word != 0) {
        differ("work area (document 01)", "a word of it is not 0")?;
    }
    let told = producers_of_answer(answer);
    let [a, n] = [encoded.counts.atoms, encoded.counts.nodes];
    let [count, written_ranks, written_readers] = match told {
        Ok(count) => [count, a, readers[n + 1 + a] as usize],
        Err(_) => [0; 3],
    };
    let altered = |words: &[u32], from: usize| words.iter().skip(from).any(|&word| word != JUNK);
    if altered(&producers, 4 * count)
        || altered(&ranks, written_ranks)
        || readers
            .iter()
            .skip(written_readers)
            .any(|&word| word != JUNK64)
        || written_readers > lengths.readers
    {
        differ(
            "words not named (document 01)",
            format!("answer {answer:?}: a word is altered"),
        )?;
    }
    Ok(told.map(|producer_count| Written {
        producer_count,
        producers,
        ranks,
        readers,
    }))
}

impl Written {
    fn producers(&self) -> Vec<Producer> {
        let (words, _) = self.producers.as_chunks();
        words[..self.producer_count]
            .iter()
            .map(|&words| Producer::of_words(words))
            .collect()
    }

    /// Producers and ranks.
    fn plan(&self, atoms: usize) -> (Vec<Producer>, Vec<u32>) {
        (self.producers(), self.ranks[..atoms].to_vec())
    }
}

/// One planning call, with ranks proposed or not, on all three sides.
fn compare_plan(
    subject: &impl Subject,
    drawing: &Drawing,
    encoded: &Encoded,
    theory: &crate::reference::Theory,
    proposed: Option<&[u32]>,
) -> Result<Option<(Written, TightPlan)>, Difference> {
    let kind = if proposed.is_some() {
        "certify"
    } else {
        "plan"
    };
    let written = plan_call(subject, encoded, proposed)?;
    let ours = written
        .as_ref()
        .map(|written| written.plan(drawing.atoms))
        .map_err(|refusal| *refusal);
    if drawing.atoms <= MOST_RANKED {
        let document = document::planned(drawing, proposed);
        agree(kind, "document 01", &ours, &document)?;
    }
    let theirs = match proposed {
        None => rust::plan(theory),
        Some(ranks) => rust::certify(theory, ranks),
    };
    let told = theirs
        .as_ref()
        .map(|plan| (rust::producers(plan), rust::ranks(plan)))
        .map_err(|refusal| *refusal);
    agree(kind, "Rust", &ours, &told)?;
    Ok(written.ok().zip(theirs.ok()))
}

/// All rank lists of as many atoms: the derived ones are accepted and least, or none is.
fn compare_all_ranks(
    subject: &impl Subject,
    encoded: &Encoded,
    derived: Option<&[u32]>,
    tally: &mut Tally,
) -> Compared {
    let atoms = encoded.counts.atoms;
    let mut ranks = vec![0; atoms];
    loop {
        let accepted = plan_call(subject, encoded, Some(&ranks))?.is_ok();
        tally.proposals += 1;
        tally.proposals_accepted += u64::from(accepted);
        let least = derived.is_some_and(|derived| derived.iter().zip(&ranks).all(|(d, r)| d <= r));
        if accepted && !least || !accepted && derived == Some(&ranks[..]) {
            return differ(
                "least ranks (document 01)",
                format!("derived {derived:?}, proposed {ranks:?}, accepted {accepted}"),
            );
        }
        let Some(place) = ranks.iter().position(|&rank| rank as usize + 1 < atoms) else {
            return Ok(());
        };
        ranks[place] += 1;
        ranks[..place].fill(0);
    }
}

fn compare_readers(drawing: &Drawing, written: &Written, plan: &TightPlan) -> Compared {
    let (readers, atom_nodes) = document::readers(drawing, &written.producers());
    let list = |slot| call::reader_list(&written.readers, slot).map(<[u64]>::to_vec);
    for (node, readers) in readers.into_iter().enumerate() {
        let ours = list(node);
        agree("reader list", "document 01", &ours, &Some(readers))?;
        agree("reader list", "Rust", &ours, &Some(plan.reader_words(node)))?;
    }
    for (atom, nodes) in atom_nodes.into_iter().enumerate() {
        let ours = list(drawing.nodes.len() + 1 + atom);
        agree("atom nodes", "document 01", &ours, &Some(nodes))?;
        let rust = plan.atom_nodes(atom).iter().map(|&node| node as u64);
        agree("atom nodes", "Rust", &ours, &Some(rust.collect()))?;
    }
    Ok(())
}

/// The words of a set over u64, as the kept evaluation has them over u32.
fn halves(words: &[u64], places: usize) -> Vec<u32> {
    let halves = words
        .iter()
        .flat_map(|&word| [word as u32, (word >> 32) as u32]);
    halves.take(places.div_ceil(32)).collect()
}

/// The library's kept words against what the Rust's workspace keeps.
fn compare_kept(counts: Counts, kept: &[u32], checker: &rust::Checker<'_>) -> Compared {
    let Some(view) = checker.kept() else {
        return differ("kept evaluation (Rust)", "the Rust keeps none");
    };
    let mut rest = &kept[8..];
    let mut part = |length: usize| {
        let (part, behind) = rest.split_at(length);
        rest = behind;
        part.to_vec()
    };
    let truths = part(counts.nodes);
    let worklist = part(counts.nodes.div_ceil(32));
    let support = part(counts.atoms);
    let candidate = part(counts.atoms.div_ceil(32));
    let missing = part(counts.atoms.div_ceil(32));
    let false_roots = part(counts.roots.div_ceil(32));
    let groups = part(counts.nodes.div_ceil(32));
    let rust_truths: Vec<u32> = view.truths.iter().map(|&truth| truth.into()).collect();
    agree("kept truths", "Rust", &truths, &rust_truths)?;
    let first = usize::from(kept[5] as usize != counts.nodes);
    let remembered = usize::from(kept[6] != 0 || kept[7] != 0);
    let pending = first
        + remembered
        + kept[4] as usize
        + worklist
            .iter()
            .chain(&groups)
            .map(|word| word.count_ones() as usize)
            .sum::<usize>();
    agree("worklist", "Rust", &pending, &view.pending)?;
    agree(
        "kept candidate",
        "Rust",
        &candidate,
        &halves(view.candidate, counts.atoms),
    )?;
    if let Some((s, m, missing_count, f, false_count)) = view.summary {
        agree("support", "Rust", &support, &s.to_vec())?;
        agree("missing", "Rust", &missing, &halves(m, counts.atoms))?;
        agree(
            "false roots",
            "Rust",
            &false_roots,
            &halves(f, counts.roots),
        )?;
        let set_sizes = [kept[2] as usize, kept[3] as usize];
        agree(
            "set sizes",
            "Rust",
            &set_sizes,
            &[missing_count, false_count],
        )?;
    }
    Ok(())
}

/// A series of checks by one plan, after which each kept evaluation is that of a fresh check.
struct Series<'a, S> {
    subject: &'a S,
    drawing: &'a Drawing,
    encoded: &'a Encoded,
    lent: Lent<'a>,
    producers: Vec<Producer>,
    plan: &'a TightPlan,
    kept: Vec<u32>,
    last: Option<Evaluation>,
    checker: rust::Checker<'a>,
}

impl<S: Subject> Series<'_, S> {
    fn call(&self, candidate: &Candidate, kept: &mut [u32]) -> Result<Check, Refusal> {
        self.call_on(self.encoded.tables(), candidate, kept)
    }

    fn call_on(
        &self,
        tables: Tables<'_>,
        candidate: &Candidate,
        kept: &mut [u32],
    ) -> Result<Check, Refusal> {
        let candidate = CandidateWords {
            stamp: candidate.stamp(),
            words: &candidate.words,
        };
        let counts = self.encoded.counts;
        let answer = self
            .subject
            .check(counts, tables, self.lent, candidate, kept);
        Check::of_answer(answer)
    }

    fn check(&mut self, candidate: &Candidate, tally: &mut Tally) -> Compared {
        let before = self.kept.clone();
        let mut kept = std::mem::take(&mut self.kept);
        let ours = self.call(candidate, &mut kept);
        self.kept = kept;
        let theirs = self.checker.check(self.drawing, candidate);
        let refusal = document::candidate_refusal(self.drawing.atoms, STAMP, candidate);
        if let Some(refusal) = refusal {
            tally.refused_checks += 1;
            agree("refused check", "document 01", &ours, &Err(refusal))?;
            agree(
                "refused check",
                "Rust",
                &ours.map(|_| ()),
                &theirs.map(|_| ()),
            )?;
            return agree("kept after a refusal", "document 01", &self.kept, &before);
        }
        let new = document::evaluation(self.drawing, &self.producers, candidate);
        let (check, nodes) = document::check(self.drawing, self.last.as_ref(), &new);
        let ours = match ours {
            Ok(ours) => ours,
            Err(refusal) => return differ("check (document 01)", format!("refused: {refusal:?}")),
        };
        agree("verdict", "document 01", &ours.verdict, &check.verdict)?;
        agree("nodes gone over", "document 01", &ours.nodes, &check.nodes)?;
        let (verdict, taken) = match theirs {
            Ok(theirs) => theirs,
            Err(refusal) => return differ("check (Rust)", format!("refused: {refusal:?}")),
        };
        agree("verdict", "Rust", &ours.verdict, &verdict)?;
        let fresh = match &self.last {
            Some(last) => !document::is_kept(self.drawing, &last.candidate, candidate),
            None => true,
        };
        if fresh {
            tally.fresh += 1;
            agree("heap of a fresh check", "Rust", &Vec::new(), &taken)?;
        } else {
            tally.kept += 1;
            agree("nodes that the heap gives out", "Rust", &nodes, &taken)?;
        }
        let words = new.kept_words(self.encoded.counts);
        let listed = words.len();
        agree(
            "kept words",
            "document 01",
            &self.kept[..listed],
            &words[..],
        )?;
        if self.kept[listed..].iter().any(|&word| word != JUNK) {
            return differ("words not named (document 01)", "behind the kept words");
        }
        compare_kept(self.encoded.counts, &self.kept, &self.checker)?;
        self.compare_fresh(candidate, ours.verdict)?;
        if let Some(&position) = new.false_roots.first() {
            tally.lost_roots += 1;
            self.compare_lost(candidate, position, &before)?;
        }
        match ours.verdict {
            Verdict::Stable => tally.stable += 1,
            Verdict::NotModel { .. } => tally.notmodel += 1,
            Verdict::Residual { .. } => tally.residual += 1,
        }
        compare_ferraris(self.drawing, candidate, ours.verdict, tally)?;
        self.last = Some(new);
        Ok(())
    }

    /// The last check again, on the kept words before it, on those after it and on zeroed ones, while
    /// the first false root, at this position, is no node: 17, place 0, and the kept words are zero.
    fn compare_lost(&self, candidate: &Candidate, position: usize, before: &[u32]) -> Compared {
        let listed = self.encoded.counts.lengths().kept;
        let mut cleared = before.to_vec();
        cleared[..listed].fill(0);
        for root in [self.drawing.nodes.len() as u32, u32::MAX] {
            let mut roots = self.encoded.roots.clone();
            roots[position] = root;
            let tables = Tables {
                roots: &roots,
                ..self.encoded.tables()
            };
            for words in [before, &self.kept, &cleared] {
                let mut kept = words.to_vec();
                let lost = self.call_on(tables, candidate, &mut kept);
                let entry = Err(Refusal::Entry { node: 0 });
                agree("root that is no node", "document 01", &lost, &entry)?;
                agree("kept after 17", "document 01", &kept, &cleared)?;
            }
        }
        Ok(())
    }

    /// A check of the same candidate on zeroed words: the same words, verdict and all nodes. The
    /// Rust's fresh summary is read from a second check of the same candidate.
    fn compare_fresh(&self, candidate: &Candidate, verdict: Verdict) -> Compared {
        let mut kept = vec![0; self.encoded.counts.lengths().kept];
        let fresh = self.call(candidate, &mut kept);
        let nodes = self.drawing.nodes.len() as u64;
        agree(
            "fresh check",
            "document 01",
            &fresh,
            &Ok(Check { verdict, nodes }),
        )?;
        agree(
            "kept words of a fresh check",
            "document 01",
            &self.kept[..kept.len()],
            &kept[..],
        )?;
        let mut checker = rust::Checker::new(self.plan);
        for _ in 0..2 {
            checker
                .check(self.drawing, candidate)
                .map_err(|refusal| Difference {
                    kind: "check (Rust)".into(),
                    detail: format!("refused: {refusal:?}"),
                })?;
        }
        compare_kept(self.encoded.counts, &kept, &checker)
    }
}

/// Compares everything on one input.
pub fn compare(subject: &impl Subject, case: &Case, tally: &mut Tally) -> Compared {
    let drawing = &case.drawing;
    let encoded = Encoded::new(drawing);
    let theory = rust::theory(drawing);
    tally.theories += 1;
    let planned = compare_plan(subject, drawing, &encoded, &theory, None)?;
    let supported = document::producers(drawing, &document::classes(drawing)).is_ok();
    match &planned {
        Some(_) => tally.accepted += 1,
        None if supported => tally.cycles += 1,
        None => tally.unsupported += 1,
    }
    for ranks in &case.proposals {
        let certified = compare_plan(subject, drawing, &encoded, &theory, Some(ranks))?;
        tally.proposals += 1;
        tally.proposals_accepted += u64::from(certified.is_some());
    }
    if drawing.atoms <= 3 && supported {
        let derived = planned
            .as_ref()
            .map(|(written, _)| &written.ranks[..drawing.atoms]);
        compare_all_ranks(subject, &encoded, derived, tally)?;
    }
    let Some((written, plan)) = planned else {
        return Ok(());
    };
    compare_readers(drawing, &written, &plan)?;
    let mut kept = vec![0; encoded.counts.lengths().kept];
    kept.resize(kept.len() + TAIL, JUNK);
    let mut series = Series {
        subject,
        drawing,
        encoded: &encoded,
        lent: Lent {
            stamp: STAMP,
            producer_count: written.producer_count,
            producers: &written.producers,
            readers: &written.readers,
        },
        producers: written.producers(),
        plan: &plan,
        kept,
        last: None,
        checker: rust::Checker::new(&plan),
    };
    for candidate in &case.series {
        series.check(candidate, tally)?;
    }
    Ok(())
}
