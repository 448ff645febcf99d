//! Damaged tables, short buffers and wrong stamps against document 01's refusals and their order.

use crate::compare::{Compared, Subject, agree};
use crate::drawing::{Candidate, Case, Encoded, STAMP};
use crate::random::Random;
use crate::{document, generate};
use tight::call::{CandidateWords, LIMITS, Lent, Planned, Tables};
use tight::{Check, Counts, Refusal, Verdict, producers_of_answer};

/// What the buffers hold before a call.
const JUNK: u32 = 0x5a5a_a5a5;
const JUNK64: u64 = 0x0f0f_f0f0_5a5a_a5a5;

/// Inputs drawn after a difference for a smaller one.
const MORE: usize = 20_000;

/// Lent lengths of the buffers that a call writes, and of the kept words.
#[derive(Clone, Copy, Debug)]
struct Lengths {
    producers: usize,
    ranks: usize,
    readers: usize,
    work: usize,
    kept: usize,
}

/// Lent tables that need not be a theory, and a check on them.
#[derive(Debug)]
pub struct Damaged {
    counts: Counts,
    nodes: Vec<u32>,
    operands: Vec<u32>,
    roots: Vec<u32>,
    lengths: Lengths,
    proposed: Option<Vec<u32>>,
    candidate: Candidate,
    plan_stamp: u32,
    /// Words written over roots, plan and kept words before the first check or after it.
    rewritten: Vec<Rewritten>,
}

/// A word written over all that a check reads of what was there before it, by its place in it.
#[derive(Clone, Copy, Debug)]
struct Rewritten {
    after: bool,
    place: u64,
    word: u32,
}

impl Rewritten {
    fn write(self, words: [&mut [u32]; 3], readers: &mut [u64]) {
        let [roots, producers, kept] = words;
        let lengths = [roots.len(), producers.len(), kept.len(), readers.len()];
        let mut place = self.place as usize % lengths.iter().sum::<usize>().max(1);
        for words in [roots, producers, kept] {
            if let Some(word) = words.get_mut(place) {
                *word = self.word;
                return;
            }
            place -= words.len();
        }
        if let Some(reader) = readers.get_mut(place) {
            *reader = self.word.into();
        }
    }
}

fn number(random: &mut Random) -> u32 {
    match random.below(8) {
        0 => u32::MAX,
        1 => 65_536,
        2 => random.word() as u32,
        _ => random.index(12),
    }
}

fn shorten<T>(random: &mut Random, words: &mut Vec<T>) {
    let length = words.len();
    words.truncate(length - random.below(length + 1).min(1 + random.below(4)));
}

fn rewrite(random: &mut Random, words: &mut [u32]) {
    if !words.is_empty() {
        let place = random.below(words.len());
        words[place] = number(random);
    }
}

impl Damaged {
    /// A random input with some damage.
    pub fn draw(random: &mut Random) -> Self {
        let case = loop {
            let case = generate::random(random);
            if case.drawing.atoms <= 40 {
                break case;
            }
        };
        let Case {
            drawing,
            mut proposals,
            mut series,
        } = case;
        let encoded = Encoded::new(&drawing);
        let listed = encoded.counts.lengths();
        let mut damaged = Self {
            counts: encoded.counts,
            nodes: encoded.nodes,
            operands: encoded.operands,
            roots: encoded.roots,
            lengths: Lengths {
                producers: listed.producers,
                ranks: listed.ranks,
                readers: listed.readers,
                work: listed.work,
                kept: listed.kept,
            },
            proposed: proposals.pop().filter(|_| random.chance(50)),
            candidate: series.pop().expect("a series has candidates"),
            plan_stamp: STAMP,
            rewritten: Vec::new(),
        };
        for _ in 0..random.below(4) {
            let less = 1 + random.below(3);
            match random.below(18) {
                0..3 => rewrite(random, &mut damaged.nodes),
                3 => rewrite(random, &mut damaged.operands),
                4 => rewrite(random, &mut damaged.roots),
                5 => shorten(random, &mut damaged.nodes),
                6 => shorten(random, &mut damaged.operands),
                7 => shorten(random, &mut damaged.roots),
                8 => shorten(random, &mut damaged.candidate.words),
                9..11 => {
                    let table = random.below(4);
                    let counts = &mut damaged.counts;
                    let count = [
                        &mut counts.atoms,
                        &mut counts.nodes,
                        &mut counts.operands,
                        &mut counts.roots,
                    ];
                    *count.into_iter().nth(table).expect("four counts") = match random.below(8) {
                        0 => usize::MAX,
                        1 => LIMITS[table] + 1,
                        2 => LIMITS[table],
                        _ => random.below(12),
                    };
                }
                11 => damaged.lengths.producers = damaged.lengths.producers.saturating_sub(less),
                12 => damaged.lengths.ranks = damaged.lengths.ranks.saturating_sub(less),
                13 => damaged.lengths.readers = damaged.lengths.readers.saturating_sub(less),
                14 => damaged.lengths.work = damaged.lengths.work.saturating_sub(less),
                15 => damaged.lengths.kept = damaged.lengths.kept.saturating_sub(less),
                16 => damaged.plan_stamp = number(random),
                _ => damaged.rewritten.push(Rewritten {
                    after: random.chance(50),
                    place: random.word(),
                    word: number(random),
                }),
            }
        }
        damaged
    }

    /// The smallest of more inputs with a difference of this kind, or this one.
    pub fn smallest(self, subject: &impl Subject, kind: &str, random: &mut Random) -> Self {
        let size =
            |damaged: &Self| damaged.nodes.len() + damaged.operands.len() + damaged.roots.len();
        let same = |damaged: &Self| {
            let difference = damaged.compare(subject).err();
            difference.is_some_and(|difference| difference.kind == kind)
        };
        let drawn = (0..MORE).map(|_| Self::draw(random)).filter(same);
        drawn.fold(self, |least, damaged| {
            if size(&damaged) < size(&least) {
                damaged
            } else {
                least
            }
        })
    }

    fn lent(&self) -> Tables<'_> {
        Tables {
            nodes: &self.nodes,
            operands: &self.operands,
            roots: &self.roots,
        }
    }

    /// 3, then 9 over the buffers that a call takes besides the tables, in document 01's order.
    fn first_refusal(
        &self,
        before: &[(u64, usize, usize)],
        after: &[(u64, usize, usize)],
    ) -> Option<Refusal> {
        document::limit_refusal(self.counts).or_else(|| {
            let listed = self.counts.lengths();
            let tables = [
                (1, listed.nodes, self.nodes.len()),
                (2, listed.operands, self.operands.len()),
                (3, listed.roots, self.roots.len()),
            ];
            document::buffer_refusal(&[before, &tables, after].concat())
        })
    }

    /// Number of producers, or the refusal, that document 01 gives a planning call.
    fn planned(&self) -> Result<usize, Refusal> {
        let listed = self.counts.lengths();
        let after = [
            (4, listed.producers, self.lengths.producers),
            (5, listed.ranks, self.lengths.ranks),
            (6, listed.readers, self.lengths.readers),
            (8, listed.work, self.lengths.work),
        ];
        if let Some(refusal) = self.first_refusal(&[], &after) {
            return Err(refusal);
        }
        let drawing = document::admitted(self.counts, self.lent())?;
        let (producers, _) = document::planned(&drawing, self.proposed.as_deref())?;
        Ok(producers.len())
    }

    /// Compares a planning call and two checks after it.
    pub fn compare(&self, subject: &impl Subject) -> Compared {
        let mut producers = vec![JUNK; self.lengths.producers];
        let mut ranks = vec![JUNK; self.lengths.ranks];
        let mut readers = vec![JUNK64; self.lengths.readers];
        let mut work = vec![JUNK; self.lengths.work];
        let planned = Planned {
            producers: &mut producers,
            ranks: &mut ranks,
            readers: &mut readers,
            work: &mut work,
        };
        let answer = match &self.proposed {
            None => subject.plan(self.counts, self.lent(), planned),
            Some(ranks) => subject.certify(self.counts, self.lent(), ranks, planned),
        };
        let ours = producers_of_answer(answer);
        agree("damaged plan", "document 01", &ours, &self.planned())?;
        let zero = work.iter().all(|&word| word == 0);
        agree("work area", "document 01", &zero, &true)?;
        if ours.is_err() {
            let same = producers.iter().chain(&ranks).all(|&word| word == JUNK)
                && readers.iter().all(|&word| word == JUNK64);
            agree("a refusal alters nothing", "document 01", &same, &true)?;
        }
        self.check(subject, ours.unwrap_or(0), producers, readers)
    }

    /// Two checks on what the plan left: their tests before 17, and what holds of them on any words.
    fn check(
        &self,
        subject: &impl Subject,
        producer_count: usize,
        mut producers: Vec<u32>,
        mut readers: Vec<u64>,
    ) -> Compared {
        let mut roots = self.roots.clone();
        let mut kept = vec![0; self.lengths.kept];
        let refusal = self.check_refusal(producers.len(), readers.len());
        for after in [false, true] {
            for rewritten in self.rewritten.iter().filter(|word| word.after == after) {
                rewritten.write([&mut roots, &mut producers, &mut kept], &mut readers);
            }
            let old = kept.clone();
            let answer = subject.check(
                self.counts,
                Tables {
                    roots: &roots,
                    ..self.lent()
                },
                Lent {
                    stamp: self.plan_stamp,
                    producer_count,
                    producers: &producers,
                    readers: &readers,
                },
                CandidateWords {
                    stamp: self.candidate.stamp(),
                    words: &self.candidate.words,
                },
                &mut kept,
            );
            let ours = Check::of_answer(answer);
            if let Some(refusal) = refusal {
                agree("damaged check", "document 01", &ours, &Err(refusal))?;
                agree("kept after a refusal", "document 01", &kept, &old)?;
            } else {
                self.any_words(ours, &kept, &old)?;
            }
        }
        Ok(())
    }

    /// What the tests of a check before 17 refuse.
    fn check_refusal(&self, producers: usize, readers: usize) -> Option<Refusal> {
        let listed = self.counts.lengths();
        let before = [(0, listed.candidate, self.candidate.words.len())];
        let after = [
            (4, listed.producers, producers),
            (6, listed.readers, readers),
            (7, listed.kept, self.lengths.kept),
        ];
        self.first_refusal(&before, &after).or_else(|| {
            let mut candidate = self.candidate.clone();
            candidate.words.truncate(listed.candidate);
            document::candidate_refusal(self.counts.atoms, self.plan_stamp, &candidate)
        })
    }

    /// What holds of a check on any words that those tests let pass: it names what there is and
    /// visits no more nodes than there are, or it is 17 and the kept words are zero.
    fn any_words(&self, ours: Result<Check, Refusal>, kept: &[u32], old: &[u32]) -> Compared {
        let (listed, behind) = kept.split_at(self.counts.lengths().kept);
        match ours {
            Ok(Check { verdict, nodes }) => {
                let named = match verdict {
                    Verdict::Stable => true,
                    Verdict::NotModel { root } => root < self.counts.nodes as u64,
                    Verdict::Residual { atom } => atom < self.counts.atoms as u64,
                };
                agree("a check names what there is", "document 01", &named, &true)?;
                let visited = nodes <= self.counts.nodes as u64;
                agree("nodes visited", "document 01", &visited, &true)?;
            }
            Err(refusal) => {
                let [number, ..] = refusal.numbers();
                agree("damaged check", "document 01", &number, &17)?;
                let cleared = listed.iter().all(|&word| word == 0);
                agree("kept after 17", "document 01", &cleared, &true)?;
            }
        }
        let old = &old[listed.len()..];
        agree("behind the kept words", "document 01", behind, old)
    }
}
