//! The harness finds faults: each is found in random inputs and shrunk to a small one.

use crate::compare::{Library, Subject, Tally, compare, compare_ferraris, plan_call};
use crate::damage::Damaged;
use crate::drawing::{Candidate, Encoded, STAMP};
use crate::file::{self, counted, encoded};
use crate::random::Random;
use crate::{EXAMPLE, document, generate, generate_file, run, rust, shrink};
use tight::call::{Answer, CandidateWords, LIMITS, Lent, Planned, Tables};
use tight::{Counts, Verdict};

#[derive(Clone, Copy, Debug, PartialEq)]
enum Fault {
    /// Another atom is named for a cycle.
    Cycle,
    /// One rank is not the least.
    Rank,
    /// A choice is a plain head.
    Kind,
    /// Two readers change places.
    Readers,
    /// Ranks in the wrong order are accepted.
    Order,
    /// A word of the work area is left.
    Work,
    /// A word behind the ranks is written.
    Behind,
    /// Every candidate is stable.
    Stable,
    /// Another root than the first false one is named.
    Root,
    /// Another atom than the lowest without a producer is named.
    Atom,
    /// One node more is counted in a kept check.
    Count,
    /// Every check is fresh.
    Fresh,
    /// A support count is one too high after a kept check.
    Support,
    /// A foreign candidate is checked.
    Foreign,
    /// A refused check forgets the last one.
    Forgets,
    /// A root that is no node is told as the theory's last node.
    Lost,
    /// And or Or without operands is refused as a span; not in `FAULTS`, as only damage meets it.
    Empty,
}

const FAULTS: [Fault; 16] = [
    Fault::Cycle,
    Fault::Rank,
    Fault::Kind,
    Fault::Readers,
    Fault::Order,
    Fault::Work,
    Fault::Behind,
    Fault::Stable,
    Fault::Root,
    Fault::Atom,
    Fault::Count,
    Fault::Fresh,
    Fault::Support,
    Fault::Foreign,
    Fault::Forgets,
    Fault::Lost,
];

impl Subject for Fault {
    fn plan(&self, counts: Counts, tables: Tables<'_>, planned: Planned<'_>) -> Answer {
        let Planned {
            producers,
            ranks,
            readers,
            work,
        } = planned;
        let lent = Planned {
            producers: &mut *producers,
            ranks: &mut *ranks,
            readers: &mut *readers,
            work: &mut *work,
        };
        let mut answer = Library.plan(counts, tables, lent);
        match self {
            Fault::Cycle if answer.refusal() == 12 => answer.0 += 1 << 8,
            Fault::Rank if answer.refusal() == 0 && counts.atoms > 1 => ranks[1] += 1,
            Fault::Kind if answer.refusal() == 0 && answer.producers() > 0 => producers[3] = 0,
            Fault::Readers if answer.refusal() == 0 => {
                let start = readers[0] as usize;
                let end = readers[1] as usize;
                if end - start >= 2 {
                    readers.swap(start, start + 1);
                }
            }
            Fault::Work => work[15] = 1,
            Fault::Empty if answer.refusal() == 6 => answer.0 -= 1,
            Fault::Behind if answer.refusal() == 0 => ranks[counts.atoms] = 0,
            _ => {}
        }
        answer
    }

    fn certify(
        &self,
        counts: Counts,
        tables: Tables<'_>,
        proposed: &[u32],
        planned: Planned<'_>,
    ) -> Answer {
        let Planned {
            producers,
            ranks,
            readers,
            work,
        } = planned;
        let lent = Planned {
            producers: &mut *producers,
            ranks: &mut *ranks,
            readers: &mut *readers,
            work: &mut *work,
        };
        let answer = Library.certify(counts, tables, proposed, lent);
        if *self == Fault::Order && answer.refusal() == 14 {
            let lent = Planned {
                producers,
                ranks,
                readers,
                work,
            };
            return Library.plan(counts, tables, lent);
        }
        answer
    }

    fn check(
        &self,
        counts: Counts,
        tables: Tables<'_>,
        lent: Lent<'_>,
        mut candidate: CandidateWords<'_>,
        kept: &mut [u32],
    ) -> Answer {
        let last = counts.nodes.saturating_sub(1) as u32;
        let nodes: Vec<u32> = tables.roots.iter().map(|&root| root.min(last)).collect();
        let mut tables = tables;
        match self {
            Fault::Fresh => kept[0] = 0,
            Fault::Foreign => candidate.stamp = counts.stamp,
            Fault::Lost => tables.roots = &nodes,
            _ => {}
        }
        let was_kept = kept[0] == 1;
        let mut answer = Library.check(counts, tables, lent, candidate, kept);
        let (accepted, visited) = (answer.refusal() == 0, answer.visited());
        match self {
            Fault::Stable if accepted => answer = Answer::checked([0, 0, visited]),
            Fault::Root if accepted && answer.verdict() == 1 => {
                let last = *tables.roots.last().expect("a false root");
                answer = Answer::checked([1, last.into(), visited]);
            }
            Fault::Atom if accepted && answer.verdict() == 2 => {
                let highest = candidate.words.iter().rposition(|&word| word != 0);
                let highest = highest.expect("an atom");
                let bit = candidate.words[highest].ilog2() as usize;
                answer = Answer::checked([2, (64 * highest + bit) as u64, visited]);
            }
            Fault::Count if accepted && was_kept => answer.0 += 1 << 40,
            Fault::Support if accepted && was_kept => {
                kept[8 + counts.nodes + counts.nodes.div_ceil(32)] += 1;
            }
            Fault::Forgets if !accepted => kept[0] = 0,
            _ => {}
        }
        answer
    }

    fn run(&self, file: &[u8], out: &mut [u8]) -> usize {
        Library.run(file, out)
    }
}

#[test]
fn faults_are_found_and_shrunk() {
    for fault in FAULTS {
        let mut random = Random::new(1);
        let mut inputs = (0..2000).map(|_| generate::random(&mut random));
        let (case, difference) = inputs
            .find_map(|case| {
                let difference = compare(&fault, &case, &mut Tally::default()).err()?;
                Some((case, difference))
            })
            .unwrap_or_else(|| panic!("{fault:?} is not found"));
        let (small, told) = shrink::shrink(&fault, case, difference.clone());
        assert_eq!(told.kind, difference.kind, "{fault:?}");
        let (nodes, series) = (small.drawing.nodes.len(), small.series.len());
        assert!(nodes <= 8 && series <= 3, "{fault:?}: {small}");
    }
}

#[test]
fn the_library_has_none() {
    let mut random = Random::new(2);
    let mut tally = Tally::default();
    for _ in 0..300 {
        let case = generate::random(&mut random);
        compare(&Library, &case, &mut tally).expect("no difference");
        Damaged::draw(&mut random)
            .compare(&Library)
            .expect("no difference");
    }
    assert!(tally.accepted > 200 && tally.stable > 100 && tally.kept > 1000);
}

/// Document 01's example, {0} checked twice, and its second root no node the second time.
#[test]
fn a_root_lost_between_checks_is_17() {
    let theory = file::TheoryFile::read(EXAMPLE).expect("a sound file");
    let encoded = Encoded::new(&theory.drawing);
    let written = plan_call(&Library, &encoded, None).expect("no difference");
    let written = written.expect("planned");
    let check = |roots: &[u32], kept: &mut [u32]| {
        let lent = Lent {
            stamp: STAMP,
            producer_count: written.producer_count,
            producers: &written.producers,
            readers: &written.readers,
        };
        let candidate = CandidateWords {
            stamp: STAMP,
            words: &[1],
        };
        let tables = Tables {
            roots,
            ..encoded.tables()
        };
        Library.check(encoded.counts, tables, lent, candidate, kept)
    };
    let mut kept = vec![0; encoded.counts.lengths().kept];
    let zeroed = kept.clone();
    assert_eq!(check(&[5, 2], &mut kept), Answer::checked([1, 2, 6]));
    assert_ne!(kept, zeroed);
    assert_eq!(
        check(&[5, u32::MAX], &mut kept),
        Answer::refused([17, 0, 0])
    );
    assert_eq!(kept, zeroed);
    assert_eq!(
        check(&[5, u32::MAX], &mut kept),
        Answer::refused([17, 0, 0])
    );
    assert_eq!(kept, zeroed);
}

/// Document 01's example, {1}: Ferraris's definition alone tells residual 1 from another atom.
#[test]
fn a_residual_with_another_atom_is_found() {
    let theory = file::TheoryFile::read(EXAMPLE).expect("a sound file");
    let one = Candidate::of_words(vec![2]);
    let mut tally = Tally::default();
    let mut residual = |atom| {
        let verdict = Verdict::Residual { atom };
        compare_ferraris(&theory.drawing, &one, verdict, &mut tally)
    };
    residual(1).expect("no difference");
    assert_eq!(residual(0).unwrap_err().kind, "residual (Ferraris)");
    assert_eq!((tally.brute_force, tally.taken_out), (2, 2));
}

#[test]
fn a_fault_is_found_by_damage() {
    let mut random = Random::new(5);
    let (damaged, difference) = (0..20_000)
        .find_map(|_| {
            let damaged = Damaged::draw(&mut random);
            let difference = damaged.compare(&Fault::Empty).err()?;
            Some((damaged, difference))
        })
        .expect("found");
    let smallest = damaged.smallest(&Fault::Empty, &difference.kind, &mut random);
    assert!(smallest.compare(&Fault::Empty).is_err());
}

/// Damage reaches every refusal that tables and calls can have.
#[test]
fn damage_reaches_every_refusal() {
    struct Seen(std::cell::RefCell<Vec<u64>>);
    impl Seen {
        fn saw(&self, answer: Answer) -> Answer {
            self.0.borrow_mut().push(answer.refusal());
            answer
        }
    }
    impl Subject for Seen {
        fn plan(&self, counts: Counts, tables: Tables<'_>, planned: Planned<'_>) -> Answer {
            self.saw(Library.plan(counts, tables, planned))
        }
        fn certify(
            &self,
            counts: Counts,
            tables: Tables<'_>,
            proposed: &[u32],
            planned: Planned<'_>,
        ) -> Answer {
            self.saw(Library.certify(counts, tables, proposed, planned))
        }
        fn check(
            &self,
            counts: Counts,
            tables: Tables<'_>,
            lent: Lent<'_>,
            candidate: CandidateWords<'_>,
            kept: &mut [u32],
        ) -> Answer {
            self.saw(Library.check(counts, tables, lent, candidate, kept))
        }
        fn run(&self, file: &[u8], out: &mut [u8]) -> usize {
            Library.run(file, out)
        }
    }
    let seen = Seen(Vec::new().into());
    let mut random = Random::new(3);
    for _ in 0..5000 {
        Damaged::draw(&mut random)
            .compare(&seen)
            .expect("no difference");
    }
    let seen = seen.0.into_inner();
    for number in [0, 1, 3, 4, 5, 6, 7, 9, 10, 11, 12, 13, 14, 15, 16, 17] {
        assert!(seen.contains(&number), "{number} is not reached");
    }
}

#[test]
fn the_limits_are_reached() {
    let case = generate::at_limits(&mut Random::new(4));
    let counts = Encoded::new(&case.drawing).counts;
    assert_eq!(counts.numbers(), LIMITS);
    assert_eq!(generate::longest_chain().drawing.nodes.len(), LIMITS[1]);
}

/// Document 01's example and its small inputs for refusals, with the texts it gives.
#[test]
fn files_are_read_as_document_01_says() {
    let stored = include_str!("../../../../crates/tightcheck/stdout");
    let head = encoded(b"TH", &[7, 2]);
    let atom = encoded(b"NA", &[0]);
    let file = |records: &[&[u8]]| [&[&head[..]], records].concat().concat();
    let most: Vec<u8> = file(&[&counted(b"CA", &[]).repeat(10_921)]);
    assert_eq!(most.len(), file::MOST_BYTES);
    let cases = [
        (EXAMPLE.to_vec(), stored),
        (vec![], "refused 1 0\n"),
        (b"T".to_vec(), "refused 2 0\n"),
        (b"TH123".to_vec(), "refused 2 0\n"),
        (b"RT".to_vec(), "refused 1 0\n"),
        (
            file(&[]),
            "th 7 atoms 2 nodes 0 roots 0 producers 0\nranks 0 0\n",
        ),
        (
            encoded(b"TH", &[u32::MAX, 0]),
            "th 4294967295 atoms 0 nodes 0 roots 0 producers 0\nranks\n",
        ),
        (file(&[&head]), "refused 1 1\n"),
        (file(&[b"CA\0\0\0\0", b"RT"]), "refused 1 2\n"),
        (file(&[&atom, b"N"]), "refused 2 2\n"),
        (encoded(b"TH", &[0, 65_537]), "refused 3 0\n"),
        (encoded(b"TH", &[0, 65_536]), "refused 9 0\n"),
        (file(&[&encoded(b"NA", &[2])]), "refused 4 1\n"),
        (file(&[&encoded(b"NI", &[0, 0])]), "refused 5 1\n"),
        (file(&[&counted(b"NC", &[])]), "refused 6 1\n"),
        (file(&[&encoded(b"NC", &[u32::MAX])]), "refused 2 1\n"),
        (file(&[&encoded(b"RT", &[0])]), "refused 7 1\n"),
        (file(&[&counted(b"CA", &[1, 1])]), "refused 8 1\n"),
        (file(&[&counted(b"CA", &[1, 1, 2])]), "refused 4 1\n"),
        (file(&[&b"NF".repeat(1025)]), "refused 9 1\n"),
        (file(&[&atom, &counted(b"NC", &[0; 1025])]), "refused 9 2\n"),
        (
            file(&[&atom, &encoded(b"RT", &[0]).repeat(513)]),
            "refused 9 3\n",
        ),
        ([&most[..], b"C"].concat(), "refused 3 65536\n"),
        (vec![0; file::MOST_BYTES], "refused 1 0\n"),
    ];
    for (file, text) in cases {
        assert_eq!(file::text(&file, document::told), text);
        assert_eq!(file::text(&file, rust::told), text);
        run::compare(&Library, &file, &mut Tally::default()).expect("no difference");
    }
    let mut tally = Tally::default();
    run::compare(&Library, &most, &mut tally).expect("no difference");
    assert_eq!(tally.file_checks, 10_921);
}

#[derive(Clone, Copy, Debug)]
enum FileFault {
    /// Another record or node is named.
    Place,
    /// An atom too high in a candidate is told as atoms not rising.
    Order,
    /// The last check's nodes are one too many.
    Nodes,
    /// A byte behind the text is written.
    Behind,
    /// An output that is too short takes the text's front.
    Short,
    /// A text that just fits is refused.
    Fits,
}

impl FileFault {
    /// The library's text, changed.
    fn changed(self, file: &[u8]) -> String {
        let mut out = vec![0; 1 << 19];
        let length = Library.run(file, &mut out);
        let text = String::from_utf8(out[..length].to_vec()).expect("ASCII");
        let numbers: Vec<u64> = text.split([' ', '\n']).flat_map(str::parse).collect();
        match (self, numbers.first()) {
            (Self::Place, Some(5)) if text.starts_with("refused") => {
                format!("refused 5 {}\n", numbers[1] + 1)
            }
            (Self::Order, Some(4)) if text.starts_with("refused") => {
                format!("refused 8 {}\n", numbers[1])
            }
            (Self::Nodes, _) if text.lines().count() > 3 => {
                let end = text.rfind(' ').expect("a line of a check");
                format!("{} {}\n", &text[..end], numbers[numbers.len() - 1] + 1)
            }
            _ => text,
        }
    }
}

impl Subject for FileFault {
    fn plan(&self, counts: Counts, tables: Tables<'_>, planned: Planned<'_>) -> Answer {
        Library.plan(counts, tables, planned)
    }
    fn certify(
        &self,
        counts: Counts,
        tables: Tables<'_>,
        proposed: &[u32],
        planned: Planned<'_>,
    ) -> Answer {
        Library.certify(counts, tables, proposed, planned)
    }
    fn check(
        &self,
        counts: Counts,
        tables: Tables<'_>,
        lent: Lent<'_>,
        candidate: CandidateWords<'_>,
        kept: &mut [u32],
    ) -> Answer {
        Library.check(counts, tables, lent, candidate, kept)
    }

    fn run(&self, file: &[u8], out: &mut [u8]) -> usize {
        let text = self.changed(file);
        if text.len() > out.len() || matches!(self, Self::Fits) && text.len() == out.len() {
            if matches!(self, Self::Short) {
                out.copy_from_slice(&text.as_bytes()[..out.len()]);
            }
            return 0;
        }
        out[..text.len()].copy_from_slice(text.as_bytes());
        if matches!(self, Self::Behind) && text.len() < out.len() {
            out[text.len()] = 0;
        }
        text.len()
    }
}

/// The smallest files: nothing, a head alone, a head and a short record or two.
#[test]
fn file_faults_are_found_and_shrunk() {
    for (fault, most) in [
        (FileFault::Place, 20),
        (FileFault::Order, 20),
        (FileFault::Nodes, 24),
        (FileFault::Behind, 0),
        (FileFault::Short, 0),
        (FileFault::Fits, 0),
    ] {
        let mut random = Random::new(1);
        let mut files = (0..5000).map(|_| {
            let theory = generate_file::sound(&mut random);
            generate_file::damaged(&mut random, &theory)
        });
        let (file, difference) = files
            .find_map(|file| {
                let difference = run::compare(&fault, &file, &mut Tally::default()).err()?;
                Some((file, difference))
            })
            .unwrap_or_else(|| panic!("{fault:?} is not found"));
        let (small, told) = run::shrink(&fault, file, difference.clone());
        assert_eq!(told.kind, difference.kind, "{fault:?}");
        assert!(small.len() <= most, "{fault:?}: {}", run::hex(&small));
    }
}

/// Files reach every refusal of a run with each of its kinds of place, and texts longer than files.
#[test]
fn files_reach_every_text() {
    let mut random = Random::new(6);
    let mut tally = Tally::default();
    let mut texts = Vec::new();
    for number in 0..6000 {
        let theory = match number % 40 {
            0 => generate_file::near_room(&mut random),
            _ => generate_file::sound(&mut random),
        };
        let file = match number % 80 {
            0..30 => theory.records().concat(),
            41 if number % 10 == 1 => generate_file::long(&mut random),
            _ => generate_file::damaged(&mut random, &theory),
        };
        run::compare(&Library, &file, &mut tally).expect("no difference");
        texts.push(file::text(&file, rust::told));
    }
    for number in 1..=12 {
        let start = format!("refused {number} ");
        let reached = texts.iter().any(|text| text.starts_with(&start));
        assert!(reached, "{number} is not reached");
    }
    for line in ["9 0", "9 1", "9 2", "9 3", "3 65536", "3 0", "1 0", "2 0"] {
        let line = format!("refused {line}\n");
        assert!(texts.contains(&line), "not reached: {line}");
    }
    let full = " atoms 512 nodes 1024 roots 512 ";
    assert!(texts.iter().any(|text| text.contains(full)));
    assert!(texts.iter().any(|text| text.len() > file::MOST_BYTES));
    assert!(tally.files_accepted > 2000 && tally.file_checks > 10_000);
}
