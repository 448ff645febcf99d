//! Compares libtight.a with the Rust that it is carried over from, with document 01 read a second
//! time, and with Ferraris's definition.
//!
//! `differ SEED COUNT`: all small theories of a few shapes, COUNT random ones, series across the
//! bound between kept and fresh, theories at the limits (after each notmodel also a check whose first
//! false root is no node any more), COUNT damaged tables; then theory files:
//! document 01's example with every byte changed and every end cut, COUNT sound ones and COUNT
//! damaged ones, some near a run's room, some long. It stops at the first difference, tells the
//! smallest input it found, and ends with a line of counts and status 1.

mod compare;
mod damage;
mod document;
#[path = "../../shared/drawing.rs"]
mod drawing;
mod file;
mod generate;
mod generate_file;
mod heap;
#[path = "../../shared/random.rs"]
mod random;
#[path = "../../shared/reference/mod.rs"]
mod reference;
mod run;
#[path = "../../shared/rust.rs"]
mod rust;
mod shrink;
mod stable;
#[cfg(test)]
mod tests;

use compare::{Difference, Library, Tally};
use damage::Damaged;
use drawing::Case;
use random::Random;
use std::process::ExitCode;

/// The most nodes of the small tables over 0, 1, 2 and 3 atoms.
const SMALL: [u32; 4] = [3, 3, 4, 3];

/// Atoms at which the bound between kept and fresh, or a last word, changes.
const BOUNDARIES: [usize; 16] = [
    1, 63, 64, 65, 127, 128, 129, 511, 512, 513, 519, 520, 521, 528, 1000, 4096,
];

/// Document 01's example.
const EXAMPLE: &[u8] = include_bytes!("../../../../crates/tightcheck/stdin");

/// Files for each one near a run's room, and for each long one.
const NEAR: u64 = 50;
const LONG: u64 = 1000;

/// Longer text of a difference is cut.
const SHOWN: usize = 4000;

fn report(difference: &Difference, input: &str) {
    let detail: String = difference.detail.chars().take(SHOWN).collect();
    println!("difference: {}\n{detail}\n{input}", difference.kind);
}

/// Tallies by group of inputs.
struct Run {
    tally: Tally,
    total: Tally,
    differs: bool,
}

impl Run {
    /// Compares one input; answers whether to go on.
    fn case(&mut self, case: Case) -> bool {
        if let Err(difference) = shrink::compared(&Library, &case, &mut self.tally) {
            let (case, difference) = shrink::shrink(&Library, case, difference);
            report(&difference, &case.to_string());
            self.differs = true;
        }
        !self.differs
    }

    /// Compares one damaged input; after a difference, more are drawn for a smaller one.
    fn damaged(&mut self, random: &mut Random) -> bool {
        self.tally.damaged += 1;
        let damaged = Damaged::draw(random);
        if let Err(difference) = damaged.compare(&Library) {
            let smallest = damaged.smallest(&Library, &difference.kind, random);
            let told = smallest.compare(&Library).err().unwrap_or(difference);
            report(&told, &format!("{smallest:#?}"));
            self.differs = true;
        }
        !self.differs
    }

    /// Compares the run of one file.
    fn file(&mut self, file: Vec<u8>) -> bool {
        if let Err(difference) = run::compared(&Library, &file, &mut self.tally) {
            let (file, difference) = run::shrink(&Library, file, difference);
            report(&difference, &run::hex(&file));
            self.differs = true;
        }
        !self.differs
    }

    /// Runs one group, unless a difference is found already.
    fn group(&mut self, name: &str, compare: impl FnOnce(&mut Self) -> bool) {
        if self.differs {
            return;
        }
        compare(self);
        println!("{name}: {}", self.tally);
        self.total.add(&std::mem::take(&mut self.tally));
    }
}

fn main() -> ExitCode {
    let numbers: Vec<Option<u64>> = std::env::args()
        .skip(1)
        .map(|argument| argument.parse().ok())
        .collect();
    let &[Some(seed), Some(count)] = &numbers[..] else {
        eprintln!("usage: differ SEED COUNT");
        return ExitCode::from(2);
    };
    let mut run = Run {
        tally: Tally::default(),
        total: Tally::default(),
        differs: false,
    };
    let mut random = Random::new(seed);
    run.group("all small tables", |run| {
        let sizes = (0..).zip(SMALL);
        sizes
            .flat_map(|(atoms, most)| (0..=most).map(move |nodes| (atoms, nodes)))
            .all(|(atoms, nodes)| generate::all_tables(atoms, nodes, &mut |case| run.case(case)))
    });
    run.group("all small programs", |run| {
        generate::all_programs(&mut |case| run.case(case))
    });
    run.group("random", |run| {
        (0..count).all(|_| run.case(generate::random(&mut random)))
    });
    run.group("kept or fresh", |run| {
        let mut repeated = BOUNDARIES.iter().flat_map(|&atoms| [atoms; 8]);
        repeated.all(|atoms| run.case(generate::boundary(&mut random, atoms)))
    });
    run.group("at the limits", |run| {
        run.case(generate::longest_chain()) && run.case(generate::at_limits(&mut random))
    });
    run.group("damaged", |run| {
        (0..count).all(|_| run.damaged(&mut random))
    });
    run.group("example file", |run| {
        (0..EXAMPLE.len()).all(|at| {
            (0..=u8::MAX).all(|byte| {
                let mut file = EXAMPLE.to_vec();
                file[at] = byte;
                run.file(file)
            }) && run.file(EXAMPLE[..at].to_vec())
        })
    });
    run.group("sound files", |run| {
        (0..count).all(|number| {
            let file = if number % LONG == 0 {
                generate_file::long(&mut random)
            } else if number % NEAR == 0 {
                generate_file::near_room(&mut random).records().concat()
            } else {
                generate_file::sound(&mut random).records().concat()
            };
            run.file(file)
        })
    });
    run.group("damaged files", |run| {
        (0..count).all(|number| {
            let theory = if number % NEAR == 0 {
                generate_file::near_room(&mut random)
            } else {
                generate_file::sound(&mut random)
            };
            run.file(generate_file::damaged(&mut random, &theory))
        })
    });
    println!(
        "seed {seed} count {count}: {}; differences {}",
        run.total,
        u8::from(run.differs)
    );
    ExitCode::from(u8::from(run.differs))
}
