//! Times libtight.a beside the Rust that it is carried over from, in one process and on the same
//! inputs, after seeing that both answer the same.
//!
//! `bench [SECONDS [WORD [NODES]]]`: each measure takes at least SECONDS (0.4 if none are given), a
//! third of it in each of three passes; only shapes whose name is WORD are timed, and only at the
//! size NODES. It prints medians and ratios, ours / Rust, at its end.

#[path = "../../shared/drawing.rs"]
#[allow(dead_code, reason = "differ uses the rest")]
mod drawing;
mod heap;
mod measure;
#[path = "../../shared/random.rs"]
#[allow(dead_code, reason = "differ uses the rest")]
mod random;
#[path = "../../shared/reference/mod.rs"]
mod reference;
#[path = "../../shared/rust.rs"]
#[allow(dead_code, reason = "differ uses the rest")]
mod rust;
mod shapes;

use measure::{Both, Times};
use shapes::Input;
use std::process::ExitCode;
use std::time::Duration;

const USAGE: &str = "usage: bench [SECONDS [WORD [NODES]]]\n\
     SECONDS: the least time of a measure, above 0 and at most 60\n\
     WORD: chain, wide, heads, load, deep, late, forks or growth; all if none is given\n\
     NODES: 1024, 16384 or 262144, not with growth; all three if none is given";

/// About 1,000 nodes, 16,000, and the most.
const SIZES: [usize; 3] = [1024, 16_384, 262_144];

/// The most atoms and rules of ticket No. 14.
const LOAD: (usize, usize) = (1024, 4096);

/// The growth table's sizes, as multiples of the least one.
const GROWTH: [usize; 3] = [1, 10, 100];

/// The passes over all rows, an odd number.
const PASSES: usize = 3;

type Shape = (&'static str, fn(usize) -> Input);

const SHAPES: [Shape; 7] = [
    ("chain", shapes::chain),
    ("wide", shapes::wide),
    ("heads", shapes::heads),
    ("load", shapes::load_of),
    ("deep", shapes::deep),
    ("late", shapes::late),
    ("forks", shapes::forks),
];

const GROWING: [Shape; 3] = [
    ("chain", |times| shapes::chain(1_310 * times)),
    ("near", |times| shapes::fixed(2_600 * times, false)),
    ("far", |times| shapes::fixed(2_600 * times, true)),
];

/// A time with its unit.
fn time(nanoseconds: f64) -> String {
    match nanoseconds {
        n if n < 1e3 => format!("{n:.1} ns"),
        n if n < 1e4 => format!("{n:.0} ns"),
        n if n < 1e7 => format!("{:.1} us", n / 1e3),
        n => format!("{:.1} ms", n / 1e6),
    }
}

/// Both times, and of a kept check the nodes gone over on the average.
#[derive(Clone, Copy, Debug)]
struct Cell {
    times: Times,
    over: f64,
}

impl Cell {
    fn new(times: Times) -> Self {
        Self { times, over: 0.0 }
    }

    /// Ratio, our time, the Rust's time.
    fn text(&self) -> String {
        let Times { ours, rust } = self.times;
        format!("{:.2} ({}, {})", self.times.ratio(), time(ours), time(rust))
    }
}

/// What an input is, and its measures.
#[derive(Clone, Debug)]
struct Row {
    input: Vec<String>,
    cells: Vec<Cell>,
}

/// All measures of an input.
fn shape(name: &str, input: Input, least: Duration) -> Row {
    let mut both = Both::new(input, least);
    let counts = both.counts();
    let mut cells: Vec<_> = both.plan().map(Cell::new).into();
    cells.extend(both.fresh().map(Cell::new));
    for changes in [1, 8, 64] {
        let (times, over) = both.kept(changes);
        cells.push(Cell { times, over });
    }
    Row {
        input: vec![
            name.to_owned(),
            counts.nodes.to_string(),
            format!("{}, {}, {}", counts.atoms, counts.operands, counts.roots),
        ],
        cells,
    }
}

/// What is to be timed.
#[derive(Clone, Copy, Debug, PartialEq)]
struct Wanted<'a> {
    least: Duration,
    word: Option<&'a str>,
    nodes: Option<usize>,
}

impl Wanted<'_> {
    fn shape(self, name: &str) -> bool {
        self.word.is_none_or(|word| word == name)
    }

    fn size(self, nodes: usize) -> bool {
        self.nodes.is_none_or(|wanted| wanted == nodes)
    }

    /// The same with the time of one of the passes.
    fn pass(self) -> Self {
        let least = self.least / PASSES as u32;
        Self { least, ..self }
    }
}

/// The rows of the shapes and sizes that are wanted.
fn shapes(wanted: Wanted<'_>) -> Vec<Row> {
    let mut rows = Vec::new();
    for (name, input) in SHAPES.into_iter().filter(|(name, _)| wanted.shape(name)) {
        for nodes in SIZES.into_iter().filter(|&nodes| wanted.size(nodes)) {
            rows.push(shape(name, input(nodes), wanted.least));
            if name == "load" && nodes == SIZES[0] {
                rows.push(shape(name, shapes::load(14, LOAD.0, LOAD.1), wanted.least));
            }
        }
    }
    rows
}

/// The growth table's rows, each with one measure.
fn growth(least: Duration) -> Vec<Row> {
    let mut rows = Vec::new();
    for (name, input) in GROWING {
        let mut sizes = GROWTH.map(|times| Both::new(input(times), least));
        for changes in [1, 8] {
            for both in &mut sizes {
                let (times, over) = both.kept(changes);
                let nodes = both.counts().nodes.to_string();
                rows.push(Row {
                    input: vec![name.to_owned(), changes.to_string(), nodes],
                    cells: vec![Cell { times, over }],
                });
            }
        }
    }
    rows
}

/// The same rows measured in several passes, so that what slows the machine down for a while does
/// not decide a measure: of each cell the one whose ratio stands in the middle.
fn in_passes(mut pass: impl FnMut() -> Vec<Row>) -> Vec<Row> {
    let passes = [(); PASSES].map(|()| pass());
    let mut rows = passes[0].clone();
    for (r, row) in rows.iter_mut().enumerate() {
        for (c, cell) in row.cells.iter_mut().enumerate() {
            let mut cells = passes.each_ref().map(|rows| rows[r].cells[c]);
            cells.sort_by(|x, y| x.times.ratio().total_cmp(&y.times.ratio()));
            *cell = cells[PASSES / 2];
        }
    }
    rows
}

fn print_shapes(rows: &[Row]) {
    println!(
        "| shape | nodes | atoms, operand entries, roots | plan | plan, Rust with admission \
         | fresh | fresh, then equal | kept 1; nodes | kept 8; nodes | kept 64; nodes |"
    );
    println!("|---|---|---|---|---|---|---|---|---|---|");
    for row in rows {
        let (whole, kept) = row.cells.split_at(row.cells.len() - 3);
        let mut texts = row.input.clone();
        texts.extend(whole.iter().map(Cell::text));
        texts.extend(
            kept.iter()
                .map(|cell| format!("{}; {:.0}", cell.text(), cell.over)),
        );
        println!("| {} |", texts.join(" | "));
    }
}

fn print_growth(rows: &[Row]) {
    println!(
        "\n| shape | changed | nodes | ours | Rust | ratio | ours, tenfold | Rust, tenfold | nodes gone over |"
    );
    println!("|---|---|---|---|---|---|---|---|---|");
    for sizes in rows.chunks(GROWTH.len()) {
        let mut last: Option<Times> = None;
        for row in sizes {
            let Cell { times, over } = row.cells[0];
            let factors = last.map_or_else(
                || "| | |".to_owned(),
                |last| {
                    let (ours, rust) = (times.ours / last.ours, times.rust / last.rust);
                    format!("| {ours:.1} | {rust:.1} |")
                },
            );
            println!(
                "| {} | {} | {} | {:.2} {factors} {over:.0} |",
                row.input.join(" | "),
                time(times.ours),
                time(times.rust),
                times.ratio(),
            );
            last = Some(times);
        }
    }
}

/// What the arguments want, or what is wrong with them.
fn arguments(given: &[String]) -> Result<Wanted<'_>, String> {
    let (seconds, word, nodes) = match given {
        [] => (None, None, None),
        [seconds] => (Some(seconds), None, None),
        [seconds, word] => (Some(seconds), Some(word.as_str()), None),
        [seconds, word, nodes] => (Some(seconds), Some(word.as_str()), Some(nodes)),
        _ => return Err(format!("{} arguments, not three at most", given.len())),
    };
    let least = seconds.map_or(Some(0.4), |text| {
        let seconds: f64 = text.parse().ok()?;
        (seconds > 0.0 && seconds <= 60.0).then_some(seconds)
    });
    let least = least.ok_or_else(|| format!("{:?} is no such time", given[0]))?;
    let known = |word| word == "growth" || SHAPES.iter().any(|&(name, _)| name == word);
    if let Some(word) = word
        && !known(word)
    {
        return Err(format!("{word:?} is no shape"));
    }
    let nodes = match nodes {
        None => None,
        Some(text) => Some(text.parse().map_err(|_| format!("{text:?} is no size"))?),
    };
    if nodes.is_some_and(|nodes| !SIZES.contains(&nodes) || word == Some("growth")) {
        return Err(format!("{:?} is no size of {:?}", given[2], given[1]));
    }
    Ok(Wanted {
        least: Duration::from_secs_f64(least),
        word,
        nodes,
    })
}

fn main() -> ExitCode {
    let given: Vec<String> = std::env::args_os()
        .skip(1)
        .map(|argument| argument.to_string_lossy().into_owned())
        .collect();
    let wanted = match arguments(&given) {
        Ok(wanted) => wanted.pass(),
        Err(wrong) => {
            eprintln!("bench: {wrong}\n{USAGE}");
            return ExitCode::from(2);
        }
    };
    if SHAPES.iter().any(|(name, _)| wanted.shape(name)) {
        print_shapes(&in_passes(|| shapes(wanted)));
    }
    if wanted.shape("growth") {
        print_growth(&in_passes(|| growth(wanted.least)));
    }
    ExitCode::SUCCESS
}

#[cfg(test)]
mod tests {
    use super::*;
    use crate::drawing::Node;

    /// Each measure sees first that both sides agree, and the base stable.
    #[test]
    fn both_sides_agree() {
        let inputs = SHAPES.map(|(_, input)| input(SIZES[0])).into_iter();
        for input in inputs.chain(GROWING.map(|(_, input)| input(1))) {
            let mut both = Both::new(input, Duration::ZERO);
            both.plan();
            both.fresh();
            assert!(both.kept(1).1 > 0.0);
        }
    }

    /// Ticket No. 14 by hand: from seed 0 the draws are 15470, 18256, 53708 and 43769.
    #[test]
    fn load_as_in_ticket() {
        let drawing = shapes::load(0, 5, 2).drawing;
        let nodes = [
            Node::False,
            Node::Implies(0, 5),
            Node::Or(vec![0, 6]),
            Node::Implies(1, 3),
            Node::Implies(0, 1),
        ];
        assert_eq!(drawing.nodes[5..], nodes);
        assert_eq!(drawing.roots, [7, 8, 9]);
    }

    #[test]
    fn bad_arguments() {
        let refused = |given: &[&str]| {
            let given: Vec<String> = given.iter().map(|&text| text.to_owned()).collect();
            arguments(&given).is_err()
        };
        for seconds in ["", "x", "0", "-1", "nan", "inf", "61"] {
            assert!(refused(&[seconds]), "{seconds}");
        }
        assert!(refused(&["1", "tower"]) && refused(&["1", "deep", "1"]));
        assert!(refused(&["1", "growth", "1024"]) && refused(&["1", "deep", "1024", "1"]));
        assert!(!refused(&[]) && !refused(&["1"]) && !refused(&["0.5", "growth"]));
        assert!(!refused(&["1", "late", "16384"]));
    }
}
