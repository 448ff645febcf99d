//! tight.h by a C compiler: its lengths and unpacking are the wrapper's, and the samples print
//! document 01's lines. `CC` and `CXX` name the compilers (cc, c++).

use std::collections::BTreeMap;
use std::io::{Read, Write};
use std::path::{Path, PathBuf};
use std::process::{Command, Stdio};
use tight::Counts;
use tight::call::{Answer, LIMITS};

const HOST: &str = env!("CARGO_MANIFEST_DIR");
const STRICT: [&str; 4] = ["-Wall", "-Wextra", "-Werror", "-pedantic"];
const C99: (&str, &str, &[&str]) = ("CC", "cc", &["-std=c99"]);
const CXX: (&str, &str, &[&str]) = ("CXX", "c++", &["-x", "c++", "-std=c++11"]);

/// A program of host/ with both libraries.
fn compiled((variable, default, words): (&str, &str, &[&str]), file: &str) -> PathBuf {
    let name = file.replace(['/', '.'], "_") + default;
    let program = Path::new(env!("CARGO_TARGET_TMPDIR")).join(name);
    let compiler = std::env::var(variable).unwrap_or_else(|_| default.to_owned());
    let status = Command::new(&compiler)
        .args(words)
        .args(STRICT)
        .args(["-I", HOST])
        .arg(Path::new(HOST).join(file))
        .args(["-x", "none", "-L", env!("TIGHT_LIB_DIR")])
        .args(["-ltight", "-ltight_file", "-o"])
        .arg(&program)
        .status();
    assert!(status.expect(&compiler).success(), "{compiler} {file}");
    program
}

/// What a program prints for an input.
fn printed(program: &Path, input: &[u8]) -> String {
    let mut child = Command::new(program)
        .stdin(Stdio::piped())
        .stdout(Stdio::piped())
        .spawn()
        .expect("a program");
    let mut stdin = child.stdin.take().expect("its input");
    stdin.write_all(input).expect("its input is read");
    drop(stdin);
    let mut text = String::new();
    let mut stdout = child.stdout.take().expect("its output");
    stdout.read_to_string(&mut text).expect("ASCII");
    assert!(child.wait().expect("its end").success(), "{text}");
    text
}

fn least_lengths(counts: Counts) -> [usize; 10] {
    let l = counts.lengths();
    let before = [l.candidate, l.nodes, l.operands, l.roots, l.producers];
    let after = [l.ranks, l.readers, l.kept, l.work, 0];
    [before, after].concat().try_into().expect("ten")
}

/// Counts at and past each limit, and their least lengths by the wrapper.
fn lengths(input: &mut String, expected: &mut Vec<String>) {
    let mut numbers = vec![[0; 4], [1, 1, 1, 1], [2, 6, 2, 2], [65, 7, 11, 13], LIMITS];
    for table in 0..4 {
        for count in [LIMITS[table], LIMITS[table] + 1, usize::MAX] {
            let mut counts = [1; 4];
            counts[table] = count;
            numbers.push(counts);
        }
    }
    for [atoms, nodes, operands, roots] in numbers {
        let counts = Counts {
            stamp: 0,
            atoms,
            nodes,
            operands,
            roots,
        };
        *input += &format!("L {atoms} {nodes} {operands} {roots}\n");
        let lengths = least_lengths(counts).map(|length| length.to_string() + " ");
        expected.push(lengths.concat());
    }
}

/// Answers of every kind with the most and the least numbers, and their parts by the wrapper.
fn answers(input: &mut String, expected: &mut Vec<String>) {
    let refused = (1..=17).flat_map(|number| {
        [[0, 0], [1, 2], [u32::MAX.into(), 262_143]]
            .map(|[place, body]| Answer::refused([number, place, body]))
    });
    let planned = [0, 1, 262_144].map(Answer::planned);
    let checked =
        [[0, 0, 0], [0, 0, 262_144], [1, 262_143, 3], [2, 65_535, 7]].map(Answer::checked);
    for answer in refused.chain(planned).chain(checked) {
        *input += &format!("A {}\n", answer.0);
        let parts = [
            answer.refusal(),
            answer.place(),
            answer.body(),
            answer.producers() as u64,
            answer.verdict(),
            answer.root_or_atom(),
            answer.visited(),
        ];
        expected.push(parts.map(|part| part.to_string()).join(" "));
    }
}

#[test]
fn lengths_and_unpacking_are_the_wrappers() {
    let (mut input, mut expected) = (String::new(), Vec::new());
    lengths(&mut input, &mut expected);
    answers(&mut input, &mut expected);
    for compiler in [C99, CXX] {
        let text = printed(&compiled(compiler, "tests/header.c"), input.as_bytes());
        for ((told, expected), line) in text.lines().zip(&expected).zip(input.lines()) {
            assert_eq!(told, expected, "{line}");
        }
        assert_eq!(text.lines().count(), expected.len());
    }
}

/// The constants of tight.h are those of the papers and of the Rattle source.
#[test]
fn constants_are_as_in_the_source() {
    let header = include_str!("../tight.h");
    let constants: BTreeMap<&str, usize> = header
        .lines()
        .filter_map(|line| {
            let (name, number) = line.trim().strip_prefix("TIGHT_")?.split_once(" = ")?;
            let digits = number.split([',', ' ']).next()?;
            Some((name, digits.parse().ok()?))
        })
        .collect();
    let limits = ["MOST_ATOMS", "MOST_NODES", "MOST_OPERANDS", "MOST_ROOTS"];
    assert_eq!(limits.map(|name| constants[name]), LIMITS);
    let source = include_str!("../../crates/theory/src/lib.rt");
    let (_, refusals) = source.split_once("pub enum Refusal {").expect("refusals");
    let (refusals, _) = refusals.split_once('}').expect("an end");
    let mut number = 0;
    for case in refusals.split([',', '(']).map(str::trim) {
        if !case.starts_with(|char: char| char.is_ascii_uppercase()) {
            continue;
        }
        number += 1;
        let words = case.chars().enumerate().map(|(at, char)| {
            let start = at > 0 && char.is_ascii_uppercase();
            format!(
                "{}{}",
                if start { "_" } else { "" },
                char.to_ascii_uppercase()
            )
        });
        let name: String = words.collect();
        assert_eq!(constants.get(&name[..]), Some(&number), "{name}");
    }
    assert_eq!(number, 17);
}

#[test]
fn samples_print_document_01s_lines() {
    let file = include_bytes!("../../crates/tightcheck/stdin");
    let lines = include_str!("../../crates/tightcheck/stdout");
    for compiler in [C99, CXX] {
        let sample = compiled(compiler, "samples/plan_check.c");
        assert_eq!(printed(&sample, b""), lines);
        assert_eq!(printed(&compiled(compiler, "samples/run.c"), file), lines);
    }
}
