//! Writes a sample of theory files and the texts that the Rust's answers give for them, for
//! crates/vectors: `vectors SEED FOLDER` writes FOLDER/stdin, each file behind its length in four
//! bytes, low byte first, and FOLDER/stdout, the texts. It makes no call of libtight.a.

#[path = "differ/document.rs"]
#[allow(dead_code)]
mod document;
#[path = "../shared/drawing.rs"]
#[allow(dead_code)]
mod drawing;
#[path = "differ/file.rs"]
mod file;
#[path = "differ/generate.rs"]
#[allow(dead_code)]
mod generate;
#[path = "differ/generate_file.rs"]
#[allow(dead_code)]
mod generate_file;
#[path = "differ/heap.rs"]
mod heap;
#[path = "../shared/random.rs"]
mod random;
#[path = "../shared/reference/mod.rs"]
#[allow(dead_code)]
mod reference;
#[path = "../shared/rust.rs"]
#[allow(dead_code)]
mod rust;

use drawing::Node;
use file::TheoryFile;
use random::Random;
use std::path::Path;
use std::process::ExitCode;

/// The most bytes of all files with their lengths, and of most files.
const MOST_BYTES: usize = 65_000;
const SMALL: usize = 360;

/// Each so many files one may be larger.
const LARGER: usize = 40;

/// Files by turns: what their texts begin with, or any damage.
const TURNS: [Option<&str>; 10] = [
    Some("th "),
    Some("th "),
    Some("refused 10 "),
    Some("th "),
    Some("th "),
    Some("refused 11 "),
    Some("th "),
    Some("th "),
    Some("refused 12 "),
    None,
];

/// The text by the Rust, which document 01 read a second time must give too.
fn text(file: &[u8]) -> String {
    let text = file::text(file, rust::told);
    assert_eq!(text, file::text(file, document::told), "{file:?}");
    text
}

/// A theory with operands, an Implies and a few candidates of more than one verdict.
fn is_rich(theory: &TheoryFile, text: &str) -> bool {
    let nodes = &theory.drawing.nodes;
    let verdicts = ["stable", "notmodel", "residual"];
    let told = verdicts.iter().filter(|verdict| text.contains(**verdict));
    nodes.iter().any(|node| !node.operands().is_empty())
        && nodes.iter().any(|node| matches!(node, Node::Implies(..)))
        && told.count() >= 2
}

/// A file of at most `most` bytes whose text begins as its turn says, and its text.
fn drawn(random: &mut Random, turn: Option<&str>, most: usize) -> (Vec<u8>, String) {
    loop {
        let mut theory = generate_file::sound(random);
        theory.series.truncate(2 + random.below(5));
        let file = match turn {
            Some(_) => theory.records().concat(),
            None => generate_file::damaged(random, &theory),
        };
        if file.len() > most {
            continue;
        }
        let text = text(&file);
        let wanted = match turn {
            Some("th ") => text.starts_with("th ") && is_rich(&theory, &text),
            Some(start) => text.starts_with(start),
            None => text.starts_with("refused"),
        };
        if wanted {
            return (file, text);
        }
    }
}

fn write(seed: u64, folder: &Path) -> std::io::Result<()> {
    let mut random = Random::new(seed);
    let (mut files, mut texts, mut count) = (Vec::new(), String::new(), 0);
    loop {
        let most = if count % LARGER == 0 {
            6 * SMALL
        } else {
            SMALL
        };
        let (file, text) = drawn(&mut random, TURNS[count % TURNS.len()], most);
        if files.len() + 4 + file.len() > MOST_BYTES {
            break;
        }
        files.extend((file.len() as u32).to_le_bytes());
        files.extend(file);
        texts += &text;
        count += 1;
    }
    println!(
        "{count} files in {} bytes, texts in {} bytes: {} stable, {} notmodel, {} residual, {} refused",
        files.len(),
        texts.len(),
        texts.matches("stable").count(),
        texts.matches("notmodel").count(),
        texts.matches("residual").count(),
        texts.matches("refused").count(),
    );
    std::fs::write(folder.join("stdin"), files)?;
    std::fs::write(folder.join("stdout"), texts)
}

fn main() -> ExitCode {
    let arguments: Vec<String> = std::env::args().skip(1).collect();
    let [seed, folder] = &arguments[..] else {
        eprintln!("usage: vectors SEED FOLDER");
        return ExitCode::from(2);
    };
    let Ok(seed) = seed.parse() else {
        eprintln!("vectors: {seed} is no seed");
        return ExitCode::from(2);
    };
    match write(seed, Path::new(folder)) {
        Ok(()) => ExitCode::SUCCESS,
        Err(error) => {
            eprintln!("vectors: {folder}: {error}");
            ExitCode::FAILURE
        }
    }
}
