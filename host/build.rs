//! Links libtight.a and libtight_file.a, and lifts the Rust that the harness compares with.
//!
//! `TIGHT_LIB_DIR` names their folder (default ../target/staticlib), `TIGHT_RUST_SRC`
//! the folder of the Rust's files (default ../../shared/docs/src). Without the second the wrapper
//! still builds; the harness then stops with a message.
use std::path::{Path, PathBuf};
use std::{env, fs};

const PREFIX: &str = "src--crates--zetesis-ferraris--src--";

/// A file of the Rust, where it goes, and what is appended to it for reading private fields.
const FILES: [(&str, &str, Option<&str>); 7] = [
    ("theory.rs", "theory/mod.rs", None),
    ("theory--numeric.rs", "theory/numeric.rs", None),
    ("numeric_evaluation.rs", "numeric_evaluation.rs", None),
    ("tight.rs", "tight/mod.rs", Some("lift/tight.rs")),
    ("tight--compile.rs", "tight/compile.rs", None),
    (
        "tight--readers.rs",
        "tight/readers.rs",
        Some("lift/readers.rs"),
    ),
    (
        "tight--evaluate.rs",
        "tight/evaluate.rs",
        Some("lift/evaluate.rs"),
    ),
];

/// The changed lines: file, old, new.
const CHANGES: [(&str, &str, &str); 2] = [
    // operand spans of any length, as document 01 has them
    ("theory.rs", "if span.length < 3 {", "if span.length < 1 {"),
    // a heap that tells which nodes it gave out
    (
        "tight--evaluate.rs",
        "use std::collections::{BinaryHeap, TryReserveError};",
        "use crate::heap::BinaryHeap;\nuse std::collections::TryReserveError;",
    ),
];

fn folder(variable: &str, default: &str) -> PathBuf {
    println!("cargo:rerun-if-env-changed={variable}");
    let root = PathBuf::from(env::var("CARGO_MANIFEST_DIR").expect("cargo names the package"));
    env::var(variable).map_or_else(|_| root.join(default), PathBuf::from)
}

fn link() {
    let folder = folder("TIGHT_LIB_DIR", "../target/staticlib");
    println!("cargo:rustc-link-search=native={}", folder.display());
    // for the test that links the samples in C
    println!("cargo:rustc-env=TIGHT_LIB_DIR={}", folder.display());
    for name in ["tight", "tight_file"] {
        let library = folder.join(format!("lib{name}.a"));
        println!("cargo:rerun-if-changed={}", library.display());
        assert!(
            library.is_file(),
            "{} is missing: write it with host/staticlib.sh, or name its folder in TIGHT_LIB_DIR",
            library.display()
        );
        println!("cargo:rustc-link-lib=static={name}");
    }
}

/// The text without its test modules, under the harness's module names.
fn lifted(name: &str, text: &str) -> String {
    let mut text = text.to_owned();
    for (file, old, new) in CHANGES {
        if file == name {
            assert_eq!(text.matches(old).count(), 1, "{name}: not one line `{old}`");
            text = text.replace(old, new);
        }
    }
    let mut out = String::new();
    let mut lines = text.lines().peekable();
    while let Some(line) = lines.next() {
        if line == "#[cfg(test)]" && lines.peek().is_some_and(|next| next.starts_with("mod ")) {
            lines.next();
            continue;
        }
        out.push_str(line);
        out.push('\n');
    }
    out.replace("crate::", "crate::reference::")
        .replace("zetesis_algebra::", "crate::reference::algebra::")
}

fn lift(source: &Path, target: &Path) -> Result<(), String> {
    for sub in ["theory", "tight"] {
        fs::create_dir_all(target.join(sub)).map_err(|error| error.to_string())?;
    }
    for (name, to, appended) in FILES {
        let file = source.join(format!("{PREFIX}{name}.txt"));
        println!("cargo:rerun-if-changed={}", file.display());
        let text = fs::read_to_string(&file).map_err(|error| {
            format!(
                "{}: {error}; name the folder of the Rust in TIGHT_RUST_SRC",
                file.display()
            )
        })?;
        let mut text = lifted(name, &text);
        if let Some(part) = appended {
            println!("cargo:rerun-if-changed={part}");
            text.push_str(&fs::read_to_string(part).map_err(|error| error.to_string())?);
        }
        fs::write(target.join(to), text).map_err(|error| error.to_string())?;
    }
    fs::write(
        target.join("theory/copying.rs"),
        "pub(super) use crate::reference::copying::copy;\n",
    )
    .map_err(|error| error.to_string())
}

fn main() {
    println!("cargo:rerun-if-changed=build.rs");
    link();
    let target = PathBuf::from(env::var("OUT_DIR").expect("cargo names OUT_DIR"));
    let modules = match lift(&folder("TIGHT_RUST_SRC", "../../shared/docs/src"), &target) {
        Ok(()) => ["theory/mod.rs", "numeric_evaluation.rs", "tight/mod.rs"]
            .map(|path| {
                let name = path.trim_end_matches("/mod.rs").trim_end_matches(".rs");
                format!(
                    "#[allow(dead_code, unused_imports, clippy::all, clippy::pedantic)]\n\
                     #[path = {:?}]\npub mod {name};\n",
                    target.join(path)
                )
            })
            .concat(),
        Err(message) => format!("compile_error!({message:?});\n"),
    };
    fs::write(target.join("lifted.rs"), modules).expect("OUT_DIR can be written");
}
