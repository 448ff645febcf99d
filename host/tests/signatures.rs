//! Each C signature has hand-written copies that no compiler compares: the Rattle source, tight.h,
//! the wrapper's `extern` block and what the samples declare. They must agree on the name, order and
//! type of every parameter and on the type answered.

use std::collections::BTreeMap;
use std::fs;
use std::path::Path;

/// Name and type of each parameter, a slice as a pointer and a length; last the type answered. Types
/// are in Rust's words.
type Signature = Vec<(String, String)>;
type Signatures = BTreeMap<String, Signature>;

/// How a copy is read: its code with an @ before each declared name, the parameters that one of its
/// parameters stands for, and the type answered, by what stands before and after a declaration.
struct Language {
    code: fn(&str) -> String,
    parameter: fn(&str) -> Signature,
    answer: fn(&str, &str) -> String,
}

const RATTLE: Language = Language {
    code: without_line_comments,
    parameter: rattle_parameter,
    answer: answer_after,
};
const RUST: Language = Language {
    code: without_line_comments,
    parameter: rust_parameter,
    answer: answer_after,
};
const C: Language = Language {
    code: c_declarations,
    parameter: c_parameter,
    answer: |before, _| c_type(before.split_whitespace().next_back().expect("a type")),
};

fn text(path: &str) -> String {
    let path = Path::new(env!("CARGO_MANIFEST_DIR")).join(path);
    fs::read_to_string(&path).unwrap_or_else(|error| panic!("{}: {error}", path.display()))
}

fn without_line_comments(text: &str) -> String {
    let code = text
        .lines()
        .map(|line| line.split("//").next().unwrap_or(""));
    code.collect::<Vec<_>>()
        .join("\n")
        .replace("fn tight_", "fn @tight_")
}

/// The text from its first `open` to the `close` that matches it, and what stands after that.
fn matched(text: &str, open: char, close: char) -> (&str, &str) {
    let mut depth = 0;
    for (at, char) in text.char_indices() {
        if char == open {
            depth += 1;
        } else if char == close {
            depth -= 1;
            if depth == 0 {
                return text.split_at(at + close.len_utf8());
            }
        }
    }
    panic!("no {close:?} for {open:?}: {text}");
}

/// The header without comments, directives and inline functions.
fn c_declarations(text: &str) -> String {
    let mut code = String::new();
    for (number, part) in text.split("/*").enumerate() {
        code += match part.split_once("*/") {
            Some((_, behind)) if number > 0 => behind,
            _ => part,
        };
    }
    let lines = code.lines().filter(|line| !line.starts_with('#'));
    let code = lines.collect::<Vec<_>>().join("\n");
    let mut parts = code.split("static inline");
    let mut declared = parts.next().unwrap_or("").to_owned();
    for part in parts {
        declared += matched(part, '{', '}').1;
    }
    declared.replace(" tight_", " @tight_")
}

/// Every declaration of the code: its name, what stands before it, its parameters, what follows.
fn declarations(code: &str) -> Vec<(&str, &str, &str, &str)> {
    let places = code.match_indices('@').map(|(at, _)| at);
    places
        .map(|at| {
            let (before, declared) = code.split_at(at);
            let (name, _) = declared.split_once('(').expect("parameters");
            let (whole, after) = matched(declared, '(', ')');
            let parameters = &whole[name.len() + 1..whole.len() - 1];
            (&name[1..], before, parameters, after)
        })
        .collect()
}

fn signatures(language: &Language, text: &str) -> Signatures {
    let code = (language.code)(text);
    let mut found = Signatures::new();
    for (name, before, parameters, after) in declarations(&code) {
        let parameters = parameters.split(',').map(str::trim);
        let mut signature: Signature = parameters
            .filter(|parameter| !parameter.is_empty())
            .flat_map(language.parameter)
            .collect();
        signature.push(("->".to_owned(), (language.answer)(before, after)));
        let twice = found.insert(name.to_owned(), signature);
        assert!(twice.is_none(), "{name} is declared twice");
    }
    found
}

fn answer_after(_: &str, after: &str) -> String {
    let answer = after.trim_start().strip_prefix("->");
    let word = answer.and_then(|answer| answer.split_whitespace().next());
    word.unwrap_or("()").trim_end_matches(';').to_owned()
}

fn rust_parameter(parameter: &str) -> Signature {
    let (name, kind) = parameter.split_once(':').expect("a type");
    vec![(name.trim().to_owned(), kind.trim().to_owned())]
}

fn rattle_parameter(parameter: &str) -> Signature {
    let (name, kind) = rust_parameter(parameter).remove(0);
    let element = |start| Some(kind.strip_prefix(start)?.trim_end_matches(']'));
    let pointer = match (element("&["), element("&mut [")) {
        (Some(element), _) => format!("*const {element}"),
        (_, Some(element)) => format!("*mut {element}"),
        _ => return vec![(name, kind)],
    };
    let length = (format!("{name}_len"), "usize".to_owned());
    vec![(name, pointer), length]
}

fn c_type(word: &str) -> String {
    match word {
        "size_t" => "usize".to_owned(),
        "void" => "()".to_owned(),
        _ => word.replace("uint", "u").replace("_t", ""),
    }
}

fn c_parameter(parameter: &str) -> Signature {
    let at = parameter.rfind([' ', '*']).expect("a type") + 1;
    let (kind, name) = (parameter[..at].trim(), parameter[at..].to_owned());
    let kind = match (kind.strip_prefix("const "), kind.strip_suffix('*')) {
        (Some(kind), _) => format!("*const {}", c_type(kind.trim_end_matches('*').trim())),
        (None, Some(kind)) => format!("*mut {}", c_type(kind.trim())),
        (None, None) => c_type(kind),
    };
    vec![(name, kind)]
}

/// Of all functions, as the Rattle source has them.
fn rattle() -> Signatures {
    let mut all = signatures(&RATTLE, &text("../crates/tight/src/lib.rt"));
    all.extend(signatures(
        &RATTLE,
        &text("../crates/tight_file/src/lib.rt"),
    ));
    all
}

/// A copy's signature is the source's, parameter by parameter.
fn agree(path: &str, name: &str, copy: &Signature, rattle: &Signature) {
    for (at, (copy, rattle)) in copy.iter().zip(rattle).enumerate() {
        assert_eq!(copy, rattle, "{path}: {name}, parameter {at}");
    }
    assert_eq!(copy.len(), rattle.len(), "{path}: {name}");
}

#[test]
fn header_and_wrapper_agree_with_the_source() {
    let rattle = rattle();
    for name in ["tight_plan", "tight_certify", "tight_check", "tight_run"] {
        assert!(rattle.contains_key(name), "{name}");
    }
    for (language, path) in [(C, "tight.h"), (RUST, "src/call.rs")] {
        let copy = signatures(&language, &text(path));
        assert!(copy.keys().eq(rattle.keys()), "{path}: {:?}", copy.keys());
        for (name, signature) in &copy {
            agree(path, name, signature, &rattle[name]);
        }
    }
}

#[test]
fn samples_agree_with_the_source() {
    let rattle = rattle();
    let mut declared = 0;
    let folder = Path::new(env!("CARGO_MANIFEST_DIR")).join("samples");
    for entry in fs::read_dir(folder).expect("samples") {
        let path = entry.expect("a sample").path();
        let text = fs::read_to_string(&path).expect("a sample's text");
        if path.extension().is_some_and(|extension| extension == "c") {
            assert!(text.contains("#include \"tight.h\""), "{}", path.display());
            continue;
        }
        for (name, signature) in &signatures(&RUST, &text) {
            agree(&path.to_string_lossy(), name, signature, &rattle[name]);
            declared += 1;
        }
    }
    assert!(declared > 0, "samples/run.rs declares tight_run");
}

/// Two neighbours that change places in any copy of any function are found.
#[test]
fn a_swapped_pair_is_found() {
    let rattle = rattle();
    for (language, path) in [
        (RATTLE, "../crates/tight/src/lib.rt"),
        (RATTLE, "../crates/tight_file/src/lib.rt"),
        (RUST, "src/call.rs"),
        (RUST, "samples/run.rs"),
        (C, "tight.h"),
    ] {
        let text = text(path);
        let code = (language.code)(&text);
        for (name, _, parameters, _) in declarations(&code) {
            let separate: Vec<_> = parameters.trim().trim_end_matches(',').split(',').collect();
            for at in 1..separate.len() {
                let mut swapped = separate.clone();
                swapped.swap(at - 1, at);
                let swapped = text.replacen(parameters, &swapped.join(","), 1);
                assert_ne!(swapped, text, "{path}: {name}, {at}");
                let found = signatures(&language, &swapped);
                assert_ne!(found[name], rattle[name], "{path}: {name}, {at}");
            }
        }
    }
}
