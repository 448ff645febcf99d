//! The comparison of a run's text with the Rust's answers and with document 01, on one file.

use crate::compare::{Compared, Difference, Subject, Tally, agree};
use crate::drawing::Case;
use crate::file::{self, TheoryFile};
use crate::{document, rust, shrink};

/// Bytes behind the text, and what the output holds before a call.
const TAIL: usize = 5;
const JUNK: u8 = 0xa5;

fn count(text: &str, tally: &mut Tally) {
    tally.files += 1;
    let number = text.strip_prefix("refused ");
    let number = number.and_then(|text| text.split([' ', '\n']).next()?.parse().ok());
    match number {
        None => {
            tally.files_accepted += 1;
            tally.file_checks += text.lines().count() as u64 - 2;
        }
        Some(1..=8) => tally.files_refused[0] += 1,
        Some(9) => tally.files_refused[1] += 1,
        Some(10_u64..) | Some(0) => tally.files_refused[2] += 1,
    }
}

/// An output of this length: the answer and what the bytes are after it.
fn output(subject: &impl Subject, file: &[u8], length: usize) -> (usize, Vec<u8>) {
    let mut out = vec![JUNK; length];
    let answer = subject.run(file, &mut out);
    (answer, out)
}

/// Compares the run of a file: its text, the bytes behind it, and outputs that just fit or are too
/// short by one byte.
pub fn compare(subject: &impl Subject, file: &[u8], tally: &mut Tally) -> Compared {
    let text = file::text(file, document::told);
    let length = text.len();
    let (answer, out) = output(subject, file, length + TAIL);
    let ours = String::from_utf8_lossy(&out[..answer.min(out.len())]).into_owned();
    agree("text of a file", "document 01", &ours, &text)?;
    agree(
        "text of a file",
        "Rust",
        &ours,
        &file::text(file, rust::told),
    )?;
    agree(
        "behind the text",
        "document 01",
        &out[length..],
        &[JUNK; TAIL],
    )?;
    let fits = (length, text.clone().into_bytes());
    let just = output(subject, file, length);
    agree("output that just fits", "document 01", &just, &fits)?;
    let short = output(subject, file, length - 1);
    let unaltered = (0, vec![JUNK; length - 1]);
    agree("output too short", "document 01", &short, &unaltered)?;
    count(&text, tally);
    Ok(())
}

pub fn compared(subject: &impl Subject, file: &[u8], tally: &mut Tally) -> Compared {
    shrink::caught(|| compare(subject, file, tally))
}

/// Files without some bytes or with lower ones.
fn smaller(file: &[u8]) -> impl Iterator<Item = Vec<u8>> + '_ {
    let windows = (1..=20).rev().flat_map(move |size: usize| {
        (size..=file.len()).map(move |end| [&file[..end - size], &file[end..]].concat())
    });
    let places = (0..file.len()).filter(|&at| file[at] > 0);
    let lower = places.flat_map(move |at| {
        [0, file[at] / 2, file[at] - 1]
            .into_iter()
            .map(move |byte| {
                let mut file = file.to_vec();
                file[at] = byte;
                file
            })
    });
    shrink::without_parts(file).chain(windows).chain(lower)
}

/// The smallest file found with a difference of the same kind: of a sound one by its theory and
/// series first, then by its bytes.
pub fn shrink(
    subject: &impl Subject,
    file: Vec<u8>,
    difference: Difference,
) -> (Vec<u8>, Difference) {
    let compared = |file: &Vec<u8>| compared(subject, file, &mut Tally::default());
    let (file, difference) = match TheoryFile::read(&file) {
        Err(_) => (file, difference),
        Ok(theory) => {
            let case = Case {
                drawing: theory.drawing,
                proposals: Vec::new(),
                series: theory.series,
            };
            let bytes = |case: &Case| {
                let theory = TheoryFile {
                    stamp: theory.stamp,
                    drawing: case.drawing.clone(),
                    series: case.series.clone(),
                };
                theory.records().concat()
            };
            let (case, difference) = shrink::smallest(
                case,
                difference,
                |case| Box::new(shrink::smaller(case)),
                |case| compared(&bytes(case)),
            );
            (bytes(&case), difference)
        }
    };
    shrink::smallest(file, difference, |file| Box::new(smaller(file)), compared)
}

pub fn hex(file: &[u8]) -> String {
    let digits = file.iter().map(|byte| format!("{byte:02x}"));
    format!(
        "file of {} bytes: {}",
        file.len(),
        digits.collect::<String>()
    )
}
