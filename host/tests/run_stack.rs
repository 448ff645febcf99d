//! A run takes less than 200 KiB of stack, whatever the file. On a thread with too little of it the process dies.

use std::thread::Builder;
use tight::call;

const STACK: usize = 200 * 1024;

fn number(value: u32) -> [u8; 4] {
    value.to_le_bytes()
}

fn candidate(atoms: &[u32]) -> Vec<u8> {
    let mut record = b"CA".to_vec();
    record.extend(number(
        u32::try_from(atoms.len()).expect("a candidate's count"),
    ));
    record.extend(atoms.iter().flat_map(|&atom| number(atom)));
    record
}

/// 512 atoms, each but the first from the one before, and as many candidates as a file has room for.
fn large() -> Vec<u8> {
    let mut file = b"TH".to_vec();
    file.extend([number(7), number(512)].concat());
    for atom in 0..512 {
        file.extend([b"NA", &number(atom)[..]].concat());
    }
    for atom in 0..511 {
        file.extend([b"NI", &number(atom)[..], &number(atom + 1)].concat());
    }
    for root in 512..1023 {
        file.extend([b"RT", &number(root)[..]].concat());
    }
    let all: Vec<u32> = (0..512).collect();
    for atoms in [&all[..], &all[..1], &[]].into_iter().cycle() {
        let record = candidate(atoms);
        if file.len() + record.len() > 65_536 {
            break;
        }
        file.extend(record);
    }
    file
}

/// A text longer than the run's own array for it: it is counted, then made again in the output.
fn long_text() -> Vec<u8> {
    let mut file = b"TH".to_vec();
    file.extend([number(7), number(0)].concat());
    for _ in 0..10_000 {
        file.extend(candidate(&[]));
    }
    file
}

fn text_on_small_stack(file: Vec<u8>) -> Vec<u8> {
    let run = move || {
        let mut out = vec![0; 262_144];
        let length = call::run(&file, &mut out);
        out.truncate(length);
        out
    };
    let thread = Builder::new().stack_size(STACK).spawn(run);
    thread.expect("a thread").join().expect("a text")
}

#[test]
fn large_file() {
    let text = text_on_small_stack(large());
    assert!(text.starts_with(b"th 7 atoms 512 nodes 1023 roots 511 producers 511\nranks 0 1 2 "));
}

#[test]
fn text_past_the_array() {
    let text = text_on_small_stack(long_text());
    assert!(text.ends_with(b"\n9999 stable - 0\n"));
}
