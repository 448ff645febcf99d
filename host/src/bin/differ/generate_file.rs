//! Theory files: sound ones, ones near a run's room, long ones, damaged ones.

use crate::drawing::{Candidate, Case, Encoded, Node};
use crate::file::{MOST_BYTES, ROOM, TheoryFile, counted, encoded};
use crate::generate;
use crate::random::Random;

fn stamp(random: &mut Random) -> u32 {
    match random.below(4) {
        0 => *random.pick(&[0, 9, 10, 65_536, 999_999_999, 1_000_000_000, u32::MAX]),
        1 => random.word() as u32,
        _ => random.index(100),
    }
}

/// A sound file; most of them are planned.
pub fn sound(random: &mut Random) -> TheoryFile {
    let Case {
        drawing,
        mut series,
        ..
    } = generate::random(random);
    for candidate in &mut series {
        let beyond: Vec<usize> = candidate.atoms().filter(|&a| a >= drawing.atoms).collect();
        for atom in beyond {
            candidate.flip(atom);
        }
        candidate.foreign = false;
    }
    TheoryFile {
        stamp: stamp(random),
        drawing,
        series,
    }
}

/// A count at or next to its bound.
fn near(random: &mut Random, bound: usize) -> usize {
    match random.below(20) {
        0 => bound + 1,
        1..8 => bound - random.below(3),
        _ => bound,
    }
}

/// A sound file with counts near a run's room.
pub fn near_room(random: &mut Random) -> TheoryFile {
    let [_, nodes, operands, roots] = ROOM.map(|bound| near(random, bound));
    let mut drawing = loop {
        let atoms = if random.chance(70) {
            near(random, ROOM[0])
        } else {
            100 + random.below(400)
        };
        let rules = 20 + random.below(180);
        let drawing = generate::theory(random, atoms, rules);
        let counts = Encoded::new(&drawing).counts;
        if counts.nodes < nodes && counts.operands <= operands {
            break drawing;
        }
    };
    let mut left = operands - Encoded::new(&drawing).counts.operands;
    while drawing.nodes.len() < nodes {
        let count = drawing.nodes.len();
        let width = match nodes - count {
            1 => left,
            more => left.min(random.below(2 * left / more + 3)),
        };
        left -= width;
        let group = (0..width).map(|_| random.index(count)).collect();
        drawing.push(match random.below(4) {
            _ if width > 0 && random.chance(50) => Node::And(group),
            _ if width > 0 => Node::Or(group),
            0 => Node::Implies(random.index(count), random.index(count)),
            1 => Node::False,
            _ => Node::Atom(random.index(drawing.atoms)),
        });
    }
    while drawing.roots.len() < roots {
        let root = *random.pick(&drawing.roots);
        drawing.roots.push(root);
    }
    let rounds = 1 + random.below(3);
    TheoryFile {
        stamp: stamp(random),
        series: generate::across(random, &drawing, rounds),
        drawing,
    }
}

/// A file of about the most bytes, with small candidates: its text is longer than it.
pub fn long(random: &mut Random) -> Vec<u8> {
    let mut theory = loop {
        let theory = sound(random);
        if (1..20).contains(&theory.drawing.atoms) {
            break theory;
        }
    };
    let size = theory.records().concat().len();
    let mut left = MOST_BYTES - size.min(MOST_BYTES);
    while left >= 10 {
        let mut candidate = Candidate::of_words(vec![0; theory.drawing.words()]);
        left -= 6;
        if random.chance(50) {
            candidate.flip(random.below(theory.drawing.atoms));
            left -= 4;
        }
        theory.series.push(candidate);
    }
    let mut file = theory.records().concat();
    if random.chance(50) {
        // `CA` 0 if it fits; else cut, or past the most bytes
        file.extend(counted(b"CA", &[]));
    }
    if random.chance(30) {
        file.resize(MOST_BYTES + random.below(3), b'C');
    }
    if random.chance(10) {
        file.resize(MOST_BYTES + random.below(MOST_BYTES), 0);
    }
    file
}

fn number(random: &mut Random) -> u32 {
    match random.below(10) {
        0 => u32::MAX,
        1 => *random.pick(&[65_536, 65_537, 262_144, 1_048_576, 0x4000_0000, 0x8000_0000]),
        2 => *random.pick(&[512, 513, 1024, 1025]),
        3 => random.word() as u32,
        _ => random.index(12),
    }
}

const MARKS: [&[u8; 2]; 8] = [b"TH", b"NA", b"NF", b"NI", b"NC", b"ND", b"RT", b"CA"];

/// A record that need not be sound where it stands.
fn record(random: &mut Random) -> Vec<u8> {
    let mark = *random.pick(&MARKS);
    let numbers: Vec<u32> = (0..random.below(4)).map(|_| number(random)).collect();
    match mark {
        b"TH" | b"NI" => encoded(mark, &[number(random), number(random)]),
        b"NA" | b"RT" => encoded(mark, &[number(random)]),
        b"NF" => encoded(mark, &[]),
        _ => counted(mark, &numbers),
    }
}

/// A file with some damage.
pub fn damaged(random: &mut Random, theory: &TheoryFile) -> Vec<u8> {
    let mut records = theory.records();
    for _ in 0..random.below(3) {
        if records.is_empty() {
            break;
        }
        let place = random.below(records.len());
        match random.below(6) {
            0 => drop(records.remove(place)),
            1 => records.insert(place, records[place].clone()),
            2 => {
                let to = random.below(records.len());
                let moved = records.remove(place);
                records.insert(to, moved);
            }
            3 => records.insert(random.below(records.len() + 1), record(random)),
            _ => {
                // one of its numbers, a count among them
                let (numbers, _) = records[place][2..].as_chunks_mut();
                if !numbers.is_empty() {
                    let at = random.below(numbers.len());
                    let old = u32::from_le_bytes(numbers[at]);
                    let new = match random.below(3) {
                        0 => old.wrapping_add(1),
                        1 => old.wrapping_sub(1),
                        _ => number(random),
                    };
                    numbers[at] = new.to_le_bytes();
                }
            }
        }
    }
    let mut file = records.concat();
    for _ in 0..random.below(3) {
        if file.is_empty() {
            break;
        }
        let at = random.below(file.len());
        match random.below(8) {
            0 => file.truncate(at),
            1 => drop(file.remove(at)),
            2 => file.insert(at, random.word() as u8),
            3 => file.extend((0..random.below(12)).map(|_| random.word() as u8)),
            4 => file[at] ^= 1 << random.below(8),
            5 => file[at] = random.word() as u8,
            _ => file.truncate(file.len() - random.below(12).min(file.len())),
        }
    }
    file
}
