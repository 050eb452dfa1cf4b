//! Scripts with a line or two that are spoilt.

use crate::random::Random;

/// Words that stand for another, most of which make a fault of it.
const ODD_WORDS: [&[u8]; 40] = [
    b"+1",
    b"-1",
    b"0x10",
    b"1_000",
    b"1.0",
    b"65535",
    b"65536",
    b"255",
    b"256",
    b"4294967295",
    b"4294967296",
    b"18446744073709551615",
    b"18446744073709551616",
    b"00000000000000000000000001",
    b"99999999999999999999999999",
    b"kind",
    b"places",
    b"strip",
    b"fill",
    b"run",
    b"open",
    b"Open",
    b"close",
    b"walk",
    b"room",
    b"report",
    b"mode",
    b"opacity",
    b"mask",
    b"clip",
    b"filter",
    b"pad",
    b"source",
    b"#",
    b"\xc3\x28",
    b"\xff",
    b"\xd9\xa3",
    b"\xc2\xa0",
    b"1\x0b2",
    b"\x00",
];
/// Opacities that are none.
const NO_OPACITIES: [&[u8]; 12] = [
    b"e5", b".", b"+", b"-", b"1e", b"1e+", b"--1", b"1.5.2", b"nanx", b"infinit", b"1f32",
    b"0x1p3",
];
/// Lines that are faulty where they come too late, or in the wrong sheet.
const LATE_LINES: [&[u8]; 8] = [
    b"kind fill",
    b"kind run",
    b"kind",
    b"places 5",
    b"strip 0 0 4",
    b"fill 0 0 4 4",
    b"run 0 1",
    b"# \xff",
];

/// Spoils a few lines of a script, mostly one.
pub fn spoil(random: &mut Random, text: Vec<u8>) -> Vec<u8> {
    let mut lines: Vec<Vec<u8>> = text
        .split(|byte| *byte == b'\n')
        .map(<[u8]>::to_vec)
        .collect();
    for _ in 0..random.pick(&[1, 1, 1, 2, 3]) {
        let at = random.below(lines.len() as u64) as usize;
        if random.percent(20) {
            let line = random.pick(&LATE_LINES);
            lines.insert(at, line.to_vec());
        } else {
            lines[at] = spoilt(random, &lines[at]);
        }
    }
    lines.join(&b'\n')
}

/// A line with one word dropped, doubled, exchanged with its neighbour, or replaced.
fn spoilt(random: &mut Random, line: &[u8]) -> Vec<u8> {
    let mut words: Vec<&[u8]> = line.split(|byte| *byte == b' ').collect();
    let at = random.below(words.len() as u64) as usize;
    match random.below(6) {
        0 => {
            words.remove(at);
        }
        1 => words.insert(at, words[at]),
        2 => words.swap(at, (at + 1) % line.split(|byte| *byte == b' ').count()),
        3 if words.contains(&&b"opacity"[..]) => {
            let at = words
                .iter()
                .position(|word| *word == b"opacity")
                .unwrap_or(0);
            let next = (at + 1).min(words.len() - 1);
            words[next] = random.pick(&NO_OPACITIES);
        }
        4 => words.push(random.pick(&ODD_WORDS)),
        _ => words[at] = random.pick(&ODD_WORDS),
    }
    words.join(&b' ')
}
