//! Words of a commit, by the layout and against it.

use crate::{put, Random};

/// A time by the layout.
pub fn time(random: &mut Random) -> Vec<u8> {
    let parts = [
        random.below(10_000),
        random.between(1, 12),
        random.between(1, 31),
        random.below(24),
        random.below(60),
        random.below(60),
    ];
    let [year, month, day, hour, minute, second] = parts;
    format!("{year:04}{month:02}{day:02}T{hour:02}{minute:02}{second:02}Z").into_bytes()
}

/// Times of sixteen bytes, each against the layout in one way.
pub fn wrong_time(random: &mut Random) -> Vec<u8> {
    let mut wrong = time(random);
    let part: (usize, &[u8]) = match random.below(12) {
        0 => (4, b"00"),
        1 => (4, b"13"),
        2 => (6, b"00"),
        3 => (6, b"32"),
        4 => (9, b"24"),
        5 => (11, b"60"),
        6 => (13, b"60"),
        7 => (8, b"t"),
        8 => (15, b"z"),
        9 => (15, &[0]),
        _ => {
            let at = random.pick(&[0, 1, 2, 3, 4, 5, 6, 7, 9, 10, 11, 12, 13, 14]);
            (at, random.pick(&[b"/", b":", b" ", b"\0", b"\xB0", b"T"]))
        }
    };
    put(&mut wrong, part.0, part.1);
    wrong
}

/// A name or comment by the layout.
pub fn text(random: &mut Random, most: u64) -> Vec<u8> {
    let length = match random.below(6) {
        0 => 0,
        1 => most - 1,
        _ => random.below(most.min(12)),
    };
    let mut text: Vec<u8> = (0..length)
        .map(|_| match random.below(8) {
            0 => 0x20,
            1 => 0x7E,
            _ => random.between(0x20, 0x7E) as u8,
        })
        .collect();
    text.push(0);
    text
}

/// A name or comment of an allowed length that is against the layout in one way.
pub fn wrong_text(random: &mut Random, most: u64) -> Vec<u8> {
    let mut wrong = text(random, most);
    if wrong.len() < 2 {
        wrong = b"a\0".to_vec();
    }
    let last = wrong.len() - 1;
    let inside = random.below(last as u64) as usize;
    match random.below(3) {
        0 => wrong[last] = random.pick(b"a\x01\xFF"),
        1 => wrong[inside] = 0,
        _ => wrong[inside] = random.pick(b"\x01\x09\x0A\x1F\x7F\x80\xA0\xFF"),
    }
    wrong
}
