//! The plain Fletcher-32 of `forge`, written from the paper alone, over the same test vectors as the Rattle program
//! `crates/vectors`.
//!
//! It prints the lines that the Rattle program is to print, and compares the checksums that are known from outside with
//! their literal values. With a file's name as its argument, it also compares its lines with that file. It ends with
//! status 1 on a difference.

use forge::checksum;
use std::process::ExitCode;

struct Vector {
    name: String,
    bytes: Vec<u8>,
    /// The checksum, where it is known from outside.
    known: Option<u32>,
}

fn known(name: &str, bytes: &[u8], checksum: u32) -> Vector {
    Vector {
        name: name.to_string(),
        bytes: bytes.to_vec(),
        known: Some(checksum),
    }
}

fn other(name: impl Into<String>, bytes: Vec<u8>) -> Vector {
    Vector {
        name: name.into(),
        bytes,
        known: None,
    }
}

/// The bytes start, start + step, start + 2 * step and so on, modulo 256.
fn stepped(start: usize, step: usize, length: usize) -> Vec<u8> {
    (0..length)
        .map(|i| ((start + step * i) % 256) as u8)
        .collect()
}

/// The checksums of the three texts that are widely published take the words little-endian. In the document's word order
/// the two bytes of each sum change places, since 256 * 256 leaves the remainder 1 on division by 65,535.
fn bytes_exchanged(checksum: u32) -> u32 {
    ((checksum & 0x00FF_00FF) << 8) | ((checksum & 0xFF00_FF00) >> 8)
}

fn vectors() -> Vec<Vector> {
    let mut all = vec![
        known("no bytes", &[], 0x0000_0000),
        known("document 01", &[0x01], 0x0100_0100),
        known("document 00 01", &[0x00, 0x01], 0x0001_0001),
        known("document FF FF", &[0xFF, 0xFF], 0xFFFF_FFFF),
        known(
            "document FF FF 00 01",
            &[0xFF, 0xFF, 0x00, 0x01],
            0x0001_0001,
        ),
        known("HDF5 17", &[0x17], 0x1700_1700),
        known("HDF5 17 BB", &[0x17, 0xBB], 0x17BB_17BB),
        known("HDF5 17 BB 62", &[0x17, 0xBB, 0x62], 0x9176_79BB),
        known("HDF5 17 BB 62 D9", &[0x17, 0xBB, 0x62, 0xD9], 0x924F_7A94),
        known("HDF5 3093 bytes 3 * i", &stepped(0, 3, 3093), 0x085B_4E2A),
        known("text abcde", b"abcde", bytes_exchanged(0xF04F_C729)),
        known("text abcdef", b"abcdef", bytes_exchanged(0x5650_2D2A)),
        known("text abcdefgh", b"abcdefgh", bytes_exchanged(0xEBE1_9591)),
    ];
    for length in 0..=64 {
        all.push(other(format!("pattern {length}"), stepped(11, 37, length)));
    }
    for length in [4096, 65536] {
        all.push(other(format!("{length} bytes FF"), vec![0xFF; length]));
        all.push(other(format!("{length} bytes 00"), vec![0x00; length]));
    }
    all
}

fn main() -> ExitCode {
    let mut lines = String::new();
    let mut differences = 0;
    for vector in vectors() {
        let sum = checksum(&vector.bytes);
        lines += &format!("{} 0x{sum:08x}\n", vector.name);
        if vector.known.is_some_and(|known| known != sum) {
            eprintln!(
                "{}: this program says 0x{sum:08x}, and 0x{:08x} is known",
                vector.name,
                vector.known.unwrap()
            );
            differences += 1;
        }
    }
    print!("{lines}");
    if let Some(path) = std::env::args().nth(1) {
        match std::fs::read_to_string(&path) {
            Ok(text) if text == lines => {}
            Ok(_) => {
                eprintln!("{path}: its lines are not these");
                differences += 1;
            }
            Err(why) => {
                eprintln!("{path}: {why}");
                differences += 1;
            }
        }
    }
    if differences == 0 {
        ExitCode::SUCCESS
    } else {
        ExitCode::FAILURE
    }
}
