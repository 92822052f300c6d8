//! The fields of a history, to give them other values.

use crate::{entries, locations, record, whole, Random};
use std::ops::Range;

/// Where the fields of a history lie, as far as they can be found.
pub fn fields(history: &[u8]) -> Vec<Range<usize>> {
    let mut fields = Vec::new();
    let mut add = |start: usize, places: &[(usize, usize)]| {
        fields.extend(
            places
                .iter()
                .map(|(at, width)| start + at..start + at + width),
        );
    };
    if history.len() < 40 {
        return fields;
    }
    add(
        0,
        &[
            (0, 4),
            (4, 1),
            (5, 1),
            (6, 1),
            (7, 1),
            (8, 4),
            (12, 8),
            (20, 8),
            (28, 8),
            (36, 4),
        ],
    );
    if let Some(whole) = whole(history) {
        add(
            whole.start,
            &[(0, 4), (4, 1), (5, 3), (8, 8), (whole.len() - 4, 4)],
        );
    }
    for location in locations(history) {
        add(location, &[(0, 8), (8, 8), (16, 4)]);
        let Some(record) = record(history, location) else {
            continue;
        };
        add(
            record.start,
            &[
                (0, 4),
                (4, 1),
                (5, 3),
                (8, 8),
                (16, 8),
                (24, 4),
                (28, 2),
                (30, 2),
                (32, 1),
                (33, 2),
                (35, 2),
                (37, 2),
                (39, 1),
                (40, 8),
                (48, 4),
                (52, 4),
                (56, 8),
                (64, 4),
                (68, 4),
                (record.len() - 4, 4),
            ],
        );
        let entries = entries(history, &record);
        let texts = 72 + 24 * entries.len();
        for entry in entries {
            add(entry, &[(0, 8), (8, 8), (16, 4), (20, 4)]);
        }
        for at in texts..record.len() - 4 {
            add(record.start, &[(at, 1)]);
        }
    }
    fields
}

/// Gives a field another number, often one near its own.
pub fn change(random: &mut Random, field: &mut [u8]) {
    let mut number = [0; 8];
    number[..field.len()].copy_from_slice(field);
    let number = random.extreme(u64::from_le_bytes(number)).to_le_bytes();
    field.copy_from_slice(&number[..field.len()]);
}
