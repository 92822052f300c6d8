//! Histories with bytes flipped, cut off or set to other numbers, with checksums repaired to every depth.

use crate::calls::Store;
use crate::exercise;
use crate::report::Test;
use forge::{Random, Repair, EXTREMES};

/// A legal history, and an original for it.
fn base(random: &mut Random) -> Store {
    let plan = forge::legal(random);
    Store::planned(random, &plan)
}

pub fn run(test: &mut Test, random: &mut Random, _: u64) {
    let store = base(random);
    for _ in 0..6 {
        let mut history = store.history().to_vec();
        damage(random, &mut history);
        if random.one_in(6) {
            damage(random, &mut history);
        }
        let depth = random.pick(&forge::REPAIRS);
        forge::repair(&mut history, depth);
        let damaged = store.with_history(random, &history);
        exercise::exercise(test, &damaged, random);
    }
}

/// Flips bits, gives a byte or a field another value, or cuts the history off; a byte is left at least.
fn damage(random: &mut Random, history: &mut Vec<u8>) {
    match random.below(10) {
        0..=2 => {
            for _ in 0..random.between(1, 3) {
                let at = random.below(history.len() as u64) as usize;
                history[at] ^= 1 << random.below(8);
            }
        }
        3 => {
            let at = random.below(history.len() as u64) as usize;
            history[at] = random.number() as u8;
        }
        4 => {
            let length = history.len() as u64;
            let end = forge::committed_end(history).min(length);
            let length = match random.below(4) {
                0 => random.below(length + 1),
                1 => end - random.below(3).min(end),
                2 => random.pick(&[0, 1, 39, 40, 41, 59, 60, 61]).min(length),
                _ => end,
            };
            history.truncate(length as usize);
        }
        _ => {
            let fields = forge::fields(history);
            if fields.is_empty() {
                return;
            }
            let field = fields[random.below(fields.len() as u64) as usize].clone();
            forge::change(random, &mut history[field]);
        }
    }
    if history.is_empty() {
        history.push(0);
    }
}

/// Every field of one history set to every extreme number, with all checksums repaired and with none.
pub fn run_extremes(test: &mut Test, random: &mut Random, number: u64) {
    let store = base(random);
    let fields = forge::fields(store.history());
    let value = EXTREMES[number as usize % EXTREMES.len()];
    for field in fields {
        if field.len() < 4 {
            continue;
        }
        let mut history = store.history().to_vec();
        let width = field.len();
        history[field].copy_from_slice(&value.to_le_bytes()[..width]);
        let depth = random.pick(&[
            Repair::Nothing,
            Repair::Entries,
            Repair::Pages,
            Repair::Pages,
        ]);
        forge::repair(&mut history, depth);
        let damaged = store.with_history(random, &history);
        exercise::exercise(test, &damaged, random);
    }
}
