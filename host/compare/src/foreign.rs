//! Histories that another program could have written: legal ones of any shape, and ones with a single rule of the
//! layout broken and every checksum right, for each clause of rows 2, 3, 5, 7, 8 and 9.

use crate::calls::Store;
use crate::exercise;
use crate::report::Test;
use forge::{Entry, Plan, Random, Record, LIMIT};
use twin::Checked;

pub fn run_legal(test: &mut Test, random: &mut Random, _: u64) {
    let plan = forge::legal(random);
    let store = Store::planned(random, &plan);
    let answer = store.check(test);
    if answer.number != 0 {
        let text = format!("both sides find {answer:?} in a legal history");
        test.differs("check", &text, &format!("{plan:?}"));
    }
    for revision in 0..=plan.records.len() as u64 {
        exercise::read_all_ways(test, &store, random, revision);
    }
    exercise::exercise(test, &store, random);
}

/// The revision and entry that the whole check has to name.
type Place = (u64, u64);

pub struct Rule {
    pub row: u64,
    pub name: &'static str,
    /// Breaks the rule in a legal plan, unless it is not one for it.
    breaks: fn(&mut Plan, &mut Random) -> Option<Place>,
}

pub fn run_rule(test: &mut Test, random: &mut Random, number: u64) {
    let rule = &RULES[number as usize % RULES.len()];
    let (plan, place) = loop {
        let mut plan = forge::legal(random);
        if let Some(place) = (rule.breaks)(&mut plan, random) {
            break (plan, place);
        }
    };
    let store = Store::planned(random, &plan);
    let answer = store.check(test);
    let want = Checked {
        number: rule.row,
        revision: place.0,
        entry: place.1,
    };
    if answer != want {
        let text = format!("both sides answer {answer:?}, not {want:?}");
        let plan = Plan {
            ground: Vec::new(),
            ..plan
        };
        let inputs = format!("rule broken: {}\n  {plan:?}", rule.name);
        test.differs("check", &text, &inputs);
    }
    test.count_rule(rule.row, rule.name);
    let revision = match place.0 {
        0 => forge::NEWEST,
        revision => revision,
    };
    exercise::read_all_ways(test, &store, random, revision);
    let mut opened = store.clone();
    opened.open(test, revision);
    let mut locked = exercise::locked(&store, random);
    let session = exercise::fitting_session(&store, random, revision);
    exercise::use_session(test, &mut locked, random, session);
    exercise::exercise(test, &store, random);
}

/// A record of the plan.
fn any_record<'a>(plan: &'a mut Plan, random: &mut Random) -> Option<&'a mut Record> {
    let count = plan.records.len() as u64;
    plan.records.get_mut(random.below(count) as usize)
}

/// Any record, told its revision; the change is made by the function.
fn in_record(
    plan: &mut Plan,
    random: &mut Random,
    change: impl Fn(&mut Record, &mut Random),
) -> Option<Place> {
    let record = any_record(plan, random)?;
    let revision = record.revision;
    change(record, random);
    Some((revision, 0))
}

/// A record with at least so many entries, and one of them that has so many before it.
fn with_entry(plan: &mut Plan, random: &mut Random, before: usize) -> Option<(usize, usize)> {
    let record = any_record(plan, random)?;
    if record.entries.len() <= before {
        return None;
    }
    let entry = random.between(before as u64, record.entries.len() as u64 - 1) as usize;
    Some((record.revision as usize - 1, entry))
}

/// Any entry; the change is made by the function. The place names the entry.
fn in_entry(
    plan: &mut Plan,
    random: &mut Random,
    change: impl Fn(&mut Entry, &mut Random),
) -> Option<Place> {
    let (record, entry) = with_entry(plan, random, 0)?;
    change(&mut plan.records[record].entries[entry], random);
    Some((record as u64 + 1, entry as u64))
}

/// The same, where only the revision is named.
fn in_entry_unnamed(
    plan: &mut Plan,
    random: &mut Random,
    change: impl Fn(&mut Entry, &mut Random),
) -> Option<Place> {
    in_entry(plan, random, change).map(|(revision, _)| (revision, 0))
}

fn other_byte(byte: &mut u8, random: &mut Random) {
    *byte ^= random.between(1, 255) as u8;
}

fn fault(random: &mut Random) -> u32 {
    1 << random.below(32)
}

/// Changes the record's words, after which all that stands behind it by address moves on.
fn resized(
    plan: &mut Plan,
    random: &mut Random,
    change: impl Fn(&mut Record, &mut Random),
) -> Option<Place> {
    let place = random.below(plan.records.len() as u64) as usize;
    let highest = plan.records.iter().map(|record| record.at).max()?;
    let record = &mut plan.records[place];
    if record.at != highest {
        return None;
    }
    change(record, random);
    let revision = record.revision;
    plan.whole_at = plan.whole_at.max(record.end());
    let scratch = random.below(400);
    plan.give_room(random, scratch);
    Some((revision, 0))
}

/// Tries user IDs until the record's checksum is as wanted.
fn search_user(
    plan: &mut Plan,
    place: usize,
    tries: u32,
    wanted: impl Fn(u32) -> bool,
) -> Option<()> {
    let history = plan.build();
    for user in 0..tries {
        plan.records[place].user = user;
        let bytes = plan.records[place].bytes(&history, plan.page);
        if wanted(forge::number_of_4(&bytes, bytes.len() - 4)) {
            return Some(());
        }
    }
    None
}

/// Changes the ground so that the page of an entry is of equal bytes, and gives its page checksum a fault.
fn equal_page(plan: &mut Plan, random: &mut Random, byte: u8) -> Option<Place> {
    let (record, entry) = with_entry(plan, random, 0)?;
    let physical = plan.records[record].entries[entry].physical;
    let page = physical..physical + plan.page;
    if plan
        .records
        .iter()
        .any(|record| record.at < page.end && page.start < record.end())
    {
        return None;
    }
    plan.ground[page.start as usize..page.end as usize].fill(byte);
    plan.records[record].entries[entry].page_sum_fault = u32::MAX;
    Some((record as u64 + 1, entry as u64))
}

fn rule(row: u64, name: &'static str, breaks: fn(&mut Plan, &mut Random) -> Option<Place>) -> Rule {
    Rule { row, name, breaks }
}

pub static RULES: std::sync::LazyLock<Vec<Rule>> = std::sync::LazyLock::new(|| {
    vec![
        // Row 2: the header.
        rule(2, "header signature", |plan, random| {
            let at = random.below(4) as usize;
            other_byte(&mut plan.header_start[at], random);
            Some((0, 0))
        }),
        rule(2, "header version", |plan, random| {
            other_byte(&mut plan.header_start[4], random);
            Some((0, 0))
        }),
        rule(2, "unknown flag in the first flag byte", |plan, random| {
            plan.header_start[5] |= 1 << random.between(2, 7);
            Some((0, 0))
        }),
        rule(2, "flag in the second flag byte", |plan, random| {
            plan.header_start[6] |= 1 << random.below(8);
            Some((0, 0))
        }),
        rule(2, "flag in the third flag byte", |plan, random| {
            plan.header_start[7] |= 1 << random.below(8);
            Some((0, 0))
        }),
        rule(2, "page size no power of two", |plan, random| {
            plan.header_page = match random.below(2) {
                0 => plan.header_page + random.pick(&[1, 3, 8]),
                _ => random.pick(&[17, 24, 48, 4_095, 4_080]),
            };
            Some((0, 0))
        }),
        rule(2, "page size below 16", |plan, random| {
            plan.header_page = random.pick(&[0, 1, 2, 4, 8]);
            Some((0, 0))
        }),
        rule(2, "page size over 4,096", |plan, random| {
            plan.header_page = random.pick(&[8_192, 65_536, 1 << 24, 1 << 31, u32::MAX]);
            Some((0, 0))
        }),
        rule(2, "original's length over the limit", |plan, random| {
            let wrapped = plan.original + (1 << 32);
            plan.original = random.pick(&[LIMIT + 1, wrapped, 1 << 63, u64::MAX]);
            Some((0, 0))
        }),
        // Row 3.
        rule(3, "header checksum", |plan, random| {
            plan.header_sum_fault = fault(random);
            Some((0, 0))
        }),
        // Row 5: the whole history.
        rule(5, "whole history's address below 40", |plan, random| {
            // The header's last byte is the whole history's first: other lengths of the original are tried until
            // the header's checksum ends in the letter that the signature starts with.
            plan.records.clear();
            plan.whole_at = 39;
            plan.give_room(random, 50);
            while plan.original < 5_000 {
                plan.original += 1;
                if plan.build()[39] == b'O' {
                    return Some((0, 0));
                }
            }
            None
        }),
        rule(
            5,
            "whole history's address in the header",
            |plan, random| {
                plan.header_whole_at = Some(random.below(40));
                Some((0, 0))
            },
        ),
        rule(5, "whole history past the buffer", |plan, random| {
            let end = plan.end();
            let missing = random.between(1, 20 + 20 * plan.records.len() as u64);
            plan.ground.truncate((end - missing).max(40) as usize);
            Some((0, 0))
        }),
        rule(
            5,
            "whole history's address at or past the buffer's end",
            |plan, random| {
                let length = plan.ground.len() as u64;
                let size = plan.whole_size();
                let wrapped = plan.whole_at + (1 << 32);
                let far = random.pick(&[
                    length,
                    length + 1,
                    length - 1,
                    wrapped,
                    1 << 63,
                    u64::MAX,
                    u64::MAX - size,
                    u64::MAX - size + 1,
                    30_u64.wrapping_sub(size),
                ]);
                plan.header_whole_at = Some(far);
                Some((0, 0))
            },
        ),
        rule(5, "whole history's size in the header", |plan, random| {
            let size = plan.whole_size();
            let other = random.pick(&[
                0,
                4,
                19,
                size - 1,
                size + 1,
                size - 20,
                size + 20,
                size + (1 << 32),
                u64::MAX,
                u64::MAX - plan.whole_at + 1,
            ]);
            plan.header_whole_size = Some(other);
            Some((0, 0))
        }),
        rule(5, "whole history's count", |plan, random| {
            let count = plan.records.len() as u64;
            let other = random.pick(&[
                count.wrapping_sub(1),
                count + 1,
                count + (1 << 32),
                count + (1 << 62),
                count + (1 << 63),
                u64::MAX,
            ]);
            plan.count = Some(other);
            Some((0, 0))
        }),
        rule(5, "1,025 locations", |plan, random| {
            plan.idle_locations = 1_025 - plan.records.len() as u64;
            plan.give_room(random, 100);
            Some((0, 0))
        }),
        rule(5, "whole history's signature", |plan, random| {
            let at = random.below(4) as usize;
            other_byte(&mut plan.whole_start[at], random);
            Some((0, 0))
        }),
        rule(5, "whole history's version", |plan, random| {
            other_byte(&mut plan.whole_start[4], random);
            Some((0, 0))
        }),
        rule(5, "whole history's reserved bytes", |plan, random| {
            let at = random.between(5, 7) as usize;
            other_byte(&mut plan.whole_start[at], random);
            Some((0, 0))
        }),
        rule(5, "whole history's checksum", |plan, random| {
            plan.whole_sum_fault = fault(random);
            Some((0, 0))
        }),
        rule(5, "a location's checksum", |plan, random| {
            any_record(plan, random)?.location_sum_fault = fault(random);
            Some((0, 0))
        }),
        // Row 7: a record.
        rule(7, "1,024 locations, the last ones idle", |plan, random| {
            let count = plan.records.len() as u64;
            plan.idle_locations = 1_024 - count;
            plan.give_room(random, 100);
            Some((count + 1, 0))
        }),
        rule(7, "record's address below 60", |plan, random| {
            let record = plan.records.iter_mut().min_by_key(|record| record.at)?;
            if record.at != 60 {
                return None;
            }
            record.at -= random.pick(&[1, 2, 10, 20]);
            Some((record.revision, 0))
        }),
        rule(7, "record's address somewhere else", |plan, random| {
            let length = plan.ground.len() as u64;
            in_record(plan, random, |record, random| {
                let size = record.length();
                record.location_at = Some(random.pick(&[
                    0,
                    1,
                    59,
                    record.at + (1 << 32),
                    length,
                    LIMIT,
                    1 << 63,
                    u64::MAX,
                    u64::MAX - size,
                    u64::MAX - size + 1,
                    60_u64.wrapping_sub(size),
                ]));
            })
        }),
        rule(7, "record's size in its location", |plan, random| {
            in_record(plan, random, |record, random| {
                let size = record.length();
                record.location_size = Some(random.pick(&[
                    0,
                    4,
                    75,
                    size - 1,
                    size + 1,
                    size - 24,
                    size + 24,
                    size + (1 << 32),
                    u64::MAX,
                    u64::MAX - record.at + 1,
                ]));
            })
        }),
        rule(7, "record past the whole history", |plan, random| {
            let place = random.below(plan.records.len() as u64) as usize;
            let end = plan.end();
            let record = plan.records.get_mut(place)?;
            record.at = end + random.below(40);
            let revision = record.revision;
            plan.give_room(random, 30);
            Some((revision, 0))
        }),
        rule(
            7,
            "record past the whole history's start by one byte",
            |plan, random| {
                let place = (0..plan.records.len()).max_by_key(|k| plan.records[*k].at)?;
                plan.whole_at = plan.records[place].end() - 1;
                plan.give_room(random, 50);
                search_user(plan, place, 20_000, |sum| sum >> 24 == u32::from(b'O'))?;
                Some((plan.records[place].revision, 0))
            },
        ),
        rule(7, "record's signature", |plan, random| {
            in_record(plan, random, |record, random| {
                let at = random.below(4) as usize;
                other_byte(&mut record.start[at], random);
            })
        }),
        rule(7, "record's version", |plan, random| {
            in_record(plan, random, |record, random| {
                other_byte(&mut record.start[4], random)
            })
        }),
        rule(7, "record's reserved bytes", |plan, random| {
            in_record(plan, random, |record, random| {
                let at = random.between(5, 7) as usize;
                other_byte(&mut record.start[at], random);
            })
        }),
        rule(7, "revision not k", |plan, random| {
            in_record(plan, random, |record, random| {
                let k = record.revision;
                record.revision =
                    random.pick(&[k - 1, k + 1, k + (1 << 32), k + (1 << 63), u64::MAX]);
            })
        }),
        rule(7, "parent not below k", |plan, random| {
            in_record(plan, random, |record, random| {
                let k = record.revision;
                let wrapped = record.parent + (1 << 32);
                record.parent = random.pick(&[k, k + 1, wrapped, 1 << 63, u64::MAX]);
            })
        }),
        rule(7, "time", |plan, random| {
            in_record(plan, random, |record, random| {
                record.time = forge::wrong_time(random)
            })
        }),
        rule(
            7,
            "logical size below the original's length",
            |plan, random| {
                let original = plan.original;
                if original == 0 {
                    return None;
                }
                in_record(plan, random, |record, random| {
                    record.size = match random.below(2) {
                        0 => original - 1,
                        _ => random.below(original),
                    };
                    let size = record.size;
                    record.entries.retain(|entry| entry.logical < size);
                })
            },
        ),
        rule(7, "logical size over its limit", |plan, random| {
            in_record(plan, random, |record, random| {
                let wrapped = record.size + (1 << 32);
                record.size = random.pick(&[LIMIT + 1, wrapped, 1 << 63, u64::MAX]);
            })
        }),
        rule(7, "page size not the header's", |plan, random| {
            in_record(plan, random, |record, random| {
                let page = record.page;
                record.page = random.pick(&[0, 1, page / 2, page * 2, page + 1, u32::MAX]);
            })
        }),
        rule(7, "entry count", |plan, random| {
            in_record(plan, random, |record, random| {
                let count = record.entries.len() as u64;
                record.entry_count = Some(random.pick(&[
                    count + 1,
                    count.wrapping_sub(1),
                    count + (1 << 32),
                    count + (1 << 61),
                    count + (1 << 62),
                    count + (1 << 63),
                    u64::MAX,
                ]));
            })
        }),
        rule(7, "4,097 entries", |plan, random| {
            if plan.page != 16 {
                return None;
            }
            resized(plan, random, |record, _| {
                record.at = record.at.max(76);
                record.size = LIMIT;
                record.entries = (0..4_097).map(|k| Entry::new(16 * k, 60)).collect();
            })
        }),
        rule(7, "name of 0 bytes", |plan, random| {
            resized(plan, random, |record, _| record.name.clear())
        }),
        rule(7, "name of 65 bytes", |plan, random| {
            resized(plan, random, |record, _| {
                record.name = [[b'n'; 64].as_slice(), &[0]].concat()
            })
        }),
        rule(7, "comment of 0 bytes", |plan, random| {
            resized(plan, random, |record, _| record.comment.clear())
        }),
        rule(7, "comment of 257 bytes", |plan, random| {
            resized(plan, random, |record, _| {
                record.comment = [[b'c'; 256].as_slice(), &[0]].concat()
            })
        }),
        rule(7, "name's or comment's size", |plan, random| {
            in_record(plan, random, |record, random| {
                let (name, comment) = (record.name.len() as u32, record.comment.len() as u32);
                match random.below(5) {
                    0 => record.name_size = Some(name + 1),
                    1 => record.comment_size = Some(comment - 1),
                    2 => record.name_size = Some(random.pick(&[0, 65, 1 << 31, u32::MAX])),
                    3 => record.comment_size = Some(random.pick(&[0, 257, 1 << 31, u32::MAX])),
                    _ => {
                        // The record's size stays its layout's, and the border between the two is elsewhere.
                        record.name_size = Some(name + 1);
                        record.comment_size = Some(comment - 1);
                    }
                }
            })
        }),
        rule(7, "byte of the name", |plan, random| {
            resized(plan, random, |record, random| {
                record.name = forge::wrong_text(random, 64)
            })
        }),
        rule(7, "byte of the comment", |plan, random| {
            resized(plan, random, |record, random| {
                record.comment = forge::wrong_text(random, 256)
            })
        }),
        rule(7, "logical address no multiple of p", |plan, random| {
            let page = plan.page;
            let (record, entry) = with_entry(plan, random, 0)?;
            let record = &mut plan.records[record];
            let rest = (record.size - record.entries[entry].logical).min(page);
            if rest < 2 {
                return None;
            }
            record.entries[entry].logical += random.between(1, rest - 1);
            Some((record.revision, 0))
        }),
        rule(7, "logical addresses equal", |plan, random| {
            let (record, entry) = with_entry(plan, random, 1)?;
            let entries = &mut plan.records[record].entries;
            entries[entry].logical = entries[entry - 1].logical;
            Some((record as u64 + 1, 0))
        }),
        rule(7, "logical addresses fall", |plan, random| {
            let (record, entry) = with_entry(plan, random, 1)?;
            plan.records[record].entries.swap(entry - 1, entry);
            Some((record as u64 + 1, 0))
        }),
        rule(
            7,
            "logical address not below the logical size",
            |plan, random| {
                let page = plan.page;
                in_record_with_last(plan, random, |record, random| {
                    let past = record.size.next_multiple_of(page);
                    let last = record.entries.len() - 1;
                    let entry = &mut record.entries[last];
                    entry.logical = random.pick(&[
                        past,
                        past + page,
                        entry.logical + (1 << 32),
                        1 << 63,
                        u64::MAX - page + 1,
                    ]);
                })
            },
        ),
        rule(7, "physical address below 60", |plan, random| {
            in_entry_unnamed(plan, random, |entry, random| {
                entry.physical = random.pick(&[59, 58, 44, 40, 39, 1, 0])
            })
        }),
        rule(7, "page past its record's start", |plan, random| {
            let page = plan.page;
            let (record, entry) = with_entry(plan, random, 0)?;
            let record = &mut plan.records[record];
            let wrapped = record.entries[entry].physical + (1 << 32);
            record.entries[entry].physical = random.pick(&[
                record.at - page + 1,
                record.at - page + 2,
                record.at - 1,
                record.at,
                record.at + 1,
                wrapped,
                LIMIT,
                1 << 63,
                u64::MAX,
                u64::MAX - page,
                u64::MAX - page + 1,
                60_u64.wrapping_sub(page),
            ]);
            Some((record.revision, 0))
        }),
        // Row 8.
        rule(8, "record's checksum", |plan, random| {
            in_record(plan, random, |record, random| {
                record.sum_fault = fault(random)
            })
        }),
        rule(8, "record's checksum 0 for 65,535", |plan, _| {
            let place = (0..plan.records.len()).max_by_key(|k| plan.records[*k].at)?;
            plan.records[place].user = 0;
            let history = plan.build();
            let record = &mut plan.records[place];
            let bytes = record.bytes(&history, plan.page);
            // The user ID's first word makes up what the first sum lacks of 65,535.
            let lacking = 0xFFFF - forge::number_of_4(&bytes, bytes.len() - 4) as u16;
            record.user = u32::from(lacking.swap_bytes());
            record.sum_fault = 0xFFFF;
            Some((record.revision, 0))
        }),
        rule(8, "an entry's checksum", |plan, random| {
            in_entry_unnamed(plan, random, |entry, random| {
                entry.entry_sum_fault = fault(random)
            })
        }),
        // Row 9.
        rule(9, "a page's checksum", |plan, random| {
            in_entry(plan, random, |entry, random| {
                entry.page_sum_fault = fault(random)
            })
        }),
        rule(9, "the checksum 0 of a page of FF", |plan, random| {
            equal_page(plan, random, 0xFF)
        }),
        rule(
            9,
            "the checksum FFFFFFFF of a page of zeros",
            |plan, random| equal_page(plan, random, 0),
        ),
    ]
});

/// A record with entries.
fn in_record_with_last(
    plan: &mut Plan,
    random: &mut Random,
    change: impl Fn(&mut Record, &mut Random),
) -> Option<Place> {
    let (record, _) = with_entry(plan, random, 0)?;
    change(&mut plan.records[record], random);
    Some((record as u64 + 1, 0))
}
