//! Plans of histories: legal ones of any shape, and others with chosen faults.

use crate::parts::part;
use crate::words::{text, time};
use crate::{checksum, Random, LIMIT, TIME};

/// An index entry. A fault is laid over the right checksum; 0 leaves it right.
#[derive(Clone, Debug)]
pub struct Entry {
    pub logical: u64,
    pub physical: u64,
    pub page_sum_fault: u32,
    pub entry_sum_fault: u32,
}

impl Entry {
    pub fn new(logical: u64, physical: u64) -> Entry {
        Entry {
            logical,
            physical,
            page_sum_fault: 0,
            entry_sum_fault: 0,
        }
    }
}

/// A record, and what is said about it elsewhere; `None` stands for the truth.
#[derive(Clone, Debug)]
pub struct Record {
    pub at: u64,
    pub start: [u8; 8],
    pub revision: u64,
    pub parent: u64,
    pub time: Vec<u8>,
    pub size: u64,
    pub page: u32,
    pub user: u32,
    pub entry_count: Option<u64>,
    pub name_size: Option<u32>,
    pub comment_size: Option<u32>,
    pub entries: Vec<Entry>,
    pub name: Vec<u8>,
    pub comment: Vec<u8>,
    pub sum_fault: u32,
    pub location_at: Option<u64>,
    pub location_size: Option<u64>,
    pub location_sum_fault: u32,
}

impl Record {
    pub fn length(&self) -> u64 {
        (76 + 24 * self.entries.len() + self.name.len() + self.comment.len()) as u64
    }

    pub fn end(&self) -> u64 {
        self.at + self.length()
    }

    /// The record's bytes, with the checksums of the pages as they stand in the history.
    pub fn bytes(&self, history: &[u8], page: u64) -> Vec<u8> {
        let mut bytes = self.start.to_vec();
        bytes.extend(self.revision.to_le_bytes());
        bytes.extend(self.parent.to_le_bytes());
        bytes.extend(&self.time);
        bytes.extend(self.size.to_le_bytes());
        bytes.extend(self.page.to_le_bytes());
        bytes.extend(self.user.to_le_bytes());
        let count = self.entry_count.unwrap_or(self.entries.len() as u64);
        bytes.extend(count.to_le_bytes());
        let name_size = self.name_size.unwrap_or(self.name.len() as u32);
        bytes.extend(name_size.to_le_bytes());
        let comment_size = self.comment_size.unwrap_or(self.comment.len() as u32);
        bytes.extend(comment_size.to_le_bytes());
        for entry in &self.entries {
            let place = [entry.logical.to_le_bytes(), entry.physical.to_le_bytes()].concat();
            let page_sum = part(history, entry.physical, page).map_or(0, |r| checksum(&history[r]));
            let entry_sum = checksum(&place);
            bytes.extend(place);
            bytes.extend((page_sum ^ entry.page_sum_fault).to_le_bytes());
            bytes.extend((entry_sum ^ entry.entry_sum_fault).to_le_bytes());
        }
        bytes.extend(&self.name);
        bytes.extend(&self.comment);
        bytes.extend((checksum(&bytes) ^ self.sum_fault).to_le_bytes());
        bytes
    }
}

/// A whole history buffer, part by part.
#[derive(Clone, Debug)]
pub struct Plan {
    pub header_start: [u8; 8],
    pub page: u64,
    /// What the header says the page size is.
    pub header_page: u32,
    pub original: u64,
    pub whole_at: u64,
    pub header_whole_at: Option<u64>,
    pub header_whole_size: Option<u64>,
    pub header_sum_fault: u32,
    pub whole_start: [u8; 8],
    pub count: Option<u64>,
    pub whole_sum_fault: u32,
    pub records: Vec<Record>,
    /// Locations that lead nowhere, after those of the records.
    pub idle_locations: u64,
    /// What the buffer held before, and its length.
    pub ground: Vec<u8>,
}

impl Plan {
    pub fn whole_size(&self) -> u64 {
        20 + 20 * (self.records.len() as u64 + self.idle_locations)
    }

    pub fn end(&self) -> u64 {
        self.whole_at + self.whole_size()
    }

    /// Takes in the record of the next revision, with the whole history directly behind it.
    pub fn append(&mut self, record: Record) {
        self.whole_at = record.end();
        self.records.push(record);
    }

    /// Makes the buffer so many bytes longer than it has to be.
    pub fn give_room(&mut self, random: &mut Random, scratch: u64) {
        let last = self.records.iter().map(Record::end).max().unwrap_or(0);
        self.ground = random.bytes((self.end().max(last) + scratch) as usize);
    }

    /// The bytes. Records are written in the order of their addresses, so that a page is final, whatever it overlaps,
    /// before a record has its checksum.
    pub fn build(&self) -> Vec<u8> {
        let mut history = self.ground.clone();
        let mut order: Vec<&Record> = self.records.iter().collect();
        order.sort_by_key(|record| record.at);
        for record in order {
            let bytes = record.bytes(&history, self.page);
            lay(&mut history, record.at, &bytes);
        }
        lay(&mut history, self.whole_at, &self.whole_bytes());
        lay(&mut history, 0, &self.header_bytes());
        history
    }

    fn whole_bytes(&self) -> Vec<u8> {
        let mut bytes = self.whole_start.to_vec();
        let count = self.records.len() as u64 + self.idle_locations;
        bytes.extend(self.count.unwrap_or(count).to_le_bytes());
        for record in &self.records {
            let at = record.location_at.unwrap_or(record.at).to_le_bytes();
            let size = record.location_size.unwrap_or(record.length());
            let place = [at, size.to_le_bytes()].concat();
            let sum = checksum(&place) ^ record.location_sum_fault;
            bytes.extend(place);
            bytes.extend(sum.to_le_bytes());
        }
        for _ in 0..self.idle_locations {
            bytes.extend([0; 20]);
        }
        bytes.extend((checksum(&bytes) ^ self.whole_sum_fault).to_le_bytes());
        bytes
    }

    fn header_bytes(&self) -> Vec<u8> {
        let mut bytes = self.header_start.to_vec();
        bytes.extend(self.header_page.to_le_bytes());
        bytes.extend(self.original.to_le_bytes());
        bytes.extend(self.header_whole_at.unwrap_or(self.whole_at).to_le_bytes());
        let size = self.header_whole_size.unwrap_or(self.whole_size());
        bytes.extend(size.to_le_bytes());
        bytes.extend((checksum(&bytes) ^ self.header_sum_fault).to_le_bytes());
        bytes
    }

    pub fn set_lock(&mut self) {
        self.header_start[5] |= 1;
    }

    pub fn allow_branching(&mut self) {
        self.header_start[5] |= 2;
    }

    /// The logical size of a revision.
    pub fn size_of(&self, revision: u64) -> u64 {
        match revision {
            0 => self.original,
            _ => self.records[revision as usize - 1].size,
        }
    }
}

/// Lays bytes over others; what reaches past them is lost.
fn lay(bytes: &mut [u8], at: u64, part: &[u8]) {
    let start = at.min(bytes.len() as u64) as usize;
    let length = part.len().min(bytes.len() - start);
    bytes[start..start + length].copy_from_slice(&part[..length]);
}

/// The plan of a new history.
pub fn empty(page: u64, original: u64) -> Plan {
    Plan {
        header_start: *b"OHDH\x01\0\0\0",
        page,
        header_page: page as u32,
        original,
        whole_at: 40,
        header_whole_at: None,
        header_whole_size: None,
        header_sum_fault: 0,
        whole_start: *b"OWHR\x01\0\0\0",
        count: None,
        whole_sum_fault: 0,
        records: Vec::new(),
        idle_locations: 0,
        ground: vec![0; 60],
    }
}

/// A record without entries at an address.
pub fn plain_record(revision: u64, at: u64, page: u64, size: u64) -> Record {
    Record {
        at,
        start: *b"ORRS\x01\0\0\0",
        revision,
        parent: revision - 1,
        time: TIME.to_vec(),
        size,
        page: page as u32,
        user: 7,
        entry_count: None,
        name_size: None,
        comment_size: None,
        entries: Vec::new(),
        name: b"ana\0".to_vec(),
        comment: b"\0".to_vec(),
        sum_fault: 0,
        location_at: None,
        location_size: None,
        location_sum_fault: 0,
    }
}

/// Any legal history of a few revisions: records in any order of addresses, pages shared, unaligned and lying over
/// other parts, gaps, any parents, names and comments of all lengths.
pub fn legal(random: &mut Random) -> Plan {
    let page = random.page_size();
    let original = match random.below(5) {
        0 => 0,
        1 => page * random.below(5),
        _ => random.below(6 * page),
    };
    let mut plan = empty(page, original);
    plan.header_start[5] = random.pick(&[0, 2, 2]);
    let revisions = random.below(7);
    let mut order: Vec<u64> = (1..=revisions).collect();
    random.shuffle(&mut order);
    let mut records = Vec::new();
    let mut next = 60;
    for revision in order {
        let gap = random.pick(&[0, 0, 0, 1, 7, 30]);
        let pages = random.pick(&[0, 0, 1, 2, 4]);
        let at = next + gap + page * pages;
        let record = legal_record(random, &plan, &records, revision, at);
        next = record.end();
        records.push(record);
    }
    records.sort_by_key(|record: &Record| record.revision);
    plan.records = records;
    plan.whole_at = match next {
        60 => random.pick(&[40, 40, 41, 60, 99]),
        _ => next + random.pick(&[0, 0, 0, 1, 20]),
    };
    let scratch = match random.below(4) {
        0 => 0,
        1 => random.below(300),
        _ => 700 + page * random.below(8),
    };
    plan.give_room(random, scratch);
    plan
}

fn legal_record(
    random: &mut Random,
    plan: &Plan,
    others: &[Record],
    revision: u64,
    at: u64,
) -> Record {
    let (page, original) = (plan.page, plan.original);
    let size = match random.below(8) {
        0 => original,
        1 => LIMIT - random.below(2) * random.below(page),
        2 => (original + page * 3).next_multiple_of(page),
        _ => original + random.below(8 * page),
    };
    let mut record = plain_record(revision, at, page, size);
    record.parent = match random.below(2) {
        0 => revision - 1,
        _ => random.below(revision),
    };
    record.time = time(random);
    record.user = random.number() as u32;
    record.name = text(random, 64);
    record.comment = text(random, 256);
    if at < 60 + page || size == 0 {
        return record;
    }
    let high = random.one_in(3);
    let mut logicals: Vec<u64> = (0..random.below(8))
        .map(|_| {
            let pages = (size - 1) / page + 1;
            let number = match high {
                true => random.below(pages),
                false => random.below(pages.min(10)),
            };
            number * page
        })
        .collect();
    logicals.sort_unstable();
    logicals.dedup();
    let mut physicals = vec![60, at - page, random.between(60, at - page)];
    for other in others {
        physicals.extend(other.entries.iter().map(|entry| entry.physical));
    }
    physicals.retain(|physical| *physical <= at - page);
    for logical in logicals {
        let physical = match random.below(2) {
            0 => random.between(60, at - page),
            _ => random.pick(&physicals),
        };
        record.entries.push(Entry::new(logical, physical));
    }
    record
}

#[cfg(test)]
mod tests {
    use super::*;
    use crate::{repair, REPAIRS};

    /// The addresses and sizes of the paper's example.
    #[test]
    fn parts_lie_where_the_paper_has_them() {
        let mut plan = empty(16, 20);
        assert_eq!((plan.whole_at, plan.end()), (40, 60));
        let mut first = plain_record(1, 92, 16, 20);
        first.entries = vec![Entry::new(0, 60), Entry::new(16, 76)];
        assert_eq!(first.length(), 129);
        plan.append(first);
        assert_eq!((plan.whole_at, plan.end()), (221, 261));
        let mut second = plain_record(2, 277, 16, 21);
        second.entries = vec![Entry::new(0, 60), Entry::new(16, 261)];
        plan.append(second);
        assert_eq!((plan.whole_at, plan.end()), (406, 466));
    }

    #[test]
    fn the_checksums_of_a_legal_history_need_no_repair() {
        for seed in 0..300 {
            let history = legal(&mut Random::seeded(&[seed])).build();
            for depth in REPAIRS {
                let mut repaired = history.clone();
                repair(&mut repaired, depth);
                assert!(repaired == history, "seed {seed}, {depth:?}");
            }
        }
    }
}
