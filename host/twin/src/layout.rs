//! Sizes allowed, and where everything stands in a history.

use crate::checksum::{checksum, checksum_16};

/// Most bytes of an original, of a revision and of a history buffer.
pub const LIMIT: u64 = 16_777_216;
/// Most revisions of a history.
pub const REVISIONS: u64 = 1_024;
/// Most entries of a record.
pub const ENTRIES: u64 = 4_096;
/// Most pages touched in a session.
pub const TOUCHED: usize = 256;
/// Most bytes of a user name with its closing zero.
pub const NAME: u64 = 64;
/// Most bytes of a comment with its closing zero.
pub const COMMENT: u64 = 256;

/// The revision number that asks for the newest.
pub const NEWEST: u64 = u64::MAX;

pub const HEADER: usize = 40;
/// A whole history without its locations.
pub const WHOLE: usize = 20;
/// What creation writes; no record or page can stand ahead of it.
pub const CREATED: usize = HEADER + WHOLE;
/// Where the locations start in the whole history.
pub const LOCATIONS: usize = 16;
pub const LOCATION: usize = 20;
/// A record without entries, name and comment.
pub const RECORD: usize = 76;
/// Where the time starts in a record, and its bytes.
pub const TIME: usize = 24;
pub const TIME_SIZE: usize = 16;
/// Where the entries start in a record.
pub const INDEX: usize = 72;
pub const ENTRY: usize = 24;

const HEADER_SIGNATURE: &[u8; 4] = b"OHDH";
const WHOLE_SIGNATURE: &[u8; 4] = b"OWHR";
const RECORD_SIGNATURE: &[u8; 4] = b"ORRS";
const VERSION: u8 = 1;

const LOCK: u8 = 1;
const BRANCHING: u8 = 2;

/// The little-endian number at a place; the caller knows that it is there.
pub fn u32_at(bytes: &[u8], at: usize) -> u32 {
    let mut field = [0; 4];
    field.copy_from_slice(&bytes[at..at + 4]);
    u32::from_le_bytes(field)
}

/// The little-endian number at a place; the caller knows that it is there.
pub fn u64_at(bytes: &[u8], at: usize) -> u64 {
    let mut field = [0; 8];
    field.copy_from_slice(&bytes[at..at + 8]);
    u64::from_le_bytes(field)
}

/// Whether the last four bytes are the checksum of all before them.
pub fn sealed(bytes: &[u8]) -> bool {
    bytes
        .split_last_chunk()
        .is_some_and(|(body, seal)| checksum(body) == u32::from_le_bytes(*seal))
}

/// Makes the last four bytes the checksum of all before them.
pub fn seal(bytes: &mut [u8]) {
    if let Some((body, seal)) = bytes.split_last_chunk_mut() {
        *seal = checksum(body).to_le_bytes();
    }
}

/// Writes parts one after the other into room of the right size.
pub struct Pen<'a>(&'a mut [u8]);

impl<'a> Pen<'a> {
    pub fn new(room: &'a mut [u8]) -> Self {
        Pen(room)
    }

    pub fn put(&mut self, part: &[u8]) -> &mut Self {
        let (here, rest) = std::mem::take(&mut self.0).split_at_mut(part.len());
        here.copy_from_slice(part);
        self.0 = rest;
        self
    }

    /// Signature, version and the three reserved bytes.
    fn begin(&mut self, signature: &[u8; 4]) -> &mut Self {
        self.put(signature).put(&[VERSION, 0, 0, 0])
    }
}

/// Whether bytes start with this signature, version 1 and three zeros.
fn begun(bytes: &[u8], signature: &[u8; 4]) -> bool {
    bytes.starts_with(signature) && bytes[4..8] == [VERSION, 0, 0, 0]
}

pub fn is_page_size(page: u64) -> bool {
    page.is_power_of_two() && (16..=4_096).contains(&page)
}

/// `YYYYMMDDThhmmssZ`.
pub fn is_time(time: &[u8]) -> bool {
    let Ok(time) = <&[u8; TIME_SIZE]>::try_from(time) else {
        return false;
    };
    let digits = |part: &[u8]| part.iter().all(u8::is_ascii_digit);
    let two = |at: usize| 10 * (time[at] - b'0') + (time[at + 1] - b'0');
    digits(&time[..8])
        && time[8] == b'T'
        && digits(&time[9..15])
        && time[15] == b'Z'
        && (1..=12).contains(&two(4))
        && (1..=31).contains(&two(6))
        && two(9) <= 23
        && two(11) <= 59
        && two(13) <= 59
}

/// A name or comment of at most so many bytes: printable and closed by its
/// only zero byte.
pub fn is_text(text: &[u8], most: u64) -> bool {
    text.len() as u64 <= most
        && text
            .split_last()
            .is_some_and(|(zero, rest)| *zero == 0 && rest.iter().all(|b| matches!(b, 0x20..=0x7E)))
}

/// The header's fields.
#[derive(Clone, Copy)]
pub struct Header {
    pub locked: bool,
    pub branching: bool,
    pub page: u64,
    pub original: u64,
    pub whole_at: u64,
    pub whole_size: u64,
}

impl Header {
    /// The fields as they stand, unless one of them is against the layout. The
    /// checksum and what lies at the whole history's address are not looked at.
    pub fn decode(bytes: &[u8; HEADER]) -> Option<Header> {
        let flags = bytes[5];
        let header = Header {
            locked: flags & LOCK != 0,
            branching: flags & BRANCHING != 0,
            page: u64::from(u32_at(bytes, 8)),
            original: u64_at(bytes, 12),
            whole_at: u64_at(bytes, 20),
            whole_size: u64_at(bytes, 28),
        };
        let fine = bytes.starts_with(HEADER_SIGNATURE)
            && bytes[4] == VERSION
            && flags & !(LOCK | BRANCHING) == 0
            && bytes[6..8] == [0, 0]
            && is_page_size(header.page)
            && header.original <= LIMIT;
        fine.then_some(header)
    }

    /// Writes these fields at the start of the history. A header that was
    /// judged right has no other bytes, so this also rewrites it in place.
    pub fn write(&self, history: &mut [u8]) {
        let lock = if self.locked { LOCK } else { 0 };
        let branching = if self.branching { BRANCHING } else { 0 };
        let bytes = &mut history[..HEADER];
        Pen::new(bytes)
            .put(HEADER_SIGNATURE)
            .put(&[VERSION, lock | branching, 0, 0])
            .put(&(self.page as u32).to_le_bytes())
            .put(&self.original.to_le_bytes())
            .put(&self.whole_at.to_le_bytes())
            .put(&self.whole_size.to_le_bytes());
        seal(bytes);
    }
}

/// Where a record lies.
#[derive(Clone, Copy)]
pub struct Location {
    pub at: u64,
    pub size: u64,
}

impl Location {
    pub fn decode(bytes: &[u8; LOCATION]) -> Location {
        Location {
            at: u64_at(bytes, 0),
            size: u64_at(bytes, 8),
        }
    }

    pub fn encode(&self) -> [u8; LOCATION] {
        let mut bytes = [0; LOCATION];
        Pen::new(&mut bytes)
            .put(&self.at.to_le_bytes())
            .put(&self.size.to_le_bytes());
        seal(&mut bytes);
        bytes
    }

    pub fn is_sealed(bytes: &[u8; LOCATION]) -> bool {
        bytes
            .first_chunk()
            .is_some_and(|pair| checksum_16(pair) == u32_at(bytes, 16))
    }
}

/// The number of locations, if these bytes are a whole history with a right
/// start whose size fits its own count. Checksums are not looked at.
pub fn whole_count(bytes: &[u8]) -> Option<u64> {
    if bytes.len() < WHOLE || !begun(bytes, WHOLE_SIGNATURE) {
        return None;
    }
    let count = u64_at(bytes, 8);
    let fine = count <= REVISIONS && bytes.len() == whole_size(count);
    fine.then_some(count)
}

/// Bytes of a whole history with an allowed number of locations.
pub fn whole_size(count: u64) -> usize {
    WHOLE + LOCATION * count as usize
}

/// Writes a whole history of so many locations: the old, then those added.
pub fn write_whole(bytes: &mut [u8], count: u64, old: &[u8], added: &[u8]) {
    Pen::new(bytes)
        .begin(WHOLE_SIGNATURE)
        .put(&count.to_le_bytes())
        .put(old)
        .put(added);
    seal(bytes);
}

/// An entry of the index, as it is stored.
pub type RawEntry = [u8; ENTRY];

/// An entry's fields.
#[derive(Clone, Copy)]
pub struct Entry {
    pub logical: u64,
    pub physical: u64,
    pub page_sum: u32,
    pub entry_sum: u32,
}

impl Entry {
    pub fn decode(bytes: &RawEntry) -> Entry {
        Entry {
            logical: u64_at(bytes, 0),
            physical: u64_at(bytes, 8),
            page_sum: u32_at(bytes, 16),
            entry_sum: u32_at(bytes, 20),
        }
    }

    /// The entry of a page, with its own checksum worked out.
    pub fn encode(logical: u64, physical: u64, page_sum: u32) -> RawEntry {
        let mut addresses = [0; 16];
        addresses[..8].copy_from_slice(&logical.to_le_bytes());
        addresses[8..].copy_from_slice(&physical.to_le_bytes());
        let mut bytes = [0; ENTRY];
        Pen::new(&mut bytes)
            .put(&addresses)
            .put(&page_sum.to_le_bytes())
            .put(&checksum_16(&addresses).to_le_bytes());
        bytes
    }

    pub fn is_sealed(bytes: &RawEntry) -> bool {
        bytes
            .first_chunk()
            .is_some_and(|addresses| checksum_16(addresses) == u32_at(bytes, 20))
    }
}

/// Where the entry of a page stands in a sorted index, or would stand.
pub fn find(index: &[RawEntry], logical: u64) -> Result<usize, usize> {
    index.binary_search_by(|raw| Entry::decode(raw).logical.cmp(&logical))
}

/// A record's fields ahead of its index.
#[derive(Clone, Copy)]
pub struct Head<'a> {
    pub revision: u64,
    pub parent: u64,
    pub time: &'a [u8],
    pub size: u64,
    pub page: u32,
    pub user: u32,
    pub entries: u64,
    pub name_size: u32,
    pub comment_size: u32,
}

impl<'a> Head<'a> {
    /// The fields as they stand; nothing but the record's start is judged.
    pub fn decode(bytes: &'a [u8; INDEX]) -> Option<Head<'a>> {
        begun(bytes, RECORD_SIGNATURE).then(|| Head {
            revision: u64_at(bytes, 8),
            parent: u64_at(bytes, 16),
            time: &bytes[TIME..TIME + TIME_SIZE],
            size: u64_at(bytes, 40),
            page: u32_at(bytes, 48),
            user: u32_at(bytes, 52),
            entries: entry_count(bytes),
            name_size: u32_at(bytes, 64),
            comment_size: u32_at(bytes, 68),
        })
    }

    pub fn write(&self, pen: &mut Pen) {
        pen.begin(RECORD_SIGNATURE)
            .put(&self.revision.to_le_bytes())
            .put(&self.parent.to_le_bytes())
            .put(self.time)
            .put(&self.size.to_le_bytes())
            .put(&self.page.to_le_bytes())
            .put(&self.user.to_le_bytes())
            .put(&self.entries.to_le_bytes())
            .put(&self.name_size.to_le_bytes())
            .put(&self.comment_size.to_le_bytes());
    }

    /// Bytes of the whole record, if its counts keep to the sizes allowed;
    /// judged first, since the sum of any others need not fit a number.
    pub fn record_size(&self) -> Option<usize> {
        let (name, comment) = (u64::from(self.name_size), u64::from(self.comment_size));
        (self.entries <= ENTRIES && name <= NAME && comment <= COMMENT)
            .then(|| RECORD + ENTRY * self.entries as usize + name as usize + comment as usize)
    }
}

/// How many entries a record says it has.
pub fn entry_count(head: &[u8; INDEX]) -> u64 {
    u64_at(head, 56)
}

/// A record taken apart. Index, name and comment stay where they are stored.
#[derive(Clone, Copy)]
pub struct Record<'a> {
    pub head: Head<'a>,
    pub index: &'a [RawEntry],
    pub name: &'a [u8],
    pub comment: &'a [u8],
}

impl<'a> Record<'a> {
    /// The parts, if the bytes start as a record and are exactly as many as
    /// its counts call for. Other fields and the checksums are not judged.
    pub fn decode(bytes: &'a [u8]) -> Option<Record<'a>> {
        let head = Head::decode(bytes.first_chunk()?)?;
        if head.record_size()? != bytes.len() {
            return None;
        }
        let (index, texts) = bytes[INDEX..].split_at(ENTRY * head.entries as usize);
        let (name, rest) = texts.split_at(head.name_size as usize);
        Some(Record {
            head,
            index: index.as_chunks().0,
            name,
            comment: &rest[..head.comment_size as usize],
        })
    }
}
