//! The table of refusals. Each function judges the rows that it names; a call
//! asks them in its own order, and changes nothing before the last has passed.

use crate::checksum::checksum;
use crate::layout::{
    self, Entry, Header, Location, RawEntry, Record, COMMENT, CREATED, ENTRIES, HEADER, LIMIT,
    LOCATION, LOCATIONS, NAME, NEWEST, REVISIONS, TOUCHED,
};
use crate::session::Session;

/// The numbers of the refusals.
#[derive(Clone, Copy, PartialEq, Eq, Debug)]
#[repr(u64)]
pub enum Row {
    HistoryLength = 1,
    Header = 2,
    HeaderSum = 3,
    OriginalLength = 4,
    WholeHistory = 5,
    NoRevision = 6,
    Record = 7,
    RecordSum = 8,
    PageSum = 9,
    Outside = 10,
    Locked = 11,
    NotNewest = 12,
    Session = 13,
    TooMany = 14,
    NoRoom = 15,
    Words = 16,
    Creation = 17,
    Full = 18,
    PastLimit = 19,
    NotStored = 20,
}

/// A call's number: that of the refusal, or 0.
pub fn number<T>(outcome: &Result<T, Row>) -> u64 {
    match outcome {
        Ok(_) => 0,
        Err(row) => *row as u64,
    }
}

/// Accepted when the row does not hold.
pub fn unless(holds: bool, row: Row) -> Result<(), Row> {
    if holds {
        Err(row)
    } else {
        Ok(())
    }
}

/// Row 1: a history of at least so many bytes.
pub fn history_length(history: &[u8], least: usize) -> Result<(), Row> {
    let holds = history.len() < least || history.len() as u64 > LIMIT;
    unless(holds, Row::HistoryLength)
}

/// Rows 1, 2 and 3.
pub fn header(history: &[u8]) -> Result<Header, Row> {
    history_length(history, HEADER)?;
    let bytes = history.first_chunk().ok_or(Row::HistoryLength)?;
    let header = Header::decode(bytes).ok_or(Row::Header)?;
    unless(!layout::sealed(bytes), Row::HeaderSum)?;
    Ok(header)
}

/// What is known of a history whose header and whole history are right. It
/// borrows nothing, so that a writer may split the buffer at the end.
#[derive(Clone, Copy)]
pub struct Standing {
    pub header: Header,
    pub count: u64,
}

impl Standing {
    pub fn page(&self) -> usize {
        self.header.page as usize
    }

    /// The committed end; row 5 made sure that it lies in the buffer.
    pub fn end(&self) -> usize {
        (self.header.whole_at + self.header.whole_size) as usize
    }

    /// The locations as they are stored.
    pub fn locations<'a>(&self, committed: &'a [u8]) -> &'a [[u8; LOCATION]] {
        let start = self.header.whole_at as usize + LOCATIONS;
        let bytes = LOCATION * self.count as usize;
        committed[start..start + bytes].as_chunks().0
    }

    /// Where the record of revision k, 1 to the count, lies.
    pub fn location(&self, committed: &[u8], k: u64) -> Location {
        Location::decode(&self.locations(committed)[k as usize - 1])
    }
}

/// Rows 1, 2, 3 and 5.
pub fn standing(history: &[u8]) -> Result<Standing, Row> {
    whole_history(history, header(history)?)
}

/// Rows 1 to 5.
pub fn standing_over(original: &[u8], history: &[u8]) -> Result<Standing, Row> {
    let header = header(history)?;
    let holds = original.len() as u64 != header.original;
    unless(holds, Row::OriginalLength)?;
    whole_history(history, header)
}

/// Row 5.
fn whole_history(history: &[u8], header: Header) -> Result<Standing, Row> {
    let bytes = part(history, header.whole_at, header.whole_size).ok_or(Row::WholeHistory)?;
    unless(header.whole_at < HEADER as u64, Row::WholeHistory)?;
    let count = layout::whole_count(bytes).ok_or(Row::WholeHistory)?;
    unless(!layout::sealed(bytes), Row::WholeHistory)?;
    let standing = Standing { header, count };
    let locations = standing.locations(history);
    unless(
        !locations.iter().all(Location::is_sealed),
        Row::WholeHistory,
    )?;
    Ok(standing)
}

/// The bytes of a part that stored numbers describe, if it is there.
fn part(bytes: &[u8], at: u64, size: u64) -> Option<&[u8]> {
    let end = at.checked_add(size)?;
    bytes.get(usize::try_from(at).ok()?..usize::try_from(end).ok()?)
}

/// Row 6: the revision meant by a number.
pub fn revision(standing: &Standing, asked: u64) -> Result<u64, Row> {
    match asked {
        NEWEST => Ok(standing.count),
        _ if asked > standing.count => Err(Row::NoRevision),
        _ => Ok(asked),
    }
}

/// Rows 7 and 8 for revision k, 1 to the count.
pub fn record<'a>(committed: &'a [u8], standing: &Standing, k: u64) -> Result<Record<'a>, Row> {
    let location = standing.location(committed, k);
    // Ahead of the whole history, so what lies past it cannot be reached.
    let ahead = &committed[..standing.header.whole_at as usize];
    let bytes = part(ahead, location.at, location.size).ok_or(Row::Record)?;
    let record = Record::decode(bytes).ok_or(Row::Record)?;
    unless(
        !keeps_layout(&record, location.at, standing, k),
        Row::Record,
    )?;
    let right = layout::sealed(bytes) && record.index.iter().all(Entry::is_sealed);
    unless(!right, Row::RecordSum)?;
    Ok(record)
}

/// Row 7 for a record of the right size that lies ahead of the whole history.
fn keeps_layout(record: &Record, at: u64, standing: &Standing, k: u64) -> bool {
    let head = &record.head;
    let header = &standing.header;
    at >= CREATED as u64
        && head.revision == k
        && head.parent < k
        && layout::is_time(head.time)
        && (header.original..=LIMIT).contains(&head.size)
        && u64::from(head.page) == header.page
        && layout::is_text(record.name, NAME)
        && layout::is_text(record.comment, COMMENT)
        && index_keeps_layout(record.index, header.page, head.size, at)
}

fn index_keeps_layout(index: &[RawEntry], page: u64, size: u64, record_at: u64) -> bool {
    let mut least = 0;
    index.iter().all(|raw| {
        let entry = Entry::decode(raw);
        let fine = entry.logical & (page - 1) == 0
            && (least..size).contains(&entry.logical)
            && entry.physical >= CREATED as u64
            && entry.physical.saturating_add(page) <= record_at;
        // Any address after this one, so that they rise strictly. One that is
        // as high as numbers go was below no size.
        least = entry.logical.saturating_add(1);
        fine
    })
}

/// A revision's logical size and index.
#[derive(Clone, Copy)]
pub struct Revision<'a> {
    pub size: u64,
    pub index: &'a [RawEntry],
}

/// Rows 7 and 8 for revision k, 0 to the count. The original has no record,
/// hence an empty index.
pub fn contents<'a>(committed: &'a [u8], standing: &Standing, k: u64) -> Result<Revision<'a>, Row> {
    if k == 0 {
        return Ok(Revision {
            size: standing.header.original,
            index: &[],
        });
    }
    let record = record(committed, standing, k)?;
    Ok(Revision {
        size: record.head.size,
        index: record.index,
    })
}

/// Row 9 for one page, which row 7 has found to be there. The checksum is of
/// all its bytes, also past the logical size.
pub fn page_sum(committed: &[u8], physical: usize, page: usize, sum: u32) -> Result<(), Row> {
    let wrong = checksum(&committed[physical..physical + page]) != sum;
    unless(wrong, Row::PageSum)
}

/// Row 10 for a read of so many bytes.
pub fn read_range(size: u64, at: u64, length: usize) -> Result<(), Row> {
    let holds = at > size || length as u64 > size - at;
    unless(holds, Row::Outside)
}

/// A session's own page.
#[derive(Clone, Copy, Default)]
pub struct OwnPage {
    pub logical: u32,
    pub physical: u32,
}

/// A session's own pages in rising order, unlike its state, which has them in
/// the order of first touch.
pub struct Own {
    pages: [OwnPage; TOUCHED],
    count: usize,
}

impl Own {
    pub fn pages(&self) -> &[OwnPage] {
        &self.pages[..self.count]
    }
}

/// Row 13 but for its last condition, which needs the parent's record.
pub fn session(st: &Session, standing: &Standing, room: usize) -> Result<Own, Row> {
    let header = &standing.header;
    let end = standing.end() as u64;
    let stranger = !header.locked || st.end != end || st.count != standing.count;
    let no_parent = st.parent > st.count || st.parent < st.count && !header.branching;
    let too_much = st.count >= REVISIONS || st.n > TOUCHED as u64 || st.size > LIMIT;
    unless(stranger || no_parent || too_much, Row::Session)?;

    let past = end + st.n * header.page > room as u64;
    unless(past, Row::Session)?;
    let mut own = Own {
        pages: [OwnPage::default(); TOUCHED],
        count: st.n as usize,
    };
    let mut physical = end;
    for (page, &logical) in own.pages.iter_mut().zip(&st.pages[..st.n as usize]) {
        let wrong = u64::from(logical) & (header.page - 1) != 0 || u64::from(logical) >= st.size;
        unless(wrong, Row::Session)?;
        *page = OwnPage {
            logical,
            physical: physical as u32,
        };
        physical += header.page;
    }
    let pages = &mut own.pages[..own.count];
    pages.sort_unstable_by_key(|page| page.logical);
    let repeated = pages.windows(2).any(|two| two[0].logical == two[1].logical);
    unless(repeated, Row::Session)?;
    Ok(own)
}

/// The last condition of row 13, judged directly after row 8.
pub fn parent_size(st: &Session, parent: &Revision) -> Result<(), Row> {
    unless(st.size < parent.size, Row::Session)
}

/// Row 14: what would result.
pub fn numbers(touched: usize, merged: usize) -> Result<(), Row> {
    let holds = touched > TOUCHED || merged as u64 > ENTRIES;
    unless(holds, Row::TooMany)
}

/// Row 16.
pub fn words(time: &[u8], name: &[u8], comment: &[u8]) -> Result<(), Row> {
    let fine =
        layout::is_time(time) && layout::is_text(name, NAME) && layout::is_text(comment, COMMENT);
    unless(!fine, Row::Words)
}
