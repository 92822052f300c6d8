//! Reading: what a revision or a session shows.

use crate::layout::{self, Entry, RawEntry};
use crate::rows::{self, OwnPage, Row};

/// The page that a look-up found: a part of the original (source 0) or of the
/// history (source 1). All zeros but the number where it was refused.
#[derive(Clone, Copy, PartialEq, Eq, Debug)]
pub struct Found {
    pub number: u64,
    pub source: u64,
    pub offset: u64,
    pub length: u64,
}

/// What a reader sees at an address: the session's own page, else the indexed
/// page, else the original, else zero. A revision has no own pages.
///
/// An indexed page shows all its bytes, also those past the logical size of
/// the parent whose index it is: a session that grew reads them.
#[derive(Clone, Copy)]
pub struct View<'a> {
    pub page: usize,
    pub original: &'a [u8],
    pub history: &'a [u8],
    pub index: &'a [RawEntry],
    pub own: &'a [OwnPage],
}

/// A page of a view that is not the original's. Own pages have no checksum.
#[derive(Clone, Copy)]
pub struct Shown {
    pub logical: usize,
    pub physical: usize,
    pub sum: Option<u32>,
}

impl<'a> View<'a> {
    /// The pages that a range shares a byte with and that are not the
    /// original's, in rising order.
    pub fn pages(&self, from: usize, to: usize) -> Pages<'a> {
        let first = from & !(self.page - 1);
        let own = self
            .own
            .partition_point(|own| (own.logical as usize) < first);
        let index = self
            .index
            .partition_point(|raw| Entry::decode(raw).logical < first as u64);
        Pages {
            // An empty range shares no byte with the page that it lies in.
            to: if from < to { to } else { 0 },
            own: &self.own[own..],
            index: &self.index[index..],
        }
    }

    /// Row 9 for a range. Neither own pages nor what they replace is checked.
    pub fn page_sums(&self, from: usize, to: usize) -> Result<(), Row> {
        for shown in self.pages(from, to) {
            if let Some(sum) = shown.sum {
                rows::page_sum(self.history, shown.physical, self.page, sum)?;
            }
        }
        Ok(())
    }

    /// Fills a buffer with the bytes from an address on.
    pub fn paint(&self, at: usize, out: &mut [u8]) {
        let mut done = 0;
        for shown in self.pages(at, at + out.len()) {
            let bytes = &self.history[shown.physical..shown.physical + self.page];
            // Only the first page can start ahead of the range.
            let skipped = at.saturating_sub(shown.logical);
            let start = shown.logical + skipped - at;
            let length = (self.page - skipped).min(out.len() - start);
            self.paint_original(at + done, &mut out[done..start]);
            done = start + length;
            out[start..done].copy_from_slice(&bytes[skipped..skipped + length]);
        }
        self.paint_original(at + done, &mut out[done..]);
    }

    /// Fills a buffer from the original, and with zeros where that has ended.
    fn paint_original(&self, at: usize, out: &mut [u8]) {
        let rest = self.original.get(at..).unwrap_or(&[]);
        let (stored, zeros) = out.split_at_mut(rest.len().min(out.len()));
        stored.copy_from_slice(&rest[..stored.len()]);
        zeros.fill(0);
    }
}

/// Walks the own pages and the index side by side.
pub struct Pages<'a> {
    to: usize,
    own: &'a [OwnPage],
    index: &'a [RawEntry],
}

impl Iterator for Pages<'_> {
    type Item = Shown;

    fn next(&mut self) -> Option<Shown> {
        let stored = self.index.first().map(Entry::decode);
        let beyond = self.to as u64;
        let stored_at = stored.map_or(beyond, |entry| entry.logical);
        let own_at = self.own.first().map_or(beyond, |own| own.logical.into());
        if own_at.min(stored_at) >= beyond {
            return None;
        }
        // Both step on where the own page stands over the indexed one.
        let own = self.own.first().filter(|_| own_at <= stored_at);
        if stored_at <= own_at {
            self.index = &self.index[1..];
        }
        if let Some(own) = own {
            self.own = &self.own[1..];
            return Some(Shown {
                logical: own.logical as usize,
                physical: own.physical as usize,
                sum: None,
            });
        }
        stored.map(|entry| Shown {
            logical: entry.logical as usize,
            physical: entry.physical as usize,
            sum: Some(entry.page_sum),
        })
    }
}

/// Reads a revision into the whole of the lent buffer.
pub fn read(orig: &[u8], hist: &[u8], revision: u64, at: u64, out: &mut [u8]) -> u64 {
    rows::number(&try_read(orig, hist, revision, at, out))
}

fn try_read(orig: &[u8], hist: &[u8], revision: u64, at: u64, out: &mut [u8]) -> Result<(), Row> {
    let standing = rows::standing_over(orig, hist)?;
    let k = rows::revision(&standing, revision)?;
    let contents = rows::contents(hist, &standing, k)?;
    rows::read_range(contents.size, at, out.len())?;
    let view = View {
        page: standing.page(),
        original: orig,
        history: hist,
        index: contents.index,
        own: &[],
    };
    let at = at as usize;
    view.page_sums(at, at + out.len())?;
    view.paint(at, out);
    Ok(())
}

/// Says where the page at an address of a revision lies.
pub fn look_up(orig: &[u8], hist: &[u8], revision: u64, address: u64) -> Found {
    try_look_up(orig, hist, revision, address).unwrap_or_else(|row| Found {
        number: row as u64,
        source: 0,
        offset: 0,
        length: 0,
    })
}

fn try_look_up(orig: &[u8], hist: &[u8], revision: u64, address: u64) -> Result<Found, Row> {
    let standing = rows::standing_over(orig, hist)?;
    let k = rows::revision(&standing, revision)?;
    let contents = rows::contents(hist, &standing, k)?;
    let page = standing.header.page;
    let outside = address >= contents.size || address & (page - 1) != 0;
    rows::unless(outside, Row::Outside)?;

    let length = page.min(contents.size - address);
    let (source, offset) = match layout::find(contents.index, address) {
        Ok(place) => {
            let entry = Entry::decode(&contents.index[place]);
            let physical = entry.physical as usize;
            rows::page_sum(hist, physical, standing.page(), entry.page_sum)?;
            (1, entry.physical)
        }
        Err(_) => {
            // There is no one place for a page that the original ends in.
            rows::unless(address + length > orig.len() as u64, Row::NotStored)?;
            (0, address)
        }
    };
    Ok(Found {
        number: 0,
        source,
        offset,
        length,
    })
}
