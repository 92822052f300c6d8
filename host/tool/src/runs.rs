//! Where two copies of a file differ.

use std::ops::Range;

/// The ranges in which two runs of bytes differ, up to the end of the shorter.
pub struct Differences<'a> {
    one: &'a [u8],
    other: &'a [u8],
    at: usize,
}

impl<'a> Differences<'a> {
    pub fn between(one: &'a [u8], other: &'a [u8]) -> Differences<'a> {
        let length = one.len().min(other.len());
        Differences {
            one: &one[..length],
            other: &other[..length],
            at: 0,
        }
    }

    /// How many bytes from `at` on are equal, or differ, as `equal` says.
    fn run(&self, equal: bool) -> usize {
        let pairs = self.one[self.at..].iter().zip(&self.other[self.at..]);
        pairs
            .take_while(|(one, other)| (one == other) == equal)
            .count()
    }
}

impl Iterator for Differences<'_> {
    type Item = Range<usize>;

    fn next(&mut self) -> Option<Range<usize>> {
        self.at += self.run(true);
        let start = self.at;
        self.at += self.run(false);
        Some(start..self.at).filter(|range| !range.is_empty())
    }
}

/// What has to be written to make one run of bytes into another.
#[derive(Debug, PartialEq, Eq)]
pub struct Changes {
    /// Ranges of the new bytes, in rising order. Together they touch every changed page, and no other.
    pub runs: Vec<Range<usize>>,
    /// How many pages they touch.
    pub pages: usize,
}

impl Changes {
    /// The changes from the old bytes to the new, of which there are at least as many.
    ///
    /// A page is stored whole, however few of its bytes change. So the runs within a page are one, and those of
    /// neighbouring pages are joined: fewer writes, and the same pages stored.
    pub fn between(old: &[u8], new: &[u8], page_size: usize) -> Changes {
        let mut runs: Vec<Range<usize>> = Vec::new();
        let mut pages = 0;
        for start in (0..new.len()).step_by(page_size) {
            let end = new.len().min(start + page_size);
            let changed = match changed_within(old, new, start..end) {
                Some(changed) => changed,
                None => continue,
            };
            pages += 1;
            match runs.last_mut() {
                // The last run lies in the page just ahead.
                Some(last) if last.end + page_size > start => last.end = changed.end,
                _ => runs.push(changed),
            }
        }
        Changes { runs, pages }
    }
}

/// From the first to the last byte of a page that is new or differs.
fn changed_within(old: &[u8], new: &[u8], page: Range<usize>) -> Option<Range<usize>> {
    let differs = |at: &usize| old.get(*at) != Some(&new[*at]);
    let kept = old.get(page.clone());
    if kept == Some(&new[page.clone()]) {
        return None;
    }
    let first = page.clone().find(differs)?;
    let last = page.clone().rev().find(differs)?;
    Some(first..last + 1)
}

#[cfg(test)]
#[allow(clippy::single_range_in_vec_init)] // a list of one range is meant
mod tests {
    use super::*;

    fn changes(old: &[u8], new: &[u8]) -> (Vec<Range<usize>>, usize) {
        let changes = Changes::between(old, new, 4);
        (changes.runs, changes.pages)
    }

    #[test]
    fn differences_are_ranges() {
        let ranges: Vec<_> = Differences::between(b"abcdefgh", b"Xbcdefgh").collect();
        assert_eq!(ranges, [0..1]);
        let ranges: Vec<_> = Differences::between(b"abcdefgh", b"abXXefgYZ").collect();
        assert_eq!(ranges, [2..4, 7..8]);
        assert_eq!(Differences::between(b"abc", b"abcd").count(), 0);
        assert_eq!(Differences::between(b"", b"").count(), 0);
    }

    #[test]
    fn runs_within_a_page_are_one() {
        assert_eq!(changes(b"abcdefgh", b"XbcXefgh"), (vec![0..4], 1));
        assert_eq!(changes(b"abcdefgh", b"abXdefgh"), (vec![2..3], 1));
        assert_eq!(changes(b"abcdefgh", b"abcdefgh"), (vec![], 0));
    }

    #[test]
    fn neighbouring_pages_are_one_run_and_others_are_not() {
        // Pages 0 and 1; the bytes between are in touched pages.
        assert_eq!(changes(b"abcdefghijkl", b"XbcdefgXijkl"), (vec![0..8], 2));
        // Pages 0 and 2: page 1 must not be touched.
        assert_eq!(
            changes(b"abcdefghijkl", b"abcXefghXjkl"),
            (vec![3..4, 8..9], 2)
        );
    }

    #[test]
    fn all_that_is_behind_the_old_end_is_written() {
        assert_eq!(changes(b"abcde", b"abcdef"), (vec![5..6], 1));
        assert_eq!(changes(b"abcd", b"abcd\0\0\0\0\0"), (vec![4..9], 2));
        assert_eq!(changes(b"", b"ab"), (vec![0..2], 1));
        assert_eq!(changes(b"", b""), (vec![], 0));
    }

    #[test]
    fn writing_the_runs_makes_the_new_bytes() {
        // A small generator, so that the cases are many and always the same.
        let mut state = 1_u32;
        let mut number = |below: usize| {
            state = state.wrapping_mul(1_664_525).wrapping_add(1_013_904_223);
            (state >> 16) as usize % below
        };
        for _ in 0..2_000 {
            let old: Vec<u8> = (0..number(40)).map(|_| number(2) as u8).collect();
            let mut new = old.clone();
            for _ in 0..number(6) * usize::from(!new.is_empty()) {
                let at = number(new.len());
                new[at] ^= 1;
            }
            new.resize(old.len() + number(12), 0);
            let changes = Changes::between(&old, &new, 4);
            let mut written = old.clone();
            let mut touched = Vec::new();
            for run in changes.runs {
                assert!(run.start <= written.len());
                written.resize(written.len().max(run.end), 9);
                written[run.clone()].copy_from_slice(&new[run.clone()]);
                touched.extend(run.map(|at| at / 4));
            }
            assert_eq!(written, new);
            touched.dedup();
            assert_eq!(touched.len(), changes.pages);
            for page in touched {
                let range = page * 4..new.len().min(page * 4 + 4);
                assert_ne!(old.get(range.clone()), Some(&new[range]));
            }
        }
    }
}
