//! What the tool asks of the system besides files: the file lock, the clock, the user, and whether somebody watches.
//!
//! Debian's Rust has no standard functions yet for file locks and terminals, and none stands for the user's number. So
//! three functions of the C library, which every Rust program is linked with, are declared here. This is the tool's
//! only unsafe code.

#![allow(unsafe_code)]

use std::fs::File;
use std::io;
use std::os::raw::c_int;
use std::os::unix::io::AsRawFd;
use std::time::{SystemTime, UNIX_EPOCH};

extern "C" {
    fn flock(file: c_int, operation: c_int) -> c_int;
    fn isatty(file: c_int) -> c_int;
    fn getuid() -> u32;
}

const LOCK_SHARED: c_int = 1;
const LOCK_EXCLUSIVE: c_int = 2;
const LOCK_NO_WAIT: c_int = 4;

const STANDARD_ERROR: c_int = 2;

/// Locks a file for this program alone, until it is closed. False where another program holds a lock.
pub fn try_lock(file: &File) -> io::Result<bool> {
    lock(file, LOCK_EXCLUSIVE | LOCK_NO_WAIT)
}

/// Locks a file together with other readers, until it is closed. False where a writer holds a lock.
pub fn try_lock_shared(file: &File) -> io::Result<bool> {
    lock(file, LOCK_SHARED | LOCK_NO_WAIT)
}

/// Waits until the writer has gone, and locks a file together with other readers.
pub fn lock_shared(file: &File) -> io::Result<()> {
    while !lock(file, LOCK_SHARED)? {}
    Ok(())
}

fn lock(file: &File, operation: c_int) -> io::Result<bool> {
    // SAFETY: flock takes two numbers, and the file stays open for the call.
    if unsafe { flock(file.as_raw_fd(), operation) } == 0 {
        return Ok(true);
    }
    let error = io::Error::last_os_error();
    match error.kind() {
        io::ErrorKind::WouldBlock | io::ErrorKind::Interrupted => Ok(false),
        _ => Err(error),
    }
}

/// Whether standard error is a terminal.
pub fn somebody_watches() -> bool {
    // SAFETY: isatty takes a number and allows any.
    unsafe { isatty(STANDARD_ERROR) == 1 }
}

/// The number of the user who runs the tool.
pub fn user() -> u32 {
    // SAFETY: getuid takes nothing and cannot fail.
    unsafe { getuid() }
}

/// The time now, as a commit stores it. None where the clock is outside the years 1970 to 9999.
pub fn time() -> Option<String> {
    let since_1970 = SystemTime::now().duration_since(UNIX_EPOCH).ok()?;
    written_time(since_1970.as_secs())
}

/// Seconds since 1970 in UTC, as `YYYYMMDDThhmmssZ`.
fn written_time(seconds: u64) -> Option<String> {
    let (year, month, day) = date(seconds / 86_400)?;
    let of_day = seconds % 86_400;
    let (hour, minute, second) = (of_day / 3_600, of_day / 60 % 60, of_day % 60);
    Some(format!(
        "{year:04}{month:02}{day:02}T{hour:02}{minute:02}{second:02}Z"
    ))
}

/// The year, month and day of a day counted from the first of January 1970; None after the year 9999.
fn date(mut day: u64) -> Option<(u64, u64, u64)> {
    let mut year = 1970;
    while day >= days_of_year(year) {
        day -= days_of_year(year);
        year += 1;
        if year > 9_999 {
            return None;
        }
    }
    let mut month = 1;
    while day >= days_of_month(year, month) {
        day -= days_of_month(year, month);
        month += 1;
    }
    Some((year, month, day + 1))
}

fn is_leap(year: u64) -> bool {
    year % 4 == 0 && (year % 100 != 0 || year % 400 == 0)
}

fn days_of_year(year: u64) -> u64 {
    if is_leap(year) {
        366
    } else {
        365
    }
}

fn days_of_month(year: u64, month: u64) -> u64 {
    match month {
        2 if is_leap(year) => 29,
        2 => 28,
        4 | 6 | 9 | 11 => 30,
        _ => 31,
    }
}

#[cfg(test)]
mod tests {
    use super::*;

    #[test]
    fn times_are_written_in_utc() {
        let written = |seconds| written_time(seconds).unwrap();
        assert_eq!(written(0), "19700101T000000Z");
        assert_eq!(written(951_782_400), "20000229T000000Z");
        assert_eq!(written(1_709_622_000), "20240305T070000Z");
        assert_eq!(written(1_735_689_599), "20241231T235959Z");
        assert_eq!(written(253_402_300_799), "99991231T235959Z");
        assert_eq!(written_time(253_402_300_800), None);
        assert_eq!(written_time(u64::MAX), None);
    }
}
