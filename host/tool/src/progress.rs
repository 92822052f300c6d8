//! A line on the terminal while work takes long.

use std::io::{self, Write};
use std::sync::mpsc::{channel, RecvTimeoutError, Sender};
use std::thread::{spawn, JoinHandle};
use std::time::{Duration, Instant};

use crate::system;

/// Shows what is being done, from half a second on and until it is dropped. Shows nothing where standard error is no
/// terminal.
pub struct Progress {
    // Both are there while the line may be shown; dropping the sender ends the thread.
    line: Option<(Sender<()>, JoinHandle<()>)>,
}

impl Progress {
    /// Begins with a description of the work, such as `checking 20 revisions`.
    pub fn start(work: String) -> Progress {
        if !system::somebody_watches() {
            return Progress { line: None };
        }
        let (sender, receiver) = channel::<()>();
        let begun = Instant::now();
        let show = move || {
            let mut shown = false;
            let mut wait = Duration::from_millis(500);
            while receiver.recv_timeout(wait) == Err(RecvTimeoutError::Timeout) {
                say(&format!("\r{work} .. {} s", begun.elapsed().as_secs()));
                shown = true;
                wait = Duration::from_secs(1);
            }
            if shown {
                // Back to the start of the line, and clear it.
                say("\r\x1b[K");
            }
        };
        Progress {
            line: Some((sender, spawn(show))),
        }
    }
}

impl Drop for Progress {
    fn drop(&mut self) {
        if let Some((sender, thread)) = self.line.take() {
            drop(sender);
            // A thread that could not show its line is no reason to stop the work.
            let _ = thread.join();
        }
    }
}

fn say(text: &str) {
    let mut error = io::stderr();
    let _ = error.write_all(text.as_bytes());
    let _ = error.flush();
}
