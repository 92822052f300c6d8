//! Taking the time of two jobs turn by turn.

use std::time::{Duration, Instant};

/// Rounds of which the best counts.
pub const ROUNDS: usize = 60;

/// How long a round of one side takes at least.
const ROUND: Duration = Duration::from_millis(3);

/// Seconds of one pass.
#[derive(Clone, Copy)]
pub struct Seconds(pub f64);

impl std::fmt::Display for Seconds {
    fn fmt(&self, text: &mut std::fmt::Formatter) -> std::fmt::Result {
        let nanoseconds = self.0 * 1e9;
        let (number, unit) = match nanoseconds {
            0.0..1e3 => (nanoseconds, "ns"),
            0.0..1e6 => (nanoseconds / 1e3, "µs"),
            _ => (nanoseconds / 1e6, "ms"),
        };
        match number {
            0.0..10.0 => write!(text, "{number:.2} {unit}"),
            0.0..100.0 => write!(text, "{number:.1} {unit}"),
            _ => write!(text, "{number:.0} {unit}"),
        }
    }
}

/// One pass of each job in seconds: the best of several rounds, turn by turn, so that other work on the machine meets
/// all alike. Before they are timed all jobs have run, so the buffers are warm.
pub fn best<const JOBS: usize>(mut jobs: [&mut dyn FnMut(); JOBS]) -> [Seconds; JOBS] {
    let passes = jobs.each_mut().map(|job| passes(*job));
    let mut best = [f64::INFINITY; JOBS];
    for _ in 0..ROUNDS {
        for (place, job) in jobs.iter_mut().enumerate() {
            let seconds = time(*job, passes[place]) / passes[place] as f64;
            best[place] = best[place].min(seconds);
        }
    }
    best.map(Seconds)
}

/// As many passes as make a round long enough.
fn passes(job: &mut dyn FnMut()) -> u32 {
    let mut passes = 1;
    while time(job, passes) < ROUND.as_secs_f64() {
        passes *= 2;
    }
    passes
}

fn time(job: &mut dyn FnMut(), passes: u32) -> f64 {
    let began = Instant::now();
    for _ in 0..passes {
        job();
    }
    began.elapsed().as_secs_f64()
}

/// A line of a table: both times and how many times as long the proved store takes.
pub fn line(name: &str, [proved, twin]: [Seconds; 2]) {
    println!("| {name} | {proved} | {twin} | {:.2} |", proved.0 / twin.0);
}

/// A number below a million with its thousands apart.
pub fn grouped(number: u64) -> String {
    match number {
        0..1_000 => number.to_string(),
        _ => format!("{},{:03}", number / 1_000, number % 1_000),
    }
}
