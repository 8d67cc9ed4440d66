//! The clock: the sides of a row take turns, and the rows too, since other work on the machine comes and goes.

use std::hint::black_box;
use std::time::{Duration, Instant};

/// How often all rows are gone through.
pub const PASSES: u32 = 5;

/// How often each side of a row runs in a pass, at least.
pub const ROUNDS: u32 = 5;

/// For how long the sides of a row run in a pass, at least.
const LEAST_TIME: Duration = Duration::from_millis(400);

/// One run, and how long it took.
pub type Run<'a> = Box<dyn FnMut() -> Duration + 'a>;

pub struct Row<'a> {
    /// What is measured, for the table.
    pub cells: Vec<String>,
    sides: Vec<Run<'a>>,
    shortest: Vec<Duration>,
    /// How many calls a run has.
    calls: usize,
}

impl<'a> Row<'a> {
    pub fn new(cells: Vec<String>, sides: Vec<Run<'a>>, calls: usize) -> Row<'a> {
        let shortest = vec![Duration::MAX; sides.len()];
        Row { cells, sides, shortest, calls }
    }

    fn pass(&mut self, least_rounds: u32, least_time: Duration) {
        let begun = Instant::now();
        let mut rounds = 0;
        while rounds < least_rounds || begun.elapsed() < least_time {
            rounds += 1;
            for (run, shortest) in self.sides.iter_mut().zip(&mut self.shortest) {
                *shortest = run().min(*shortest);
            }
        }
    }

    /// The cells, the first side's time, and each other's with how many times as long the first takes.
    pub fn compared(&self) -> Vec<String> {
        let nanos = self.nanos();
        let mut cells = self.cells.clone();
        cells.push(shown(nanos[0]));
        for &other in &nanos[1..] {
            cells.extend([shown(other), ratio(nanos[0], other)]);
        }
        cells
    }

    /// The shortest time of a call of each side, in nanoseconds.
    pub fn nanos(&self) -> Vec<f64> {
        self.shortest.iter().map(|time| time.as_nanos() as f64 / self.calls as f64).collect()
    }
}

pub fn measure(rows: &mut [Row]) {
    measure_for(rows, ROUNDS, LEAST_TIME);
}

/// The same with other rounds and another time of a row in a pass.
pub fn measure_for(rows: &mut [Row], least_rounds: u32, least_time: Duration) {
    for _ in 0..PASSES {
        rows.iter_mut().for_each(|row| row.pass(least_rounds, least_time));
    }
}

/// The time of a run whose answer is needed, as far as the compiler knows.
pub fn timed<T>(run: impl FnOnce() -> T) -> Duration {
    let start = Instant::now();
    black_box(run());
    start.elapsed()
}

pub fn shown(nanos: f64) -> String {
    match nanos {
        0.0..1e3 => format!("{nanos:.2} ns"),
        1e3..1e6 => format!("{:.2} us", nanos / 1e3),
        _ => format!("{:.2} ms", nanos / 1e6),
    }
}

pub fn ratio(a: f64, b: f64) -> String {
    let ratio = a / b;
    match ratio {
        0.0..0.1 => format!("{ratio:.3}"),
        _ => format!("{ratio:.2}"),
    }
}
