//! Best of several rounds, both sides in turn.
use std::time::{Duration, Instant};

/// How often each side of an item is run at least; the best time of each counts. A round is short, a millisecond or so, so that some
/// rounds are not interrupted even on a busy machine.
pub const ROUNDS: u32 = 200;

/// How long an item is run at least, in each pass.
const LEAST: Duration = Duration::from_millis(300);

/// Runs rounds until there are enough.
fn rounds(mut round: impl FnMut()) {
    let start = Instant::now();
    let mut n = 0;
    while n < ROUNDS || start.elapsed() < LEAST {
        round();
        n += 1;
    }
}

/// The time of one item.
pub struct Row {
    pub name: String,
    /// Nanoseconds for one operation of the proved board.
    pub ours: f64,
    /// The same of the published Rust, where it has a peer.
    pub rust: Option<f64>,
    /// The ratio to stay below, where one is set.
    pub bar: Option<f64>,
}

fn once(n: u64, work: &mut impl FnMut()) -> f64 {
    let start = Instant::now();
    work();
    start.elapsed().as_nanos() as f64 / n as f64
}

/// Both sides: each closure does `n` operations.
pub fn both(name: &str, bar: Option<f64>, n: u64, mut ours: impl FnMut(), mut rust: impl FnMut()) -> Row {
    let mut best = (f64::MAX, f64::MAX);
    rounds(|| {
        best.0 = best.0.min(once(n, &mut ours));
        best.1 = best.1.min(once(n, &mut rust));
    });
    Row { name: name.into(), ours: best.0, rust: Some(best.1), bar }
}

/// What the published Rust has no peer for.
pub fn alone(name: &str, n: u64, mut ours: impl FnMut()) -> Row {
    let mut best = f64::MAX;
    rounds(|| best = best.min(once(n, &mut ours)));
    Row { name: name.into(), ours: best, rust: None, bar: None }
}

impl Row {
    /// The better of two passes, on each side.
    pub fn better(&mut self, other: &Row) {
        self.ours = self.ours.min(other.ours);
        self.rust = self.rust.zip(other.rust).map(|(a, b)| a.min(b));
    }

    fn ratio(&self) -> Option<f64> {
        self.rust.map(|rust| self.ours / rust)
    }

    /// Whether the bar is met, where there is one.
    pub fn met(&self) -> Option<bool> {
        Some(self.ratio()? <= self.bar?)
    }

    pub fn print(&self) {
        let number = |x: Option<f64>| x.map_or("-".into(), |x| format!("{x:.2}"));
        let verdict = match self.met() {
            Some(true) => "met",
            Some(false) => "MISSED",
            None => "",
        };
        println!(
            "{:<64} {:>7} {:>5} {verdict:<7} {:>10.2} {:>10}",
            self.name,
            number(self.ratio()),
            number(self.bar),
            self.ours,
            number(self.rust)
        );
    }

    pub fn head() {
        println!("{:<64} {:>7} {:>5} {:<7} {:>10} {:>10}", "item", "ratio", "bar", "", "ours ns", "Rust ns");
    }
}
