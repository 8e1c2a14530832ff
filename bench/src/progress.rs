use std::io::Write;
use std::time::{Duration, Instant};

const PAUSE: Duration = Duration::from_millis(250);

/// One line on the error output that is written anew while work goes on.
pub struct Progress {
    what: &'static str,
    goal: u64,
    begun: Instant,
    shown: Option<Instant>,
}

impl Progress {
    pub fn new(what: &'static str, goal: u64) -> Progress {
        Progress { what, goal, begun: Instant::now(), shown: None }
    }

    pub fn show(&mut self, done: u64, note: &str) {
        let now = Instant::now();
        if self.shown.is_none_or(|shown| now - shown >= PAUSE) {
            self.shown = Some(now);
            self.write(done, note);
        }
    }

    /// Writes the line a last time and ends it.
    pub fn end(&mut self, done: u64, note: &str) {
        self.write(done, note);
        eprintln!();
    }

    fn write(&self, done: u64, note: &str) {
        let seconds = self.begun.elapsed().as_secs_f64();
        eprint!("\r{}: {done} of {} in {seconds:.1} s{note}\x1b[K", self.what, self.goal);
        let _ = std::io::stderr().flush();
    }
}
