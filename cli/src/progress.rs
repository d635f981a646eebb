//! How far a long run has come: on a terminal, on standard error, and nothing is left behind.
use std::sync::atomic::{AtomicU64, Ordering};
use std::time::Duration;

use indicatif::{ProgressBar, ProgressDrawTarget, ProgressState, ProgressStyle};

use crate::reading::PageReading;

pub struct Progress {
    bar: ProgressBar,
    refused: AtomicU64,
}

impl Progress {
    /// Indicatif draws nothing where standard error is no terminal.
    pub fn new(pages: u64, quiet: bool) -> Progress {
        let target = if quiet { ProgressDrawTarget::hidden() } else { ProgressDrawTarget::stderr_with_hz(10) };
        let bar = ProgressBar::with_draw_target(Some(pages), target).with_style(style()).with_message("0 refused");
        if !bar.is_hidden() {
            bar.enable_steady_tick(Duration::from_millis(200));
        }
        Progress { bar, refused: AtomicU64::new(0) }
    }

    pub fn read(&self, readings: &[PageReading]) {
        let refused = readings.iter().filter(|page| !page.outcome.is_read()).count() as u64;
        self.add(readings.len() as u64, refused);
    }

    pub fn add(&self, pages: u64, refused: u64) {
        let sum = self.refused.fetch_add(refused, Ordering::Relaxed) + refused;
        if refused > 0 {
            self.bar.set_message(format!("{sum} refused"));
        }
        self.bar.inc(pages);
    }

    /// Something to say while it runs: the bar makes room.
    pub fn suspend<T>(&self, say: impl FnOnce() -> T) -> T {
        self.bar.suspend(say)
    }
}

impl Drop for Progress {
    fn drop(&mut self) {
        self.bar.finish_and_clear();
    }
}

/// A short line where the terminal is narrow: a line that is broken in two can't be taken away again.
fn style() -> ProgressStyle {
    let columns = console::Term::stderr().size_checked().map_or(80, |(_, columns)| columns);
    let template = match columns {
        ..60 => "{percent:>3}% {rate} {eta} {msg}",
        60.. => "{pos}/{len} pages {percent:>3}% {rate}, {eta} left, {msg}",
    };
    let rate = |state: &ProgressState, line: &mut dyn std::fmt::Write| {
        // A terminal that is gone takes no words.
        let _ = write!(line, "{:.0}/s", state.per_sec());
    };
    ProgressStyle::with_template(template).expect("the template is right").with_key("rate", rate)
}
