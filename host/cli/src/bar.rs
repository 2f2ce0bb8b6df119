//! A bar on standard error while a call of the engine derives keys. How many HMAC values the call makes at most is known before it,
//! and how many this machine makes in a second is measured: so the bar moves by time. It ends with the exact number that the call
//! returned.
//!
//! The call runs in its own thread, as without a bar. The bar is drawn by another, which knows of the call its expected number and
//! time, and no secret.
use crate::amounts::{duration, grouped, hmac_values, in_seconds};
use crate::rate::{Rates, Work, MEASURED};
use crate::terminal::{self, DrawnLine};
use mivrozh::{Counted, Profile};
use std::io::{self, IsTerminal};
use std::sync::mpsc::{self, Receiver, RecvTimeoutError};
use std::time::{Duration, Instant};

// What takes less shows no bar: it would only flicker.
const SHORT: Duration = Duration::from_millis(500);
// How often the bar moves.
const TICK: Duration = Duration::from_millis(100);
// Where the terminal does not say how wide it is, nor the environment.
const USUAL_COLUMNS: usize = 80;
// How wide the bar itself is.
const LEAST_CELLS: usize = 10;
const MOST_CELLS: usize = 40;
// It is not at its end before the call is.
const MOST_SHARE: f64 = 0.99;

/// Makes the call, with a bar where standard error is a terminal and the work takes long.
pub fn during<T>(what: &'static str, profile: Profile, work: Work, call: impl FnOnce() -> Counted<T>) -> Counted<T> {
    match Bar::of(what, profile, work) {
        Some(bar) => bar.drawn(call),
        None => call(),
    }
}

// What is known before the call: its name, and how long it will take at most.
#[derive(Clone, Copy)]
struct Bar {
    what: &'static str,
    time: Duration,
}

impl Bar {
    // Nothing where there is nowhere to draw it, or the call does no more than a measurement would.
    fn of(what: &'static str, profile: Profile, work: Work) -> Option<Bar> {
        if work.values() <= MEASURED || !io::stderr().is_terminal() {
            return None;
        }
        Some(Bar { what, time: Rates::rough(profile).ok()?.time(work) })
    }

    fn drawn<T>(self, call: impl FnOnce() -> Counted<T>) -> Counted<T> {
        let (start, drawn) = (Instant::now(), DrawnLine::begin());
        let (line, (running, ended)) = (Line::on(&drawn), mpsc::channel());
        std::thread::scope(|scope| {
            let draw = move || self.draw_until(&ended, line);
            // Without a thread there is no bar.
            let thread = std::thread::Builder::new().spawn_scoped(scope, draw);
            let counted = call();
            drop(running);
            if let Ok(Ok(mut line)) = thread.map(|thread| thread.join()) {
                line.end(&self.ended(counted.values, start.elapsed(), room()));
            }
            counted
        })
    }

    // Draws until the call has ended, and nothing where that is refused at once. The time in which the tool was stopped does not
    // move the bar; the last line has it.
    fn draw_until<'a>(self, ended: &Receiver<()>, mut line: Line<'a>) -> Line<'a> {
        let (mut elapsed, mut last) = (Duration::ZERO, Instant::now());
        while ended.recv_timeout(TICK) == Err(RecvTimeoutError::Timeout) {
            elapsed += last.elapsed().min(2 * TICK);
            last = Instant::now();
            if self.time.max(elapsed) >= SHORT {
                line.draw(self.at(elapsed, room()));
            }
        }
        line
    }

    // The line after some time, in so many columns.
    fn at(self, elapsed: Duration, room: usize) -> String {
        let share = (elapsed.as_secs_f64() / self.time.as_secs_f64().max(1e-9)).min(MOST_SHARE);
        let percent = format!("{:2}%", (100.0 * share) as u32);
        let left = match self.time.saturating_sub(elapsed) {
            Duration::ZERO => String::new(),
            left => format!(", {} left", in_seconds(left)),
        };
        let cells = room.saturating_sub(format!("{}: [] {percent}{left}", self.what).len()).min(MOST_CELLS);
        if cells >= LEAST_CELLS {
            let done = (share * cells as f64) as usize;
            return format!("{}: [{}{}] {percent}{left}", self.what, "#".repeat(done), ".".repeat(cells - done));
        }
        let what = self.what;
        fitting(room, [format!("{what}: {percent}{left}"), format!("{what}: {percent}"), percent])
    }

    // The last line: the exact number.
    fn ended(self, values: u64, took: Duration, room: usize) -> String {
        let (what, number) = (self.what, hmac_values(values));
        let whole = format!("{what}: {number} in {}", duration(took));
        fitting(room, [whole, format!("{what}: {number}"), number, grouped(values), values.to_string()])
    }
}

// The first that fits; nothing where none does.
fn fitting<const N: usize>(room: usize, texts: [String; N]) -> String {
    texts.into_iter().find(|text| text.len() <= room).unwrap_or_default()
}

// The columns of a line: all but the last, in which some terminals begin a new line.
fn room() -> usize {
    let said = || std::env::var("COLUMNS").ok()?.parse().ok().filter(|&columns| columns > 0);
    terminal::columns().or_else(said).unwrap_or(USUAL_COLUMNS).saturating_sub(1)
}

// One line of the terminal, and what stands there.
struct Line<'a> {
    on: &'a DrawnLine,
    text: String,
}

impl Line<'_> {
    fn on(on: &DrawnLine) -> Line<'_> {
        Line { on, text: String::new() }
    }

    fn draw(&mut self, text: String) {
        if text != self.text && self.on.draw(self.over(&text).as_bytes(), !text.is_empty()) {
            self.text = text;
        }
    }

    // Puts the last text there, if there was another before, and goes to the next line.
    fn end(&mut self, text: &str) {
        if !self.text.is_empty() {
            let end = if text.is_empty() { "\r" } else { "\n" };
            self.on.draw(format!("{}{end}", self.over(text)).as_bytes(), false);
        }
    }

    // The text from the line's beginning on, with spaces over the rest of what stands there.
    fn over(&self, text: &str) -> String {
        format!("\r{text:columns$}", columns = self.text.len().min(room()))
    }
}

#[cfg(test)]
mod tests {
    use super::*;

    const BAR: Bar = Bar { what: "opening", time: Duration::from_secs(10) };

    #[test]
    fn a_bar_moves_by_time() {
        let at = |seconds| BAR.at(Duration::from_secs(seconds), 79);
        assert_eq!(at(0), format!("opening: [{}]  0%, 10 s left", ".".repeat(40)));
        assert_eq!(at(5), format!("opening: [{}{}] 50%, 5 s left", "#".repeat(20), ".".repeat(20)));
        assert_eq!(at(9), format!("opening: [{}{}] 90%, 1 s left", "#".repeat(36), ".".repeat(4)));
    }

    #[test]
    fn a_bar_is_not_at_its_end_before_the_call_is() {
        for time in [0, 1, 10, 1_000_000] {
            let bar = Bar { time: Duration::from_secs(time), ..BAR };
            for elapsed in [time.max(1), time + 1, 10 * time + 1, u64::from(u32::MAX)] {
                let line = bar.at(Duration::from_secs(elapsed), 79);
                assert!(line.contains("] 99%") && line.contains(".]") && !line.contains("left"), "{line}");
            }
        }
    }

    #[test]
    fn a_line_fits_into_the_columns() {
        let slow = Bar { time: Duration::from_secs(100_000_000), ..BAR };
        for bar in [BAR, slow] {
            for room in 0..200 {
                let (line, end) = (bar.at(Duration::from_secs(3), room), bar.ended(171_798_691_800, bar.time, room));
                assert!(line.len() <= room && end.len() <= room, "{room}: {line}, {end}");
                assert!(line.contains('%') || room < 3, "{room}: {line}");
                assert!(end.replace(',', "").contains("171798691800") || room < 12, "{room}: {end}");
            }
        }
        assert_eq!(BAR.at(Duration::from_secs(3), 25), "opening: 30%, 7 s left");
        assert_eq!(BAR.at(Duration::from_secs(3), 12), "opening: 30%");
    }

    #[test]
    fn the_last_line_has_the_number() {
        let end = |room| BAR.ended(2_062_500, Duration::from_millis(1203), room);
        assert_eq!(end(79), "opening: 2,062,500 HMAC values in 1.203 s");
        assert_eq!(end(40), "opening: 2,062,500 HMAC values");
        assert_eq!(end(21), "2,062,500 HMAC values");
        assert_eq!(end(9), "2,062,500");
        assert_eq!(end(7), "2062500");
        assert_eq!(end(6), "");
    }
}
