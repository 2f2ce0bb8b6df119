//! Taking times. Most figures are the least of several runs: the one that other work on the machine disturbed least.

use std::time::Instant;

/// Seconds of one run.
pub fn once(work: &mut dyn FnMut() -> Result<(), String>) -> Result<f64, String> {
    let began = Instant::now();
    work()?;
    Ok(began.elapsed().as_secs_f64())
}

/// The least seconds of `runs` runs.
pub fn least(runs: usize, work: &mut dyn FnMut() -> Result<(), String>) -> Result<f64, String> {
    let mut least = f64::INFINITY;
    for _ in 0..runs {
        least = least.min(once(work)?);
    }
    Ok(least)
}

extern "C" {
    fn clock_gettime(clock: i32, time: *mut [i64; 2]) -> i32;
}

const CLOCK_THREAD_CPUTIME_ID: i32 = 3;

/// The seconds that the processor has worked for this thread. `openssl speed` counts such time too, so that other work
/// on the machine takes nothing from either.
fn processor_time() -> f64 {
    let mut time = [0; 2];
    // SAFETY: `struct timespec` has two numbers of 64 bits, seconds and nanoseconds, and the clock is there on Linux.
    assert_eq!(unsafe { clock_gettime(CLOCK_THREAD_CPUTIME_ID, &mut time) }, 0);
    time[0] as f64 + time[1] as f64 / 1e9
}

/// The processor's seconds for one run.
pub fn once_on_processor(work: &mut dyn FnMut() -> Result<(), String>) -> Result<f64, String> {
    let began = processor_time();
    work()?;
    Ok(processor_time() - began)
}

/// The processor's mean seconds for a run, over so many seconds of runs.
pub fn mean(seconds: f64, work: &mut dyn FnMut() -> Result<(), String>) -> Result<f64, String> {
    let (began, mut runs, mut past) = (processor_time(), 0.0, 0.0);
    while past < seconds {
        work()?;
        runs += 1.0;
        past = processor_time() - began;
    }
    Ok(past / runs)
}

/// The least seconds of two works, run by turns so that both meet the same machine.
pub fn by_turns(
    runs: usize,
    first: &mut dyn FnMut() -> Result<(), String>,
    second: &mut dyn FnMut() -> Result<(), String>,
) -> Result<(f64, f64), String> {
    let mut least = (f64::INFINITY, f64::INFINITY);
    for _ in 0..runs {
        least = (least.0.min(once(first)?), least.1.min(once(second)?));
    }
    Ok(least)
}

/// What several runs gave.
pub struct Figures(Vec<f64>);

impl Figures {
    pub fn new() -> Figures {
        Figures(Vec::new())
    }

    pub fn add(&mut self, figure: f64) {
        self.0.push(figure);
        self.0.sort_by(f64::total_cmp);
    }

    pub fn least(&self) -> f64 {
        self.0[0]
    }

    pub fn largest(&self) -> f64 {
        self.0[self.0.len() - 1]
    }

    pub fn median(&self) -> f64 {
        self.0[self.0.len() / 2]
    }
}
