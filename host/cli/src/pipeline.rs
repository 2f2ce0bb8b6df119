//! Pieces of work that are taken and given in order, one at a time, and done side by side in between.
use crate::failure::Failure;
use std::sync::{Condvar, Mutex};

/// What the steps of a pipeline do with a piece.
pub trait Steps: Sync {
    /// A piece, and the room that its work needs. A worker has one and uses it again and again.
    type Piece: Send;
    /// What taking and giving keep from one piece to the next.
    type Input: Send;
    type Output: Send;

    fn piece(&self) -> Result<Self::Piece, Failure>;
    /// Fills the next piece; says whether there was one.
    fn take(&self, input: &mut Self::Input, piece: &mut Self::Piece) -> Result<bool, Failure>;
    fn work(&self, piece: &mut Self::Piece) -> Result<(), Failure>;
    fn give(&self, output: &mut Self::Output, piece: &mut Self::Piece) -> Result<(), Failure>;
    /// Something has failed: no further piece is to be taken, and one that is just being waited for is not to come.
    fn stop(&self);
}

struct Taking<I> {
    input: I,
    number: u64,
    ended: bool,
}

struct Giving<O> {
    output: O,
    number: u64,
    failure: Option<Failure>,
}

/// Runs the steps with this many workers until no piece is left. What fails ends it when the pieces before it have been
/// given, and nothing after it is given.
pub fn run<S: Steps>(steps: &S, workers: usize, input: S::Input, output: S::Output) -> (S::Output, Option<Failure>) {
    let taking = Mutex::new(Taking { input, number: 0, ended: false });
    let giving = Mutex::new(Giving { output, number: 0, failure: None });
    let turn = Condvar::new();
    std::thread::scope(|scope| {
        for _ in 1..workers {
            scope.spawn(|| worker(steps, &taking, &giving, &turn));
        }
        worker(steps, &taking, &giving, &turn);
    });
    let giving = giving.into_inner().expect(NO_PANIC);
    (giving.output, giving.failure)
}

const NO_PANIC: &str = "no worker has panicked";
const HAS_ROOM: &str = "a piece that was taken has room";

fn worker<S: Steps>(steps: &S, taking: &Mutex<Taking<S::Input>>, giving: &Mutex<Giving<S::Output>>, turn: &Condvar) {
    let mut room = steps.piece();
    while let Some((number, taken)) = next(steps, taking, &mut room) {
        let done = taken.and_then(|()| steps.work(room.as_mut().expect(HAS_ROOM)));
        let mut giving = giving.lock().expect(NO_PANIC);
        while giving.number != number && giving.failure.is_none() {
            giving = turn.wait(giving).expect(NO_PANIC);
        }
        if giving.failure.is_none() {
            giving.number += 1;
            let given = done.and_then(|()| steps.give(&mut giving.output, room.as_mut().expect(HAS_ROOM)));
            giving.failure = given.err();
            turn.notify_all();
        }
        if giving.failure.is_some() {
            steps.stop();
            return;
        }
    }
}

// The number of the next piece, and whether it could be taken; none where there is no further piece. After one that could
// not be taken none follows.
fn next<S: Steps>(
    steps: &S,
    taking: &Mutex<Taking<S::Input>>,
    room: &mut Result<S::Piece, Failure>,
) -> Option<(u64, Result<(), Failure>)> {
    let mut taking = taking.lock().expect(NO_PANIC);
    if taking.ended {
        return None;
    }
    let taken = match room {
        Ok(piece) => steps.take(&mut taking.input, piece),
        Err(failure) => Err(Failure::new(failure.status, failure.message.clone())),
    };
    taking.ended = !matches!(taken, Ok(true));
    let number = taking.number;
    taking.number += 1;
    match taken {
        Ok(false) => None,
        Ok(true) => Some((number, Ok(()))),
        Err(failure) => Some((number, Err(failure))),
    }
}

#[cfg(test)]
mod tests {
    use super::*;
    use std::sync::atomic::{AtomicBool, Ordering};
    use std::time::Duration;

    // Squares of the numbers up to an end. One number may fail to be taken, worked on or given. After the end a piece is
    // waited for until it is known that something has failed.
    #[derive(Default)]
    struct Squares {
        waits: bool,
        stopped: AtomicBool,
        end: u64,
        untaken: Option<u64>,
        unworked: Option<u64>,
        ungiven: Option<u64>,
    }

    fn unless(fails: bool) -> Result<(), Failure> {
        match fails {
            true => Err(Failure::new(74, "as it was told")),
            false => Ok(()),
        }
    }

    impl Steps for Squares {
        type Piece = u64;
        type Input = u64;
        type Output = Vec<u64>;

        fn piece(&self) -> Result<u64, Failure> {
            Ok(0)
        }

        fn take(&self, input: &mut u64, piece: &mut u64) -> Result<bool, Failure> {
            unless(self.untaken == Some(*input))?;
            while self.waits && *input == self.end && !self.stopped.load(Ordering::Relaxed) {
                std::thread::sleep(Duration::from_millis(1));
            }
            *piece = *input;
            *input += 1;
            Ok(*piece < self.end && !self.stopped.load(Ordering::Relaxed))
        }

        fn work(&self, piece: &mut u64) -> Result<(), Failure> {
            // The later of two neighbours is done first.
            std::thread::sleep(Duration::from_micros(if piece.is_multiple_of(2) { 300 } else { 0 }));
            unless(self.unworked == Some(*piece))?;
            *piece *= *piece;
            Ok(())
        }

        fn give(&self, output: &mut Vec<u64>, piece: &mut u64) -> Result<(), Failure> {
            unless(self.ungiven.map(|number| number * number) == Some(*piece))?;
            output.push(*piece);
            Ok(())
        }

        fn stop(&self) {
            self.stopped.store(true, Ordering::Relaxed);
        }
    }

    fn squares(end: u64) -> Vec<u64> {
        (0..end).map(|number| number * number).collect()
    }

    #[test]
    fn pieces_are_given_in_their_order() {
        for workers in [1, 2, 3, 8] {
            for end in [0, 1, 2, 100] {
                let (given, failure) = run(&Squares { end, ..Squares::default() }, workers, 0, Vec::new());
                assert!(failure.is_none());
                assert_eq!(given, squares(end), "{workers} workers");
            }
        }
    }

    #[test]
    fn what_fails_ends_a_wait_for_input() {
        let steps = Squares { end: 10, waits: true, ungiven: Some(9), ..Squares::default() };
        let (given, failure) = run(&steps, 2, 0, Vec::new());
        assert!(failure.is_some());
        assert_eq!(given, squares(9));
    }

    #[test]
    fn what_fails_ends_it_after_the_pieces_before() {
        for workers in [1, 2, 3, 8] {
            for at in [0, 1, 30] {
                let (end, at_that) = (100, Some(at));
                for steps in [
                    Squares { end, untaken: at_that, ..Squares::default() },
                    Squares { end, unworked: at_that, ..Squares::default() },
                    Squares { end, ungiven: at_that, ..Squares::default() },
                ] {
                    let (given, failure) = run(&steps, workers, 0, Vec::new());
                    assert_eq!(failure.expect("a failure").status, 74);
                    assert_eq!(given, squares(at), "{workers} workers");
                }
            }
        }
    }
}
