//! Puts requests to the library and to the reference, and counts the answers on which they agree. A number of steps is put to the library's
//! single step too.

use super::entries::{LIBRARY, REFERENCE};
use super::request::{Outcome, Request};
use super::single_steps::by_single_steps;
use super::tally::Tally;

pub struct Comparison {
    seed: u64,
    pub tally: Tally,
}

impl Comparison {
    pub fn new(seed: u64) -> Self {
        Comparison {
            seed,
            tally: Tally::EMPTY,
        }
    }

    /// The outcome on which the two agree; fails if they do not.
    pub fn ask(&mut self, request: Request) -> Outcome {
        let _shown_on_failure = Asked {
            seed: self.seed,
            number: self.tally.total(),
            request,
        };
        let library = request.answered_by(&LIBRARY);
        let reference = request.answered_by(&REFERENCE);
        assert!(
            library == reference,
            "they differ\nlibrary   = {library}\nreference = {reference}"
        );
        if let Request::Steps {
            task,
            program,
            count,
            run,
        } = request
        {
            let single = by_single_steps(task, program, count, run);
            assert!(
                library == single,
                "they differ\nlibrary      = {library}\nsingle steps = {single}"
            );
        }
        self.tally.count(request.kind(), &library);
        library
    }
}

/// A request that is shown if the test fails while it is answered.
struct Asked<'a> {
    seed: u64,
    number: usize,
    request: Request<'a>,
}

impl Drop for Asked<'_> {
    fn drop(&mut self) {
        if std::thread::panicking() {
            eprintln!("seed {}, request {}:", self.seed, self.number);
            eprintln!("{}", self.request);
        }
    }
}
