//! Where both sides meet: every call goes through here, and the first difference ends the program.

use std::io::Write;

use crate::call::Call;
use crate::draw::Draw;
use crate::outcome::{of_plain, of_proved, Answer, Outcome};
use crate::tally::{Kind, Tally};

pub struct Arena {
    pub draw: Draw,
    pub tally: Tally,
    seed: u64,
    unit: u64,
}

impl Arena {
    pub fn new(seed: u64, unit: u64) -> Self {
        Arena { draw: Draw::new(seed, unit), tally: Tally::default(), seed, unit }
    }

    /// Runs the call on both sides, compares, and hands back what both did.
    pub fn compare(&mut self, kind: Kind, call: &Call) -> Outcome {
        let (plain, proved) = (of_plain(call), of_proved(call));
        if plain != proved {
            self.report("the two sides differ", kind, call, &plain, &proved);
        }
        if !plain.rest_is_untouched(call) {
            self.fail("a word outside the answer was written", kind, call, &plain);
        }
        if !plain.row_fits(call) {
            self.fail("the outputs or the coins are not those that the lists call for", kind, call, &plain);
        }
        if !plain.record_fits(call) {
            self.fail("the record is not the one that goes with the answer", kind, call, &plain);
        }
        self.tally.count(call.operation, kind, plain.answer);
        plain
    }

    /// Compares a call whose answer is known.
    pub fn expect(&mut self, kind: Kind, call: &Call, answer: Answer) -> Outcome {
        let outcome = self.compare(kind, call);
        if outcome.answer != answer {
            self.fail(&format!("the answer should be {answer:?}"), kind, call, &outcome);
        }
        outcome
    }

    /// Ends the program on an outcome that is wrong on both sides.
    pub fn fail(&self, what: &str, kind: Kind, call: &Call, outcome: &Outcome) -> ! {
        self.report(what, kind, call, outcome, outcome)
    }

    fn report(&self, what: &str, kind: Kind, call: &Call, plain: &Outcome, proved: &Outcome) -> ! {
        // The lock is kept until the end, so that another thread's report doesn't run into this one.
        let mut out = std::io::stdout().lock();
        let report = format!(
            "{what}: {}, {}\nrepeat with --seed {} --unit {}\n{call:?}\nplain  {plain:?}\nproved {proved:?}\n",
            call.operation.name(),
            kind.name(),
            self.seed,
            self.unit,
        );
        let _ = out.write_all(report.as_bytes()).and_then(|()| out.flush());
        std::process::exit(1)
    }
}
