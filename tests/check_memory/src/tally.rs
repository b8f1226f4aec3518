// Counts of the answers.

use bm_base::Refusal;

/// The numbers of expected answers, of other answers, and of calls that were refused because they
/// were out of memory.
#[derive(Clone, Copy)]
pub struct Tally {
    pub right: u64,
    pub wrong: u64,
    pub refused: u64,
    /// Why a call outside the windows was refused, although it must be accepted. The checks go on,
    /// and the program ends with status 1.
    pub failure: Option<Refusal>,
}

impl Tally {
    pub const EMPTY: Tally = Tally {
        right: 0,
        wrong: 0,
        refused: 0,
        failure: None,
    };

    pub fn note(&mut self, is_right: bool) {
        if is_right {
            self.right = self.right.saturating_add(1);
        } else {
            self.wrong = self.wrong.saturating_add(1);
        }
    }

    /// Counts the call if it was refused.
    pub fn refuse_if(&mut self, is_refused: bool) {
        self.refused = self.refused.saturating_add(u64::from(is_refused));
    }

    pub fn fail(&mut self, refusal: Refusal) {
        self.failure = Some(refusal);
    }

    pub fn require(&mut self, done: Result<(), Refusal>) {
        if let Err(refusal) = done {
            self.fail(refusal);
        }
    }

    /// Ends the line that begins with a name, and counts from 0 again. A line that can't be printed
    /// is left out.
    pub fn print(&mut self, rt: &impl Print, kind: &str) {
        let Tally {
            right,
            wrong,
            refused,
            failure,
        } = *self;
        let _ = println!(rt; ": {right} right, {wrong} wrong; {kind}{refused} refused");
        *self = Tally {
            failure,
            ..Tally::EMPTY
        };
    }
}
