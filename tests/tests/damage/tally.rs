//! The cases in which the check is asked, counted by their kind.

use crate::subject::Subject;
use tests::counts::Counts;

/// All cases together.
pub const CASES: &str = "cases";
/// Those of them in which the words are a state's.
pub const LEGAL: &str = "cases, legal";

#[derive(Default)]
pub struct Tally {
    kind: &'static str,
    counts: Counts,
}

impl Tally {
    /// Counts the cases from here on under a name as well.
    pub fn begin(&mut self, kind: &'static str) {
        self.kind = kind;
    }

    /// Judges the first `count` words of a subject and puts it right again.
    pub fn judge(&mut self, subject: &mut Subject, count: usize) {
        let verdict = subject.judge(count);
        self.counts.count(CASES, 1);
        self.counts.count(self.kind, 1);
        if verdict.legal {
            self.counts.count(LEGAL, 1);
            self.counts.count(&format!("{}, legal", self.kind), 1);
        }
        if !verdict.is_right() {
            self.counts.fault(|| {
                format!(
                    "{}: check {}, legal {}, words kept {}, {count} words; {}",
                    self.kind,
                    verdict.answer,
                    verdict.legal,
                    verdict.kept,
                    subject.describe()
                )
            });
        }
        subject.restore();
    }

    pub fn counts(&self) -> &Counts {
        &self.counts
    }
}
