//! Words that are damaged, judged, and put right again.

use reference::state::State;
use tests::check::check;
use tests::layout::{decode, encode, used_words, FIGURE_WORDS};

/// The words of a legal state, with more words behind them.
pub struct Subject {
    /// What the words encode while they are as they were made.
    pub state: State,
    /// What the check, or a call, is lent.
    words: Vec<u32>,
    /// The same words, which neither ever sees.
    twin: Vec<u32>,
    /// The places changed and what stood there, first change first.
    changes: Vec<(usize, u32)>,
}

/// What came of one case.
pub struct Verdict {
    /// What the check answered.
    pub answer: u32,
    /// Whether the words decode.
    pub legal: bool,
    /// Whether every word is as it was before the check.
    pub kept: bool,
}

impl Verdict {
    /// Whether the check did all that it should.
    pub fn is_right(&self) -> bool {
        self.answer == u32::from(self.legal) && self.kept
    }
}

impl Subject {
    /// A state's words, and behind them so many zeros.
    pub fn new(state: State, spare: usize) -> Subject {
        let mut words = encode(&state);
        words.resize(words.len() + spare, 0);
        Subject {
            state,
            twin: words.clone(),
            words,
            changes: Vec::new(),
        }
    }

    /// How many words the state uses.
    pub fn used(&self) -> usize {
        used_words(self.state.pages)
    }

    /// How many words there are.
    pub fn len(&self) -> usize {
        self.twin.len()
    }

    pub fn get(&self, at: usize) -> u32 {
        self.twin[at]
    }

    /// Changes a word. That it stays as it is makes no change.
    pub fn set(&mut self, at: usize, value: u32) {
        let old = self.twin[at];
        if old != value {
            self.changes.push((at, old));
            self.words[at] = value;
            self.twin[at] = value;
        }
    }

    pub fn set_all(&mut self, at: usize, values: &[u32]) {
        for (at, value) in (at..).zip(values) {
            self.set(at, *value);
        }
    }

    pub fn is_changed(&self) -> bool {
        !self.changes.is_empty()
    }

    /// Whether one of the groups' figures or ceilings, or a zero behind them, was changed.
    pub fn is_changed_in_figures(&self) -> bool {
        self.changes.iter().any(|(at, _)| *at < FIGURE_WORDS)
    }

    /// Asks both sides about the first `count` words. The words behind them are there and stay:
    /// who reads them will often take the words for whole.
    pub fn judge(&mut self, count: usize) -> Verdict {
        Verdict {
            answer: check(&mut self.words[..count]),
            legal: decode(&self.twin[..count]).is_some(),
            kept: self.words == self.twin,
        }
    }

    /// The words as they are to be, which no proved function sees.
    pub fn twin(&self) -> &[u32] {
        &self.twin
    }

    /// All words as they are, those behind the lent ones among them.
    pub fn words(&self) -> &[u32] {
        &self.words
    }

    /// The first `count` words, for a call that may change them.
    pub fn lend(&mut self, count: usize) -> &mut [u32] {
        &mut self.words[..count]
    }

    /// Makes the words again what they were before a call.
    pub fn undo(&mut self) {
        self.words.copy_from_slice(&self.twin);
    }

    /// Takes all changes back.
    pub fn restore(&mut self) {
        for (at, old) in self.changes.drain(..).rev() {
            self.words[at] = old;
            self.twin[at] = old;
        }
    }

    /// The changes for a person to read: place, old word, new word.
    pub fn describe(&self) -> String {
        let shown = self.changes.iter().take(12);
        let change = |(at, old): &(usize, u32)| format!("[{at}] {old} -> {}", self.twin[*at]);
        let shown: Vec<String> = shown.map(change).collect();
        format!(
            "{} pages, {} changes: {}",
            self.state.pages,
            self.changes.len(),
            shown.join(", ")
        )
    }
}
