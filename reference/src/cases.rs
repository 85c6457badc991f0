//! Document 01's cases, and those of document 02's requests: scripts with their
//! answers, read from the files of cases/, one file for each part of document
//! 01 and one for each request. Every program that keeps the rules is held to
//! the same ones. cases/README.md says how they are written.

use crate::bench::WORDS;
use crate::calls::{Answer, Call};
use crate::lines::{parse, render};
use crate::sizes::{words_needed, GROUPS};
use crate::state::State;

/// What asks for one group's record.
const RECORD: &str = "holding ";

/// What asks for the holdings in a list of so many records.
const LIST: &str = "holdings ";

/// What sets one group's ceiling, and without the bytes looks at it.
const CEILING: &str = "ceiling ";

/// The files, by name and text.
pub const FILES: [(&str, &str); 11] = [
    ("calls", include_str!("../cases/calls.txt")),
    ("ceilings", include_str!("../cases/ceilings.txt")),
    ("counts", include_str!("../cases/counts.txt")),
    ("edges", include_str!("../cases/edges.txt")),
    ("holdings", include_str!("../cases/holdings.txt")),
    ("pages", include_str!("../cases/pages.txt")),
    ("refusals", include_str!("../cases/refusals.txt")),
    ("second-search", include_str!("../cases/second-search.txt")),
    ("sizes", include_str!("../cases/sizes.txt")),
    ("slips", include_str!("../cases/slips.txt")),
    ("zones", include_str!("../cases/zones.txt")),
];

/// A script that begins on all-zero books of so many words.
pub struct Case {
    /// The file and the title, and the arena's pages where a case has several.
    pub name: String,
    pub words: usize,
    pub steps: Vec<Step>,
}

/// One line of a script with what is answered.
pub struct Step {
    /// A line of the bench program, the fetching of holdings, the setting of a
    /// ceiling, or a look at the state ([`look`]).
    pub asked: String,
    /// The answer's lines, each ended by LF.
    pub answer: String,
    /// Of a request, the runs that it looked at, where the case says so.
    pub looked: Option<u32>,
}

impl Step {
    /// The call that is made; `None` if the state is looked at.
    pub fn call(&self) -> Option<Call> {
        let twelve = GROUPS as usize;
        if let Some(records) = self.asked.strip_prefix(LIST) {
            let records = number(records) as usize;
            return Some(Call::Holdings { records });
        }
        if let Some(set) = self.asked.strip_prefix(CEILING) {
            let (group, bytes) = set.split_once(' ')?;
            let (group, bytes) = (number(group), number(bytes));
            return Some(Call::SetCeiling { group, bytes });
        }
        match self.asked.starts_with(RECORD) {
            true => Some(Call::Holdings { records: twelve }),
            false => parse(self.asked.as_bytes()),
        }
    }

    /// What is told of the call's answer: all of it, but of fetched holdings
    /// the one record that is asked for.
    pub fn told(&self, answer: &Answer) -> String {
        match (self.asked.strip_prefix(RECORD), answer) {
            (Some(group), Answer::Fetched(holdings)) => {
                let holding = holdings[number(group) as usize - 1];
                holding.line() + "\n"
            }
            _ => render(answer),
        }
    }

    /// Whether an answer has the count that the case says, where it says one.
    pub fn has_count_of(&self, answer: &Answer) -> bool {
        self.looked.is_none() || answer.looked() == self.looked
    }
}

impl Case {
    /// Whether the bench program's books are the ones of this case, and no
    /// ceiling is set in it, for which the bench program has no line.
    pub fn is_for_the_bench_program(&self) -> bool {
        self.words == WORDS && !self.sets_a_ceiling()
    }

    /// Whether a ceiling is set in it, or tried to be.
    pub fn sets_a_ceiling(&self) -> bool {
        let mut calls = self.steps.iter().filter_map(Step::call);
        calls.any(|call| matches!(call, Call::SetCeiling { .. }))
    }
}

/// All cases of all files.
pub fn all() -> Vec<Case> {
    FILES
        .iter()
        .flat_map(|(name, text)| cases(name, text))
        .collect()
}

/// What can be seen of a state and not of a listing: `lists`, the empty list
/// and each class's list that has a zone; `zone P`, a zone's class, k and
/// chain; and `ceiling G`, a group's ceiling. `None` if a line asks for none of
/// them.
pub fn look(state: &State, asked: &str) -> Option<String> {
    let pages = |list: &mut dyn Iterator<Item = &u32>| -> String {
        list.map(|page| format!(" {page}")).collect()
    };
    if asked == "lists" {
        let mut told = format!("empty{}\n", pages(&mut state.empty.iter()));
        for (class, list) in state.lists.iter().enumerate() {
            if !list.is_empty() {
                told.push_str(&format!("{class}{}\n", pages(&mut list.iter())));
            }
        }
        return Some(told);
    }
    if let Some(group) = asked.strip_prefix(CEILING) {
        let bytes = state.ceilings[number(group) as usize - 1];
        return Some(format!("{bytes}\n"));
    }
    let zone = &state.zones[&asked.strip_prefix("zone ")?.parse().ok()?];
    let chain = pages(&mut zone.chain.iter());
    let (class, k) = (zone.class, zone.handed_out);
    Some(format!("{class} k {k} chain{chain}\n"))
}

/// The cases of one file.
fn cases(file: &str, text: &str) -> Vec<Case> {
    let parts = text.split("\n\n").filter(|part| !part.is_empty());
    parts.flat_map(|part| case(file, part.trim_end())).collect()
}

/// A case, for each number of pages that it is told for.
fn case(file: &str, part: &str) -> Vec<Case> {
    let mut lines = part.lines().peekable();
    let title = lines.next().and_then(|line| line.strip_prefix("# "));
    let title = title.unwrap_or_else(|| panic!("{file}: a title is missing: {part}"));
    let words = lines.next_if(|line| line.starts_with("words "));
    let words = words.map_or(WORDS, |line| number(&line[6..]) as usize);
    let arenas = lines.next_if(|line| line.starts_with("for N "));
    let lines: Vec<&str> = lines.collect();
    let steps = |pages| lines.iter().flat_map(|line| steps(line, pages)).collect();
    match arenas {
        None => vec![Case {
            name: format!("{file}: {title}"),
            words,
            steps: steps(0),
        }],
        Some(arenas) => arenas[6..]
            .split(' ')
            .map(number)
            .map(|pages| Case {
                name: format!("{file}: {title}, {pages} pages"),
                words: words_needed(pages).max(words),
                steps: steps(pages),
            })
            .collect(),
    }
}

/// The steps of one line.
fn steps(line: &str, pages: u32) -> Vec<Step> {
    let (times, line) = match line.split_once(" x ") {
        Some((times, rest)) => (number(times), rest),
        None => (1, line),
    };
    let (asked, answer) = line
        .split_once(" -> ")
        .unwrap_or_else(|| panic!("no answer: {line}"));
    let (answer, looked) = counted(answer);
    let answer: String = answer.split(", ").map(|line| format!("{line}\n")).collect();
    let mut steps = Vec::new();
    for time in 0..times {
        for asked in alternatives(asked) {
            steps.push(Step {
                asked: with_values(&asked, pages, time),
                answer: with_values(&answer, pages, time),
                looked: looked.map(|count| number(&value(count, pages, time))),
            });
        }
    }
    steps
}

/// An answer, and the count in brackets behind it, if there is one.
fn counted(answer: &str) -> (&str, Option<&str>) {
    let behind = answer.strip_suffix(')');
    match behind.and_then(|answer| answer.split_once(" (")) {
        Some((answer, count)) => (answer, Some(count)),
        None => (answer, None),
    }
}

/// The calls that a line stands for: a place with `|` has each of its values
/// in turn.
fn alternatives(asked: &str) -> Vec<String> {
    let mut words = asked.split(' ').enumerate();
    let (at, word) = match words.find(|(_, word)| word.contains('|')) {
        Some(found) => found,
        None => return vec![asked.to_string()],
    };
    let with = |value: &str| {
        let mut words: Vec<&str> = asked.split(' ').collect();
        words[at] = value;
        alternatives(&words.join(" "))
    };
    word.split('|').flat_map(with).collect()
}

/// The text with a number for each word that stands for one.
fn with_values(text: &str, pages: u32, time: u32) -> String {
    let line = |line: &str| {
        let words = line.split(' ').map(|word| value(word, pages, time));
        words.collect::<Vec<String>>().join(" ")
    };
    text.split('\n')
        .map(line)
        .collect::<Vec<String>>()
        .join("\n")
}

/// A word's value: `A+B` is A, and B more at each repetition; `N`, `N*A` and
/// both with `-B` or `+B` behind are of the arena's pages.
fn value(word: &str, pages: u32, time: u32) -> String {
    let (term, more, less) = match (word.split_once('+'), word.split_once('-')) {
        (Some((term, more)), _) => (term, number(more), 0),
        (_, Some((term, less))) if term.starts_with('N') => (term, 0, number(less)),
        _ => (word, 0, 0),
    };
    match term.strip_prefix('N') {
        Some(factor) => {
            let factor = factor.strip_prefix('*').map_or(1, number);
            (pages * factor + more - less).to_string()
        }
        None if term == word => word.to_string(),
        None => (number(term) + time * more).to_string(),
    }
}

fn number(digits: &str) -> u32 {
    let number = digits.parse();
    number.unwrap_or_else(|_| panic!("not a number: {digits:?}"))
}
