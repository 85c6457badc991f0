//! Document 01's "Pages out and in" with document 02's requests a) and b): the
//! free runs, and the two searches for pages with the runs they look at.

use crate::state::{Page, Run, State};

/// One search through the runs of a state.
#[derive(Clone, Copy, Debug, PartialEq, Eq)]
pub struct Search {
    /// The chosen run's place among the runs; `None` if no run is long enough.
    pub chosen: Option<usize>,
    /// The runs looked at: those up to and including the chosen one, or all.
    pub looked: u32,
}

/// All that is done to find pages: one search, or two if the first fails.
#[derive(Clone, Copy, Debug, PartialEq, Eq)]
pub struct Searches {
    /// Through the runs as they are.
    pub first: Search,
    /// Through the runs that a tidy leaves; made just where the first fails,
    /// be there an idle zone to give back or not.
    pub second: Option<Search>,
}

impl Searches {
    /// The runs looked at in both searches together.
    pub fn looked(&self) -> u32 {
        self.first.looked + self.second.map_or(0, |second| second.looked)
    }
}

/// What was taken, be it pages or a chunk or a block, and the runs looked at
/// for it. `None` was taken where pages are needed and no search finds them.
#[derive(Clone, Copy, Debug, PartialEq, Eq)]
pub(crate) struct Taken<T> {
    pub taken: Option<T>,
    pub looked: u32,
}

impl<T> Taken<T> {
    /// What is taken without a search.
    pub fn at_hand(taken: T) -> Taken<T> {
        Taken {
            taken: Some(taken),
            looked: 0,
        }
    }

    /// What comes of it, after the same look at the runs.
    pub fn map<U>(self, made: impl FnOnce(T) -> U) -> Taken<U> {
        Taken {
            taken: self.taken.map(made),
            looked: self.looked,
        }
    }
}

impl State {
    /// Looks for so many pages in a row among the runs, and if no run has
    /// them, once more among the runs that a tidy leaves. Nothing changes.
    pub fn search_for(&self, pages: u32) -> Searches {
        let first = self.search_runs(pages);
        let second = match first.chosen {
            Some(_) => None,
            None => {
                let mut tidied = self.clone();
                tidied.give_idle_zones();
                Some(tidied.search_runs(pages))
            }
        };
        Searches { first, second }
    }

    /// Takes pages. Where the second search is the one that finds them, every
    /// idle zone is given back first; where it fails too, nothing changes.
    pub(crate) fn take_pages(&mut self, pages: u32) -> Taken<Page> {
        let searches = self.search_for(pages);
        let second = searches.second.and_then(|second| second.chosen);
        if second.is_some() {
            self.give_idle_zones();
        }
        let chosen = searches.first.chosen.or(second);
        Taken {
            taken: chosen.map(|at| self.take_from_run(at, pages)),
            looked: searches.looked(),
        }
    }

    /// Goes through the runs in ascending order, counts them, and stops at the
    /// first that is long enough.
    fn search_runs(&self, pages: u32) -> Search {
        let mut looked = 0;
        for (at, run) in self.runs.iter().enumerate() {
            looked += 1;
            if run.pages >= pages {
                let chosen = Some(at);
                return Search { chosen, looked };
            }
        }
        Search {
            chosen: None,
            looked,
        }
    }

    /// Takes the low pages of the run at this place, which is long enough.
    fn take_from_run(&mut self, at: usize, pages: u32) -> Page {
        let run = &mut self.runs[at];
        let start = run.start;
        if run.pages == pages {
            self.runs.remove(at);
        } else {
            run.start += pages;
            run.pages -= pages;
        }
        start
    }

    /// Gives pages back and joins them with their neighbours.
    pub(crate) fn give_pages(&mut self, start: Page, pages: u32) {
        let at = self.runs.partition_point(|run| run.start < start);
        self.runs.insert(at, Run { start, pages });
        // The run after first: the place of the new run is then still `at`.
        self.join_with_next(at);
        if at > 0 {
            self.join_with_next(at - 1);
        }
    }

    /// Makes one run of the run at this place and the next, if they touch.
    fn join_with_next(&mut self, at: usize) {
        if let [run, next, ..] = self.runs[at..] {
            if run.start + run.pages == next.start {
                self.runs[at].pages += next.pages;
                self.runs.remove(at + 1);
            }
        }
    }
}
