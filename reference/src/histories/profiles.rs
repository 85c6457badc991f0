//! What histories are rich in, and how likely each kind of call is there.

/// What a history is rich in.
#[derive(Clone, Copy, Debug, PartialEq, Eq)]
pub enum Profile {
    /// Something of all, mostly chunks of a size that few of fill a zone.
    Mixed,
    /// Chunks of many sizes.
    Chunks,
    /// Direct blocks.
    Pages,
    /// Resets and trims.
    Resets,
    /// Groups, sizes and offsets that are wrong.
    Wrong,
    /// Second searches: pages are short, zones are of many classes, and it is
    /// mostly chunks that come back, so that idle zones hold the pages that
    /// the next request needs.
    Tight,
}

/// How likely each kind of call is, of 100. One call is a query and one a
/// listing; those that are left are returns.
#[derive(Clone, Copy, Debug)]
pub(super) struct Weights {
    /// Settings of a ceiling, drawn before all other calls: the 100 are those
    /// that are left then.
    pub settings: u32,
    /// Calls with a wrong value of any kind, mostly near a right one.
    pub wrong: u32,
    /// Calls with a value on an edge.
    pub odd: u32,
    pub resets: u32,
    pub trims: u32,
    /// Requests in a stretch of mostly returns, and in one of mostly requests.
    pub requests: [u32; 2],
    /// Of 40 requests: those of the two favourite sizes, of any chunk, and of
    /// a few pages. Those that are left may have any size.
    pub sizes: [u32; 4],
    /// Whether a request's size goes with its group, and returns are mostly of
    /// chunks.
    pub tight: bool,
}

/// The weights that the profiles differ from.
const MIXED: Weights = Weights {
    settings: 4,
    wrong: 0,
    odd: 4,
    resets: 1,
    trims: 1,
    requests: [12, 67],
    sizes: [24, 6, 2, 7],
    tight: false,
};

impl Profile {
    pub const ALL: [Profile; 6] = [
        Profile::Mixed,
        Profile::Chunks,
        Profile::Pages,
        Profile::Resets,
        Profile::Wrong,
        Profile::Tight,
    ];

    pub(super) fn weights(self) -> Weights {
        match self {
            Profile::Mixed => MIXED,
            Profile::Chunks => Weights {
                requests: [14, 75],
                sizes: [12, 20, 6, 2],
                ..MIXED
            },
            Profile::Pages => Weights {
                sizes: [4, 1, 1, 31],
                ..MIXED
            },
            Profile::Resets => Weights {
                resets: 6,
                trims: 4,
                requests: [50, 75],
                ..MIXED
            },
            Profile::Wrong => Weights {
                wrong: 40,
                requests: [10, 40],
                ..MIXED
            },
            Profile::Tight => Weights {
                trims: 0,
                requests: [20, 75],
                tight: true,
                ..MIXED
            },
        }
    }
}
