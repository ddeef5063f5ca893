//! How structures stand in one another: depth, and how long a chain is.

/// How a structure is reached.
#[derive(Clone, Copy, Debug, PartialEq, Eq)]
pub enum Reached {
    Root,
    /// Inline in a structure of this depth.
    Inline(u32),
    Pointer,
    PointerRun,
    Run,
    Embedded,
    Pair,
}

/// In the order of their bits in `Chain`.
pub const CHAIN_WAYS: [&str; 6] = ["inline structures", "pointers", "runs of pointers", "runs", "embedded runs", "map pairs"];

impl Reached {
    /// "Depth from now on counts only structures written inline inside one another. A structure reached by pointer, in a run
    /// or as a map pair starts again at 1."
    pub fn depth(self) -> u32 {
        match self {
            Reached::Inline(outer) => outer + 1,
            Reached::Root | Reached::Pointer | Reached::PointerRun | Reached::Run | Reached::Embedded | Reached::Pair => 1,
        }
    }

    fn bit(self) -> u8 {
        match self {
            Reached::Root => 0,
            Reached::Inline(_) => 1,
            Reached::Pointer => 2,
            Reached::PointerRun => 4,
            Reached::Run => 8,
            Reached::Embedded => 16,
            Reached::Pair => 32,
        }
    }
}

/// The longest chain of structures in one another: how many, by which ways; and the greatest depth. No answer depends on it.
#[derive(Clone, Copy, Debug, Default)]
pub struct Chain {
    pub structures: usize,
    pub ways: u8,
    pub depth: u32,
}

/// The structures that are being written, from the root on.
#[derive(Default)]
pub struct Nest {
    reached: Vec<Reached>,
    pub longest: Chain,
}

impl Nest {
    pub fn enter(&mut self, reached: Reached) {
        self.reached.push(reached);
        self.longest.depth = self.longest.depth.max(reached.depth());
        if self.reached.len() > self.longest.structures {
            self.longest.structures = self.reached.len();
            self.longest.ways = self.reached.iter().fold(0, |all, r| all | r.bit());
        }
    }

    pub fn leave(&mut self) {
        self.reached.pop();
    }
}
