//! What the library does beside a step for each member and row: it looks for names and remarks one by one, and it lays the
//! whole scene once for each 1,024 remarks.
use super::state::Remark;
use std::collections::HashSet;

/// A round keeps so many remarks.
const ROUND: usize = 1_024;
/// Two remarks are compared in the time of so many names.
const REMARK: u64 = 16;

pub struct Effort {
    /// How many names it compares in a round: of rows, index entries, blocks, used definitions.
    pub names: u64,
    /// How many it could compare in the time that remarks take in all rounds.
    pub remarks: u64,
    pub rounds: u64,
    /// The remarks of the round, and how many different ones stood before it.
    kept: HashSet<Remark>,
    before: usize,
}

impl Default for Effort {
    fn default() -> Effort {
        Effort { names: 0, remarks: 0, rounds: 1, kept: HashSet::new(), before: 0 }
    }
}

impl Effort {
    /// A remark is compared with those of its round, and kept there unless it is one of them; a round that is full ends.
    /// What was kept is compared with the different ones of the rounds before.
    pub fn note(&mut self, remark: Remark, different: usize) {
        self.remarks += REMARK * self.kept.len() as u64;
        if self.kept.contains(&remark) {
            return;
        }
        if self.kept.len() == ROUND {
            self.kept.clear();
            self.rounds += 1;
            self.before = different;
        }
        self.kept.insert(remark);
        self.remarks += REMARK * self.before as u64;
    }

    /// All of it in names, with so many in each round beside; the command line asks for it.
    #[allow(dead_code)]
    pub fn all(&self, names: u64) -> u64 {
        let round = self.names.saturating_add(names);
        self.rounds.saturating_mul(round).saturating_add(self.remarks)
    }
}
