//! Counts, and how they are printed.
use crate::branch::{ways, Hits, CASES, PLACES, WAYS};
use crate::gen::FAMILIES;
use crate::model::nest::{Chain, CHAIN_WAYS};
use crate::model::sheet::KINDS;
use crate::model::Outcome;
use crate::ways::{self, BESIDE};
use std::collections::BTreeMap;

/// An intended difference: how often it was met, and the smallest input.
#[derive(Default, Clone)]
pub struct Explained {
    pub count: u64,
    pub smallest: Option<(usize, String)>,
}

/// Packs with more than 32 structures in one another: of 33 to 64 and of more, the longest, by each way in it, by one way alone.
#[derive(Default)]
pub struct Chains {
    to_64: u64,
    more: u64,
    longest: usize,
    with: [u64; CHAIN_WAYS.len()],
    alone: [u64; CHAIN_WAYS.len()],
    /// Packs with 32 structures inline in one another.
    inline: u64,
}

impl Chains {
    fn add(&mut self, chain: &Chain) {
        self.inline += u64::from(chain.depth == 32);
        if chain.structures <= 32 {
            return;
        }
        *(if chain.structures <= 64 { &mut self.to_64 } else { &mut self.more }) += 1;
        self.longest = self.longest.max(chain.structures);
        for k in (0..CHAIN_WAYS.len()).filter(|k| chain.ways >> k & 1 == 1) {
            self.with[k] += 1;
            self.alone[k] += u64::from(chain.ways == 1 << k);
        }
    }

    fn print(&self) {
        let list = |counts: &[u64]| {
            let named = CHAIN_WAYS.iter().zip(counts).filter(|(_, n)| **n > 0);
            named.map(|(way, n)| format!("{way} {n}")).collect::<Vec<_>>().join(", ")
        };
        println!("chains past 32        {} packs, {} of them to 64; the longest {}", self.to_64 + self.more, self.to_64, self.longest);
        println!("  with                {}; by one way alone: {}", list(&self.with), list(&self.alone));
        println!("inline to depth 32    {} packs", self.inline);
    }
}

pub struct Stats {
    pub cases: u64,
    pub families: Vec<u64>,
    /// By code, with generous limits and with the case's.
    pub generous: [u64; 19],
    pub limited: [u64; 19],
    pub remarks: [u64; 14],
    /// Those in the reference's domain.
    pub compared: u64,
    /// Each in the ordinary way, and with the root alone.
    pub tested: [u64; 2],
    pub demand3: [u64; 2],
    pub alone: ways::Counts,
    pub slots: u64,
    pub pointing: u64,
    pub files: [u64; 19],
    pub files_tested: u64,
    pub texts: u64,
    pub decimals: u64,
    /// Cases that have one: refusals, and packs.
    pub decimal_cases: [u64; 2],
    pub chains: Chains,
    pub explained: BTreeMap<String, Explained>,
    pub hits: Hits,
}

/// Counts by answer.
pub fn codes(c: &[u64; 19]) -> String {
    let list = c.iter().enumerate().filter(|(_, n)| **n > 0);
    list.map(|(k, n)| if k == 0 { format!("success {n}") } else { format!("{k}: {n}") }).collect::<Vec<_>>().join(", ")
}

impl Stats {
    pub fn new() -> Stats {
        Stats {
            cases: 0,
            families: vec![0; FAMILIES.len()],
            generous: [0; 19],
            limited: [0; 19],
            remarks: [0; 14],
            compared: 0,
            tested: [0; 2],
            demand3: [0; 2],
            alone: ways::Counts::default(),
            slots: 0,
            pointing: 0,
            files: [0; 19],
            files_tested: 0,
            texts: 0,
            decimals: 0,
            decimal_cases: [0; 2],
            chains: Chains::default(),
            explained: BTreeMap::new(),
            hits: Hits::new(),
        }
    }

    pub fn outcome(&mut self, generous: &Outcome, limited: &Outcome) {
        self.generous[generous.code() as usize] += 1;
        self.limited[limited.code() as usize] += 1;
        self.hits.add(&generous.hits);
        if let Ok(p) = &generous.answer {
            self.chains.add(&generous.chain);
            for r in &p.remarks {
                self.remarks[r.kind as usize] += 1;
            }
        }
    }

    pub fn explain(&mut self, what: &str, size: usize, input: impl FnOnce() -> String) {
        let e = self.explained.entry(what.to_string()).or_default();
        e.count += 1;
        if e.smallest.as_ref().map_or(true, |(s, _)| size < *s) {
            e.smallest = Some((size, input()));
        }
    }

    /// What the reader was given.
    pub fn print_files(&self) {
        println!("reader files          {}", codes(&self.files));
        println!("library, files        {} compared", self.files_tested);
        for (what, e) in &self.explained {
            let smallest = e.smallest.as_ref().map_or("", |(_, s)| s.as_str());
            println!("intended difference   {what}: {} times; smallest {smallest}", e.count);
        }
    }

    pub fn print(&self, branches: bool) {
        println!("cases                 {}", self.cases);
        println!("with generous limits  {}", codes(&self.generous));
        println!("with their limits     {}", codes(&self.limited));
        println!("model and reference   {} compared: none of 1, 2, 8 to 14", self.compared);
        println!("library               {} compared, and {} with the root alone", self.tested[0], self.tested[1]);
        println!("read, tiled, rebuilt  {}, and {} with the root alone", self.demand3[0], self.demand3[1]);
        self.print_alone();
        println!("pointers put          {}, of which {} stand in the pack", self.slots, self.pointing);
        println!("float texts           {} held against the parse of std, {} of them decimals", self.texts, self.decimals);
        println!("cases with decimals   {}, of them packs {}", self.decimal_cases.iter().sum::<u64>(), self.decimal_cases[1]);
        let remarks: Vec<String> = (1..14).map(|k| format!("{k}: {}", self.remarks[k])).collect();
        println!("remarks by kind       {}", remarks.join(", "));
        self.chains.print();
        let families: Vec<String> = FAMILIES.iter().zip(&self.families).map(|(f, n)| format!("{} {n}", f.name)).collect();
        println!("families              {}", families.join(", "));
        if branches {
            self.print_branches();
        }
        self.print_files();
        for b in self.hits.unreached() {
            println!("never reached         {b}");
        }
    }

    fn print_alone(&self) {
        let a = &self.alone;
        let list: Vec<String> = BESIDE.iter().zip(&a.beside).map(|(what, n)| format!("{what} {n}")).collect();
        println!("root alone            {}", list.join(", "));
        let [others, own] = a.held;
        println!("  and reference       {own} packs are its own, {others} are not, of which {} have its root at start 0 of an old block", a.at_start);
    }

    fn print_branches(&self) {
        println!("branches of write_member and element_run");
        for case in 0..CASES.len() {
            let row = &self.hits.counts[case];
            let mut list: Vec<String> = ways(case).iter().map(|w| format!("{} {}", WAYS[*w as usize], row[*w as usize])).collect();
            for w in 0..WAYS.len() {
                if row[w] > 0 && !ways(case).iter().any(|x| *x as usize == w) {
                    list.push(format!("unlisted {} {}", WAYS[w], row[w]));
                }
            }
            println!("  {:26} {}", CASES[case], list.join(", "));
        }
        println!("values by place and kind");
        for (p, row) in self.hits.values.iter().enumerate() {
            let list: Vec<String> = row.iter().enumerate().map(|(k, n)| format!("{} {n}", KINDS[k])).collect();
            println!("  {:10} {}", PLACES[p], list.join(", "));
        }
    }
}
