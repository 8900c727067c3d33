//! How often each entry gave each kind of answer, so that a reader sees what was reached.

use std::collections::BTreeMap;

#[derive(Default)]
pub struct Tally {
    counts: BTreeMap<(&'static str, u64), u64>,
    /// What was met besides: extreme sizes, and kinds of an answer that have the same number.
    met: BTreeMap<&'static str, u64>,
    pub cases: u64,
}

impl Tally {
    pub fn note(&mut self, entry: &'static str, number: u64) {
        *self.counts.entry((entry, number)).or_default() += 1;
        self.cases += 1;
    }

    /// Something was met in a comparison that is noted by itself.
    pub fn meet(&mut self, what: &'static str) {
        *self.met.entry(what).or_default() += 1;
    }

    pub fn has_met(&self, what: &str) -> bool {
        self.met.contains_key(what)
    }

    pub fn reached(&self, entry: &str, number: u64) -> bool {
        self.counts.keys().any(|(name, given)| *name == entry && *given == number)
    }

    /// A line for each entry: accepted, then each refusal number with its count. Then a line for each thing met.
    pub fn print(&self) {
        let mut line_of = "";
        for ((entry, number), count) in &self.counts {
            if *entry != line_of {
                print!("{}{entry}:", if line_of.is_empty() { "" } else { "\n" });
                line_of = entry;
            }
            match number {
                0 => print!(" accepted {count}"),
                _ => print!(" refused {number}: {count}"),
            }
        }
        println!();
        for (what, count) in &self.met {
            println!("met {what}: {count}");
        }
    }
}
