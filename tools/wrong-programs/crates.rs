//! What crates.txt says: which crate stands on which.

use std::collections::{BTreeMap, BTreeSet};

/// Each crate with its line, and with all that it stands on: what its line names, and what these stand on.
pub struct Crates {
    lines: BTreeMap<String, String>,
    below: BTreeMap<String, BTreeSet<String>>,
}

impl Crates {
    /// By the lines `NAME: DEP DEP` and `NAME staticlib: DEP DEP` of crates.txt; what stands behind `#` is for people.
    pub fn read(text: &str) -> Crates {
        let rows = text.lines().map(|line| line.split('#').next().unwrap_or("").trim()).filter(|line| line.contains(':'));
        let lines = rows.map(|line| (line.split([':', ' ']).next().unwrap_or("").to_string(), line.to_string())).collect();
        let mut crates = Crates { lines, below: BTreeMap::new() };
        crates.below = crates.lines.keys().map(|name| (name.clone(), crates.reached(name))).collect();
        crates
    }

    pub fn names(&self) -> Vec<String> {
        self.lines.keys().cloned().collect()
    }

    /// What the crate's own line names, in its order.
    pub fn named_by(&self, name: &str) -> impl Iterator<Item = &str> {
        self.lines.get(name).and_then(|line| line.split_once(':')).map_or("", |(_, used)| used).split_whitespace()
    }

    fn reached(&self, name: &str) -> BTreeSet<String> {
        let mut found = BTreeSet::new();
        let mut open = vec![name];
        while let Some(next) = open.pop() {
            open.extend(self.named_by(next).filter(|used| found.insert(used.to_string())));
        }
        found
    }

    pub fn below(&self, name: &str) -> impl Iterator<Item = &String> {
        self.below.get(name).into_iter().flatten()
    }

    /// The crates and all that is below them.
    pub fn with_below<'a>(&self, named: impl Iterator<Item = &'a String>) -> BTreeSet<String> {
        let crates: Vec<&String> = named.collect();
        crates
            .iter()
            .flat_map(|name| self.below(name))
            .chain(crates.iter().copied())
            .filter(|name| self.lines.contains_key(*name))
            .cloned()
            .collect()
    }

    /// A crates.txt of these crates alone.
    pub fn listed(&self, crates: &BTreeSet<String>) -> String {
        crates.iter().filter_map(|name| self.lines.get(name)).map(|line| format!("{line}\n")).collect()
    }
}

#[cfg(test)]
mod tests {
    use super::*;

    const LISTED: &str =
        "## ground: a heading\n# words: with a colon\nwindow: bank # a comment\nfacts:\nbank: facts\n\n## bus, on ground: next\n\
                          bus: window clock\n\nclock: facts io\nboard staticlib: bus";

    fn below(name: &str) -> Vec<String> {
        Crates::read(LISTED).below(name).cloned().collect()
    }

    #[test]
    fn a_line_names_a_crate_and_what_it_stands_on() {
        assert_eq!(Crates::read(LISTED).names(), ["bank", "board", "bus", "clock", "facts", "window"]);
        assert!(below("facts").is_empty());
        assert_eq!(below("bank"), ["facts"]);
    }

    #[test]
    fn a_line_names_what_stands_in_it_in_its_order() {
        let crates = Crates::read(LISTED);
        assert_eq!(crates.named_by("bus").collect::<Vec<_>>(), ["window", "clock"]);
        assert_eq!(crates.named_by("board").collect::<Vec<_>>(), ["bus"]);
    }

    #[test]
    fn a_crate_stands_on_what_those_below_it_stand_on() {
        assert_eq!(below("window"), ["bank", "facts"]);
        assert_eq!(below("board"), ["bank", "bus", "clock", "facts", "io", "window"]);
    }

    #[test]
    fn a_list_of_some_crates_has_their_lines() {
        let crates = Crates::read(LISTED);
        let some = crates.with_below(["window".to_string(), "clock".to_string()].iter());
        assert_eq!(crates.listed(&some), "bank: facts\nclock: facts io\nfacts:\nwindow: bank\n");
        assert_eq!(crates.listed(&BTreeSet::from(["board".to_string()])), "board staticlib: bus\n");
    }
}
