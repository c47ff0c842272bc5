//! The rows of docs/PROMISES.md: `| Bus 4 | words | definition | function or theorem | wrong programs | tested |`, names in backticks, words of the
//! rule in quotation marks.

use crate::citations::Citation;
use crate::known::Known;
use crate::rules::{row_of, Rules};

#[derive(Debug, PartialEq)]
pub struct Row {
    pub rule: String,
    /// Whether each of the six cells has something in it.
    is_whole: bool,
    quoted: Vec<String>,
    definitions: Vec<String>,
    promised: Vec<String>,
    wrong: Vec<String>,
}

pub fn rows(text: &str, rules: &Rules) -> Vec<Row> {
    text.lines().filter_map(|line| row(line, rules)).collect()
}

fn row(line: &str, rules: &Rules) -> Option<Row> {
    let rule = row_of(line).filter(|name| rules.words_of(name).is_some())?;
    let cells: Vec<&str> = line.trim_start_matches('|').trim_end_matches('|').split(" | ").map(str::trim).collect();
    let is_whole = cells.len() == 6 && cells.iter().all(|cell| !cell.is_empty());
    let in_cell = |cell: usize, mark: char| cells.get(cell).map_or(Vec::new(), |cell| between(cell, mark));
    Some(Row {
        rule,
        is_whole,
        quoted: in_cell(1, '"'),
        definitions: in_cell(2, '`'),
        promised: in_cell(3, '`'),
        wrong: in_cell(4, '`'),
    })
}

/// What stands between such marks.
fn between(cell: &str, mark: char) -> Vec<String> {
    cell.split(mark).skip(1).step_by(2).map(str::to_string).collect()
}

impl Row {
    /// That it lacks a cell, if so.
    pub fn gap(&self) -> Option<String> {
        (!self.is_whole).then(|| format!("a row of {} has not six cells with something in each", self.rule))
    }

    /// The words that are quoted and not the rule's.
    pub fn misquoted(&self, rules: &Rules) -> Vec<String> {
        let citation = |words: &String| Citation { rule: self.rule.clone(), quoted: Some(words.clone()) };
        self.quoted.iter().filter_map(|words| citation(words).fault(rules)).collect()
    }

    /// The names that are not in the repository.
    pub fn unknown(&self, known: &Known) -> Vec<String> {
        let definitions =
            self.definitions.iter().filter(|name| !known.crates.contains(*name) && !known.definitions.contains(*name));
        let promised = self.promised.iter().filter(|name| !is_promised(name, known));
        let wrong = self.wrong.iter().filter(|name| !known.crates.contains(*name) && !known.wrong.contains(*name));
        let said = |kind: &'static str| move |name: &String| format!("{kind} `{name}`");
        definitions
            .map(said("definition"))
            .chain(promised.map(said("function or theorem")))
            .chain(wrong.map(said("wrong program")))
            .collect()
    }
}

/// A function, as `mbc1::low_of` or `Clock::advance`; a theorem; a definition; or the crate or file of such.
fn is_promised(name: &str, known: &Known) -> bool {
    let last = name.rsplit("::").next().unwrap_or(name);
    let file = name.strip_suffix(".antt").unwrap_or(name);
    known.functions.contains(last)
        || known.theorems.contains(file)
        || known.definitions.contains(name)
        || known.crates.contains(name)
}

#[cfg(test)]
mod tests {
    use super::*;

    fn known() -> Known {
        let names = |names: &[&str]| names.iter().map(|name| name.to_string()).collect();
        Known {
            definitions: names(&["Image", "Image.byte_at", "byte_at"]),
            theorems: names(&["padded_byte", "Demand2"]),
            functions: names(&["byte_at"]),
            wrong: names(&["padded_with_ff"]),
            crates: names(&["image"]),
        }
    }

    fn rules() -> Rules {
        Rules::read("**Bus 4.** Words.")
    }

    fn first(cells: &str) -> Row {
        rows(&format!("| Bus 4 | {cells} | - |"), &rules()).remove(0)
    }

    #[test]
    fn a_row_names_what_is_there() {
        let row = first(
            "\"Words.\" | `image` `Image.byte_at` | `image::byte_at`; theorem `padded_byte` of `Demand2.antt` | `padded_with_ff`",
        );
        assert_eq!(row.unknown(&known()), Vec::<String>::new());
        assert_eq!(row.misquoted(&rules()), Vec::<String>::new());
        assert_eq!(row.gap(), None);
    }

    #[test]
    fn a_row_without_a_cell_is_told() {
        assert!(first("\"Words.\" | - | - | -").gap().is_none());
        assert!(first("\"Words.\" |  | - | -").gap().is_some());
        assert!(first("\"Words.\" | - | -").gap().is_some());
    }

    #[test]
    fn names_and_words_that_are_not_there_are_told() {
        let row = first("\"Other\" | `Image.bytes_at` | `image::bytes_at` | `padded_with_00`");
        let unknown = ["definition `Image.bytes_at`", "function or theorem `image::bytes_at`", "wrong program `padded_with_00`"];
        assert_eq!(row.unknown(&known()), unknown);
        assert_eq!(row.misquoted(&rules()), ["Bus 4 does not say \"Other\""]);
    }
}
