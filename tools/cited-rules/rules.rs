//! The rules of docs/RULES.md: `**Bus 4.** ..` up to the next one or the next heading, and rows of tables that begin with `| Numbers 13 |`.

use std::collections::{BTreeMap, BTreeSet};

pub struct Rules {
    words: BTreeMap<String, String>,
    sections: BTreeSet<String>,
}

impl Rules {
    pub fn read(text: &str) -> Rules {
        let mut words: BTreeMap<String, String> = BTreeMap::new();
        let mut current: Option<String> = None;
        for line in text.lines() {
            if line.starts_with("## ") {
                current = None;
            }
            if let Some(name) = begun(line) {
                current = Some(name.clone());
                words.insert(name, String::new());
            }
            let of = row_of(line).or_else(|| current.clone());
            if let Some(name) = of {
                let said = words.entry(name).or_default();
                said.push(' ');
                said.push_str(line);
            }
        }
        let words: BTreeMap<String, String> = words.into_iter().map(|(name, said)| (name, plain(&said))).collect();
        let sections = words.keys().filter_map(|name| name.split(' ').next()).map(str::to_string).collect();
        Rules { words, sections }
    }

    pub fn names(&self) -> impl Iterator<Item = &String> {
        self.words.keys()
    }

    pub fn words_of(&self, name: &str) -> Option<&String> {
        self.words.get(name)
    }

    /// Whether rules of this name are numbered: `Bus`.
    pub fn is_section(&self, word: &str) -> bool {
        self.sections.contains(word)
    }
}

/// The rule that a line begins: `**Bus 4.** ..`.
fn begun(line: &str) -> Option<String> {
    name_in(line.strip_prefix("**")?.split_once(".**")?.0)
}

/// The rule that a row of a table is: `| Numbers 13 | ..`.
pub fn row_of(line: &str) -> Option<String> {
    name_in(line.strip_prefix("| ")?.split_once(" |")?.0)
}

/// `Bus 4`, and nothing else.
fn name_in(words: &str) -> Option<String> {
    let (section, number) = words.split_once(' ')?;
    let is_name = section.chars().next()?.is_ascii_uppercase() && section.chars().all(|c| c.is_ascii_alphabetic());
    let is_number = !number.is_empty() && number.chars().all(|c| c.is_ascii_digit());
    (is_name && is_number).then(|| words.to_string())
}

/// With one space between words, without the marks of a layout.
pub fn plain(text: &str) -> String {
    text.replace(['`', '*'], "").split_whitespace().collect::<Vec<_>>().join(" ")
}

#[cfg(test)]
mod tests {
    use super::*;

    const TEXT: &str = "# The rules\n\n## Bus\n\n**Bus 1.** A window shows\n`ROM`.\n\n    W 0000\n\n**Bus 2.** Other\n\n## Numbers\n\n| Rule | When |\n\
                        | Numbers 13 | unfit |\n\n**bold** words";

    #[test]
    fn a_rule_goes_on_to_the_next_one_or_a_heading() {
        let rules = Rules::read(TEXT);
        assert_eq!(rules.words_of("Bus 1").unwrap(), "Bus 1. A window shows ROM. W 0000");
        assert_eq!(rules.words_of("Bus 2").unwrap(), "Bus 2. Other");
        assert_eq!(rules.names().count(), 3);
    }

    #[test]
    fn a_row_can_be_a_rule() {
        let rules = Rules::read(TEXT);
        assert_eq!(rules.words_of("Numbers 13").unwrap(), "| Numbers 13 | unfit |");
        assert!(rules.is_section("Numbers") && !rules.is_section("Rule"));
    }
}
