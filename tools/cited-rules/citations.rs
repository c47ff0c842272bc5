//! Citations in a text whose lines are joined: the name of a rule, and words of it where they follow in quotation marks, `Bus 4: "a bank .. modulo"`.
//! Two dots between spaces stand for words that are left out.

use crate::rules::{plain, Rules};

#[derive(Debug, PartialEq)]
pub struct Citation {
    pub rule: String,
    pub quoted: Option<String>,
}

impl Citation {
    /// What is wrong with it, if anything.
    pub fn fault(&self, rules: &Rules) -> Option<String> {
        let words = match rules.words_of(&self.rule) {
            Some(words) => words,
            None => return Some(format!("there is no rule {}", self.rule)),
        };
        let quoted = self.quoted.as_ref()?;
        (!stands_in(quoted, words)).then(|| format!("{} does not say \"{quoted}\"", self.rule))
    }
}

/// Whether the parts stand there as whole words, in this order. Capitals do not count: a sentence may begin within a part.
fn stands_in(quoted: &str, words: &str) -> bool {
    let quoted = plain(quoted).to_lowercase();
    let words = words.to_lowercase();
    let mut from = 0;
    quoted.split(" .. ").map(|part| part.trim_end_matches(" ..")).all(|part| match whole_words_at(&words, from, part) {
        Some(at) => {
            from = at + part.len();
            true
        }
        None => false,
    })
}

/// Where a part next stands with no letter or digit right before it or behind it.
fn whole_words_at(words: &str, from: usize, part: &str) -> Option<usize> {
    let is_apart = |side: Option<char>| side.map_or(true, |c| !c.is_alphanumeric());
    let begins = |at: usize| !part.starts_with(char::is_alphanumeric) || is_apart(words[..at].chars().next_back());
    let ends = |at: usize| !part.ends_with(char::is_alphanumeric) || is_apart(words[at + part.len()..].chars().next());
    let places = words[from..].match_indices(part).map(|(at, _)| from + at);
    places.filter(|_| !part.is_empty()).find(|at| begins(*at) && ends(*at))
}

/// All citations, in their order.
pub fn found(text: &str, rules: &Rules) -> Vec<Citation> {
    let mut found = Vec::new();
    for (begin, end) in places(text, rules) {
        let section = text[begin..end].split(' ').next().unwrap_or("");
        found.push(Citation { rule: text[begin..end].to_string(), quoted: quoted_at(&text[end..]).map(str::to_string) });
        found.extend(
            more_numbers(&text[end..]).into_iter().map(|number| Citation { rule: format!("{section} {number}"), quoted: None }),
        );
    }
    found
}

/// The words in quotation marks that are not quoted of a rule, nor of the Rust (`the Rust: "..."`).
pub fn bare(text: &str, rules: &Rules) -> Vec<String> {
    let behind: Vec<usize> =
        places(text, rules).into_iter().filter(|(_, end)| quoted_at(&text[*end..]).is_some()).map(|(_, end)| end + 3).collect();
    let marks: Vec<usize> = text.match_indices('"').map(|(at, _)| at).collect();
    marks
        .chunks_exact(2)
        .filter(|pair| !behind.contains(&(pair[0] + 1)) && !text[..pair[0]].ends_with("Rust: "))
        .map(|pair| text[pair[0] + 1..pair[1]].to_string())
        .collect()
}

/// Where the names of rules begin and end.
fn places(text: &str, rules: &Rules) -> Vec<(usize, usize)> {
    let mut found = Vec::new();
    let mut before = ' ';
    for (at, c) in text.char_indices() {
        if c.is_ascii_uppercase() && !before.is_alphanumeric() {
            if let Some(length) = name_length(&text[at..], rules) {
                found.push((at, at + length));
            }
        }
        before = c;
    }
    found
}

fn name_length(text: &str, rules: &Rules) -> Option<usize> {
    let (section, rest) = text.split_once(' ')?;
    let digits = number_length(rest)?;
    rules.is_section(section).then(|| section.len() + 1 + digits)
}

/// How many digits a text begins with, if they are a number by themselves.
fn number_length(text: &str) -> Option<usize> {
    let digits = text.chars().take_while(char::is_ascii_digit).count();
    let goes_on = text[digits..].chars().next().map_or(false, char::is_alphanumeric);
    (digits > 0 && !goes_on).then(|| digits)
}

/// The last number of `Bus 8 to 13`, and those of `Player 9 and 10`.
fn more_numbers(rest: &str) -> Vec<&str> {
    let behind = [" to ", " and "].iter().find_map(|word| rest.strip_prefix(word));
    behind.and_then(|rest| number_length(rest).map(|digits| &rest[..digits])).into_iter().collect()
}

/// The words that are quoted right behind a name.
fn quoted_at(rest: &str) -> Option<&str> {
    [": \"", ", \""].iter().find_map(|mark| rest.strip_prefix(mark))?.split_once('"').map(|(quoted, _)| quoted)
}

#[cfg(test)]
mod tests {
    use super::*;

    fn rules() -> Rules {
        Rules::read(
            "## Bus\n\n**Bus 1.** A window shows\na bank of `0x4000` bytes, modulo the banks.\n\n**Bus 12.** Other words.\n",
        )
    }

    fn faults(text: &str) -> Vec<String> {
        found(text, &rules()).iter().filter_map(|citation| citation.fault(&rules())).collect()
    }

    #[test]
    fn a_rule_that_is_not_there_is_a_fault() {
        assert_eq!(faults("by Bus 1 and Bus 12, not Bus 2; AnyBus 3, Bus 4x and the Bus are none"), ["there is no rule Bus 2"]);
    }

    #[test]
    fn a_range_and_a_pair_name_two_rules() {
        assert_eq!(
            faults("Bus 1 to 12, Bus 1 to 13, Bus 12 and 14, Bus 1 to 0x20"),
            ["there is no rule Bus 13", "there is no rule Bus 14"]
        );
    }

    #[test]
    fn quoted_words_are_whole_and_not_none() {
        assert_eq!(faults("Bus 1: \"a bank of 0x400\""), ["Bus 1 does not say \"a bank of 0x400\""]);
        assert_eq!(faults("Bus 1, \"\""), ["Bus 1 does not say \"\""]);
    }

    #[test]
    fn quoted_words_are_the_rules() {
        assert_eq!(faults("Bus 1: \"a bank of 0x4000 bytes\", Bus 1: \"A bank .. modulo the banks.\""), Vec::<String>::new());
        assert_eq!(faults("Bus 1: \"modulo .. a bank\""), ["Bus 1 does not say \"modulo .. a bank\""]);
        assert_eq!(faults("Bus 12: \"a bank\""), ["Bus 12 does not say \"a bank\""]);
    }

    #[test]
    fn words_that_are_quoted_of_no_rule_are_bare() {
        assert_eq!(bare("Bus 1: \"a bank\", \"alone\", the Rust: \"why\", Bus 12: \"Other words\"", &rules()), ["alone"]);
    }
}
