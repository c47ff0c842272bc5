//! Holds the numbers in the crates to the list, both ways.

use crate::answers;
use crate::list::{Also, Refusal, FILE};
use crate::source::{self, Given};
use std::collections::BTreeMap;

/// A source of a crate.
pub struct Source {
    pub of: String,
    /// As a caller names its module: `crate`, or `crate::module`.
    pub module: String,
    pub text: String,
}

/// How many are as they should be, and what is wrong.
#[derive(Debug, Default, PartialEq)]
pub struct Found {
    pub good: usize,
    pub wrong: Vec<String>,
}

impl Found {
    pub fn note(&mut self, wrong: Option<String>) {
        match wrong {
            Some(wrong) => self.wrong.push(wrong),
            None => self.good += 1,
        }
    }
}

/// What the list says of a variant: its number, and how many values it carries.
type Listed<'a> = BTreeMap<&'a str, (u32, usize)>;

pub fn checked(all: &[Refusal], sources: &[Source]) -> Found {
    let mut found = Found::default();
    let mut listed: Listed = BTreeMap::new();
    for refusal in all {
        listed.extend(refusal.from.iter().map(|variant| (variant.path(), (refusal.number, variant.values()))));
    }
    for source in sources {
        for variant in source::variants(&source.text) {
            let path = format!("{}::{}", source.module, variant.path);
            found.note(other_than_listed(&path, &variant, listed.remove(path.as_str())));
        }
    }
    for (path, (number, _)) in listed {
        found.wrong.push(format!("{FILE}: {number} is from {path}, and no enum of refusals in the crates has that"));
    }
    for refusal in all {
        for also in &refusal.also {
            found.note(without_line(refusal.number, also, sources));
        }
    }
    found.wrong.extend(sources.iter().flat_map(misplaced));
    found.wrong.extend(sources.iter().flat_map(|source| unlisted(all, source)));
    found
}

/// What is wrong with a variant, by what the list has of it.
fn other_than_listed(path: &str, variant: &source::Variant, listed: Option<(u32, usize)>) -> Option<String> {
    match (&variant.given, listed) {
        (None, _) => Some(format!("{path} has no number: give its enum's 'number' an arm for it")),
        (Some(Given::Other(answer)), _) => {
            Some(format!("{path} is given '{answer}', which is neither a number nor one handed on"))
        }
        (Some(Given::HandedOn), None) => None,
        (Some(Given::HandedOn), Some((number, _))) => {
            Some(format!("{FILE}: {number} is from {path}, which hands on the number of another"))
        }
        (Some(Given::Number(given)), None) => {
            Some(format!("{path} gives {given}, and {FILE} does not have it: add 'from {path}' to {given}"))
        }
        (Some(Given::Number(given)), Some((number, _))) if *given != number => {
            Some(format!("{path} gives {given}, and {FILE} has it at {number}"))
        }
        (Some(Given::Number(_)), Some((number, values))) if values != variant.values => {
            Some(format!("{FILE}: {number} is from {path} with {values} values, and it carries {}", variant.values))
        }
        (Some(Given::Number(_)), Some(_)) => None,
    }
}

/// What is wrong with a line of code that has a number: it is not there, or has another.
fn without_line(number: u32, also: &Also, sources: &[Source]) -> Option<String> {
    let mut of_crate = sources.iter().filter(|source| source.of == also.of);
    if answers::given(&also.line) != Some(number) {
        return Some(format!("{FILE}: '{}' stands at {number} and does not end in it", also.line));
    }
    let is_there = of_crate.any(|source| source::uncommented(&source.text).lines().any(|line| source::bare(line) == also.line));
    (!is_there).then(|| format!("{FILE}: {number} has the line '{}', which is not in {}", also.line, also.of))
}

fn misplaced(source: &Source) -> Vec<String> {
    let words = "has a 'number', and is no enum of this file that is called ..Refusal";
    source::misplaced(&source.text).into_iter().map(|name| format!("{}::{name} {words}", source.module)).collect()
}

/// Lines of a crate that give a number and that the list does not have.
fn unlisted(all: &[Refusal], source: &Source) -> Vec<String> {
    let of_crate = all.iter().flat_map(|refusal| &refusal.also).filter(|also| also.of == source.of);
    let listed: Vec<&str> = of_crate.map(|also| also.line.as_str()).collect();
    let lines = answers::unlisted(&source.of, &source.text, &listed).into_iter();
    lines.map(|line| format!("{} has '{line}', and {FILE} does not have it: add it as 'also'", source.module)).collect()
}

#[cfg(test)]
mod tests {
    use super::*;
    use crate::list;

    const LIST: &str =
        "13 Unfit\n  words unfit\n  when unfit\n  from bus::BusRefusal::Unfit\n  also player: NO => REFUSED + 13\n\
                        22 Mark\n  words mark\n  when mark\n  from bus::BusRefusal::Mark(place)\n";
    const BUS: &str = "pub enum BusRefusal {\n    Unfit,\n    Mark(usize),\n    Inner(ClockRefusal),\n}\nimpl BusRefusal {\n    fn number(self) -> u8 {\n\
                       match self {\n    BusRefusal::Unfit => 13,\n    BusRefusal::Mark(_) => 22,\n    BusRefusal::Inner(why) => why.number(),\n}}}\n";
    const PLAYER: &str = "    NO => REFUSED + 13,\n";

    fn source(of: &str, text: &str) -> Source {
        Source { of: of.to_string(), module: of.to_string(), text: text.to_string() }
    }

    fn found(list: &str, bus: &str, player: &str) -> Found {
        checked(&list::read(list).unwrap(), &[source("bus", bus), source("player", player)])
    }

    fn wrong_bus(from: &str, to: &str) -> Vec<String> {
        assert!(BUS.contains(from));
        found(LIST, &BUS.replace(from, to), PLAYER).wrong
    }

    fn wrong_list(from: &str, to: &str) -> Vec<String> {
        assert!(LIST.contains(from));
        found(&LIST.replace(from, to), BUS, PLAYER).wrong
    }

    #[test]
    fn what_is_listed_and_given_alike_is_good() {
        assert_eq!(found(LIST, BUS, PLAYER), Found { good: 4, wrong: Vec::new() });
    }

    #[test]
    fn an_arm_gives_the_listed_number() {
        assert_eq!(wrong_bus("Unfit => 13", "Unfit => 14"), ["bus::BusRefusal::Unfit gives 14, and refusals.txt has it at 13"]);
        let unlisted =
            "bus::BusRefusal::Mark gives 22, and refusals.txt does not have it: add 'from bus::BusRefusal::Mark' to 22";
        let gone = "refusals.txt: 22 is from bus::BusRefusal::Gone, and no enum of refusals in the crates has that";
        assert_eq!(wrong_list("Mark(place)", "Gone(place)"), [unlisted, gone]);
    }

    #[test]
    fn every_variant_has_an_arm() {
        let wrong = ["bus::BusRefusal::Mark has no number: give its enum's 'number' an arm for it"];
        assert_eq!(wrong_bus("    BusRefusal::Mark(_) => 22,\n", ""), wrong);
    }

    #[test]
    fn values_are_as_many_as_listed() {
        let wrong = ["refusals.txt: 22 is from bus::BusRefusal::Mark with 0 values, and it carries 1"];
        assert_eq!(wrong_list("Mark(place)", "Mark"), wrong);
    }

    #[test]
    fn what_hands_on_a_number_is_not_listed() {
        let list = LIST.to_string() + "  from bus::BusRefusal::Inner(why)\n";
        let wrong = ["refusals.txt: 22 is from bus::BusRefusal::Inner, which hands on the number of another"];
        assert_eq!(found(&list, BUS, PLAYER).wrong, wrong);
    }

    #[test]
    fn lines_of_code_have_the_listed_number() {
        let missing = "refusals.txt: 13 has the line 'NO => REFUSED + 13', which is not in player";
        let unlisted = "player has 'NO => REFUSED + 14', and refusals.txt does not have it: add it as 'also'";
        assert_eq!(found(LIST, BUS, "NO => REFUSED + 14,\n").wrong, [missing, unlisted]);
        assert_eq!(
            wrong_list("REFUSED + 13", "REFUSED + 14")[0],
            "refusals.txt: 'NO => REFUSED + 14' stands at 13 and does not end in it"
        );
    }

    #[test]
    fn an_enum_of_refusals_is_called_so() {
        let wrong = found(&LIST.replace("BusRefusal", "BusNo"), &BUS.replace("BusRefusal", "BusNo"), PLAYER).wrong;
        assert_eq!(wrong, ["bus::BusNo has a 'number', and is no enum of this file that is called ..Refusal"]);
        let more = BUS.to_string() + "pub(crate) enum BusNo {\n    Bad,\n}\nimpl BusNo {\n    fn number(self) -> u8 {\nmatch self {\n    BusNo::Bad => 77,\n}}}\n";
        let unlisted = "bus::BusNo::Bad gives 77, and refusals.txt does not have it: add 'from bus::BusNo::Bad' to 77";
        assert_eq!(found(LIST, &more, PLAYER).wrong, [unlisted, wrong[0].as_str()]);
    }

    #[test]
    fn numbers_of_player_are_listed() {
        let unlisted = |line: &str| format!("player has '{line}', and refusals.txt does not have it: add it as 'also'");
        let more = "    const NO_RAM: u32 = 77;\n    A => REFUSED + NO_RAM,\n    B => (REFUSED + 79),\n    Put::Bad => 78,\n";
        let lines = ["const NO_RAM: u32 = 77", "A => REFUSED + NO_RAM", "B => (REFUSED + 79)", "Put::Bad => 78"];
        assert_eq!(found(LIST, BUS, &(PLAYER.to_string() + more)).wrong, lines.map(unlisted));
    }
}
