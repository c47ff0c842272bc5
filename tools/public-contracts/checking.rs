//! What is missing: statements, reasons, and the written module where it is not what the sources give.

use crate::exceptions::Exception;
use crate::repository::Public;
use crate::statements::Stated;
use std::collections::{BTreeMap, BTreeSet};

/// Names of clauses, each with what it stands for.
pub type Words = BTreeSet<(String, String)>;

/// How many are stated, how many functions are excepted, and what is wrong.
#[derive(Debug, Default, PartialEq)]
pub struct Found {
    pub stated: usize,
    pub excepted: usize,
    pub wrong: Vec<String>,
}

/// Holds each answer and each lent parameter of these functions to the statements and the exceptions. A function that has neither can only be
/// excepted.
pub fn checked(publics: &[Public], stated: &BTreeSet<Stated>, exceptions: &[Exception]) -> Found {
    let mut found = Found::default();
    let mut excepted: BTreeMap<&str, &Exception> = BTreeMap::new();
    for exception in exceptions {
        if exception.reason.is_empty() {
            found.wrong.push(format!("no reason is given for the exception of {}", exception.function));
        }
        if excepted.insert(&exception.function, exception).is_some() {
            found.wrong.push(format!("{} is excepted twice", exception.function));
        }
    }
    for public in publics {
        let (said, unsaid): (Vec<Stated>, Vec<Stated>) = public.asked().into_iter().partition(|asked| stated.contains(asked));
        found.stated += said.len();
        if excepted.remove(public.name().as_str()).is_none() {
            if said.is_empty() && unsaid.is_empty() {
                found.wrong.push(format!("{} has no answer and is lent nothing, so that nothing is stated of it", public.name()));
            }
            found.wrong.extend(unsaid.iter().map(|(_, what)| format!("no statement for {}: {}", public.name(), public.name_of(*what))));
        } else if !said.is_empty() && unsaid.is_empty() {
            found.wrong.push(format!("{} is excepted, and all of it is stated", public.name()));
        } else {
            found.excepted += 1;
        }
    }
    found.wrong.extend(excepted.keys().map(|name| format!("{name} is excepted, and is no public function")));
    found
}

/// Whether a function of a static library says what the one of its name says that it stands for, among those of the crates below: the same contract, word
/// for word, in words that it brings in from the same places.
pub fn exported(export: &Public, below: &[Public], words: &Words, words_of: impl Fn(&str) -> Words) -> Result<(), String> {
    let named = |public: &&Public| public.function.path == export.function.path;
    let own = below.iter().find(named).ok_or_else(|| format!("{} is exported, and no crate below has a function of its name", export.name()))?;
    if own.function.contract != export.function.contract {
        return Err(format!("the contract of {} is not that of {}", export.name(), own.name()));
    }
    match words.difference(&words_of(&own.of)).next() {
        Some((name, whole)) => Err(format!("{} brings in {name} as {whole}, and {} does not", export.of, own.of)),
        None => Ok(()),
    }
}

/// Where two texts part, as the number of a line.
pub fn first_other_line(one: &str, other: &str) -> Option<usize> {
    let count = one.split('\n').zip(other.split('\n')).take_while(|(one, other)| one == other).count();
    (one != other).then(|| count + 1)
}

#[cfg(test)]
mod tests {
    use super::*;
    use crate::source;

    fn publics_of(text: &str) -> Vec<Public> {
        source::functions(text).into_iter().map(|function| Public { of: "bus".to_string(), function }).collect()
    }

    fn publics() -> Vec<Public> {
        publics_of("pub fn read(a: u16) -> u8\n{\n}\npub fn write(ram: &mut [u8]) -> u8\n{\n}\n")
    }

    fn stated(count: usize) -> BTreeSet<Stated> {
        publics().iter().flat_map(|public| public.asked()).take(count).collect()
    }

    fn exception(function: &str, reason: &str) -> Exception {
        Exception { function: function.to_string(), reason: reason.to_string() }
    }

    fn wrong(count: usize, exceptions: &[Exception]) -> Vec<String> {
        checked(&publics(), &stated(count), exceptions).wrong
    }

    #[test]
    fn an_answer_and_a_lent_parameter_each_want_a_statement() {
        assert_eq!(checked(&publics(), &stated(3), &[]), Found { stated: 3, ..Found::default() });
        assert_eq!(wrong(2, &[]), ["no statement for bus::write: ram"]);
        assert_eq!(wrong(0, &[]).len(), 3);
    }

    #[test]
    fn an_exception_stands_for_a_function() {
        let found = checked(&publics(), &stated(2), &[exception("bus::write", "why")]);
        assert_eq!(found, Found { stated: 2, excepted: 1, wrong: Vec::new() });
    }

    #[test]
    fn a_function_of_which_nothing_can_be_stated_is_excepted() {
        let publics = publics_of("pub fn run(path: &[u8])\n{\n}\n");
        assert_eq!(checked(&publics, &BTreeSet::new(), &[]).wrong.len(), 1);
        let found = checked(&publics, &BTreeSet::new(), &[exception("bus::run", "why")]);
        assert_eq!(found, Found { stated: 0, excepted: 1, wrong: Vec::new() });
    }

    #[test]
    fn an_exception_is_of_something_and_has_a_reason() {
        assert_eq!(wrong(2, &[exception("bus::write", "")]), ["no reason is given for the exception of bus::write"]);
        assert_eq!(wrong(3, &[exception("bus::gone", "why")]), ["bus::gone is excepted, and is no public function"]);
        assert_eq!(wrong(3, &[exception("bus::write", "why")]), ["bus::write is excepted, and all of it is stated"]);
        assert_eq!(wrong(2, &[exception("bus::write", "a"), exception("bus::write", "b")]), ["bus::write is excepted twice"]);
    }

    #[test]
    fn an_export_says_what_the_function_says_that_it_stands_for() {
        let below = publics_of("pub fn read(a: u16) -> u8\n    ensures { result ≡ read_of a }\n{\n}\n");
        let export = |text: &str| Public { of: "c".to_string(), function: source::functions(text).remove(0) };
        let words = |whole: &str| Words::from([("read_of".to_string(), whole.to_string())]);
        let said = |text: &str, whole: &str| exported(&export(text), &below, &words(whole), |_| words("Bus.read_of"));
        let same = "#[unsafe(no_mangle)]\npub extern \"C\" fn read(a: u16) -> u8\n    ensures { result ≡ read_of a }\n{\n    7\n}\n";
        assert_eq!(said(same, "Bus.read_of"), Ok(()));
        assert_eq!(said(&same.replace("read_of a", "a"), "Bus.read_of"), Err("the contract of c::read is not that of bus::read".to_string()));
        assert_eq!(said(same, "Flat.read_of"), Err("c brings in read_of as Flat.read_of, and bus does not".to_string()));
        assert_eq!(said(&same.replace("fn read", "fn get"), "Bus.read_of"), Err("c::get is exported, and no crate below has a function of its name".to_string()));
    }

    #[test]
    fn texts_part_at_a_line() {
        assert_eq!(first_other_line("a\nb\n", "a\nb\n"), None);
        assert_eq!(first_other_line("a\nb\n", "a\nc\n"), Some(2));
        assert_eq!(first_other_line("a\n", "a\nb\n"), Some(2));
        assert_eq!(first_other_line("a\nb", "a\nb\n"), Some(3));
    }
}
