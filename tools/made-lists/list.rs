//! refusals.txt: a block for each number. Its own head says what stands in a block.

use std::collections::BTreeSet;

pub const FILE: &str = "refusals.txt";

/// The words stand in one line of code.
const LONGEST_WORDS: usize = 80;

#[derive(Debug, Default, PartialEq)]
pub struct Refusal {
    pub number: u32,
    pub name: String,
    pub words: String,
    pub when: String,
    pub note: String,
    pub from: Vec<Variant>,
    pub also: Vec<Also>,
}

/// A variant in Rattle, `crate::Enum::Variant`, with a name for each value that it carries.
#[derive(Debug, PartialEq)]
pub struct Variant {
    pub text: String,
}

/// A line of a crate's code that has the number.
#[derive(Debug, PartialEq)]
pub struct Also {
    pub of: String,
    pub line: String,
}

impl Variant {
    pub fn path(&self) -> &str {
        self.text.split(|c| c == '(' || c == '{').next().unwrap_or("").trim()
    }

    pub fn values(&self) -> usize {
        let inside = self.text[self.path().len()..].trim().trim_matches(|c| "(){}".contains(c));
        inside.split(',').filter(|name| !name.trim().is_empty()).count()
    }
}

impl Refusal {
    /// As the rules' sentence has it: when, and behind that the note.
    pub fn given(&self) -> String {
        if self.note.is_empty() {
            self.when.clone()
        } else {
            format!("{} ({})", self.when, self.note)
        }
    }

    /// `TooLong` is `IMF_TOO_LONG`.
    pub fn c_name(&self) -> String {
        let spread =
            self.name.chars().map(|c| if c.is_ascii_uppercase() { format!("_{c}") } else { c.to_ascii_uppercase().to_string() });
        format!("IMF{}", spread.collect::<String>())
    }

    fn take(&mut self, field: &str) -> Result<(), String> {
        let (key, value) = field.split_once(' ').ok_or_else(|| format!("'{field}' has nothing behind it"))?;
        let value = value.trim();
        if let Some(bad) = value.chars().find(|c| !c.is_ascii() || "|*\\\"".contains(*c)) {
            return Err(format!("'{bad}' cannot stand in all that is made from this"));
        }
        let once = match key {
            "words" if value.len() > LONGEST_WORDS => return Err(format!("these words have more than {LONGEST_WORDS} letters")),
            "words" => &mut self.words,
            "when" => &mut self.when,
            "note" => &mut self.note,
            "from" => return Ok(self.from.push(Variant { text: value.to_string() })),
            "also" => return Ok(self.also.push(also(value)?)),
            _ => return Err(format!("'{key}' is none of words, when, note, from and also")),
        };
        if !once.is_empty() {
            return Err(format!("'{key}' stands twice in this block"));
        }
        *once = value.trim_end_matches('.').to_string();
        Ok(())
    }
}

fn also(value: &str) -> Result<Also, String> {
    let (of, line) = value.split_once(": ").ok_or("'also' wants a crate, ': ' and a line of its code")?;
    Ok(Also { of: of.to_string(), line: line.trim().to_string() })
}

/// The blocks, or the first thing that is wrong with them.
pub fn read(text: &str) -> Result<Vec<Refusal>, String> {
    let mut found: Vec<Refusal> = Vec::new();
    for (line, text) in joined(text) {
        let wrong = |why: String| format!("{FILE}:{line}: {why}");
        match text.strip_prefix("  ") {
            None => found.push(begun(&text).map_err(wrong)?),
            Some(field) => match found.last_mut() {
                Some(refusal) => refusal.take(field).map_err(wrong)?,
                None => return Err(wrong("this stands before the first number".to_string())),
            },
        }
    }
    held(&found).map_err(|why| format!("{FILE}: {why}"))?;
    Ok(found)
}

/// The lines that say something, with their places; one that is indented further goes with the one before.
fn joined(text: &str) -> Vec<(usize, String)> {
    let mut found: Vec<(usize, String)> = Vec::new();
    for (at, line) in text.lines().enumerate().filter(|(_, line)| !line.trim().is_empty() && !line.starts_with('#')) {
        match found.last_mut() {
            Some((_, before)) if line.starts_with("   ") => *before = format!("{before} {}", line.trim()),
            _ => found.push((at + 1, line.trim_end().to_string())),
        }
    }
    found
}

fn begun(line: &str) -> Result<Refusal, String> {
    let wanted = || format!("'{line}' is no number from 1 to 254 and a name like TooLong");
    let (number, name) = line.split_once(' ').ok_or_else(wanted)?;
    let number = number.parse().ok().filter(|number| (1..=254).contains(number)).ok_or_else(wanted)?;
    let is_name = name.starts_with(|c: char| c.is_ascii_uppercase()) && name.chars().all(|c| c.is_ascii_alphanumeric());
    if !is_name {
        return Err(wanted());
    }
    Ok(Refusal { number, name: name.to_string(), ..Refusal::default() })
}

/// What one block alone cannot tell.
fn held(all: &[Refusal]) -> Result<(), String> {
    if all.is_empty() {
        return Err("there is no number".to_string());
    }
    if let Some(pair) = all.windows(2).find(|pair| pair[0].number >= pair[1].number) {
        return Err(format!("{} stands behind {}", pair[1].number, pair[0].number));
    }
    let mut seen = BTreeSet::new();
    for refusal in all {
        let number = refusal.number;
        let missing = [("words", refusal.words.is_empty()), ("when", refusal.when.is_empty()), ("from", refusal.from.is_empty())];
        if let Some((key, _)) = missing.iter().find(|(_, is_missing)| *is_missing) {
            return Err(format!("{number} has no '{key}'"));
        }
        let own = [&refusal.name, &refusal.words].into_iter().map(String::as_str);
        if let Some(twice) = own.chain(refusal.from.iter().map(Variant::path)).find(|text| !seen.insert(text.to_string())) {
            return Err(format!("'{twice}' of {number} stands at another number too"));
        }
    }
    Ok(())
}

#[cfg(test)]
mod tests {
    use super::*;

    const TEXT: &str =
        "# Words.\n\n1 TooLong\n  words it is long\n  when it is longer\n    than that.\n  from header::HeaderRefusal::TooLong\n\n\
                        7 Mbc7Busy\n  words it is busy\n  when it is busy\n  note a note\n  from eeprom::Refusal::Busy(place, bits)\n\
                        \x20 from eeprom::Other::Busy { place }\n  also player: BUSY => 7\n";

    fn wrong(from: &str, to: &str) -> String {
        assert!(TEXT.contains(from));
        read(&TEXT.replacen(from, to, 1)).unwrap_err()
    }

    #[test]
    fn a_block_is_a_number_a_name_and_fields() {
        let all = read(TEXT).unwrap();
        assert_eq!((all[0].number, all[0].name.as_str(), all[0].given().as_str()), (1, "TooLong", "it is longer than that"));
        assert_eq!((all[1].number, all[1].words.as_str(), all[1].given().as_str()), (7, "it is busy", "it is busy (a note)"));
        assert_eq!(all[1].also, [Also { of: "player".to_string(), line: "BUSY => 7".to_string() }]);
    }

    #[test]
    fn a_name_has_its_form_in_c() {
        let all = read(TEXT).unwrap();
        assert_eq!((all[0].c_name(), all[1].c_name()), ("IMF_TOO_LONG".to_string(), "IMF_MBC7_BUSY".to_string()));
    }

    #[test]
    fn a_variant_has_a_path_and_values() {
        let all = read(TEXT).unwrap();
        let found: Vec<(&str, usize)> = all[1].from.iter().map(|variant| (variant.path(), variant.values())).collect();
        assert_eq!(found, [("eeprom::Refusal::Busy", 2), ("eeprom::Other::Busy", 1)]);
        assert_eq!(all[0].from[0].values(), 0);
    }

    #[test]
    fn numbers_go_up() {
        assert_eq!(wrong("7 Mbc7Busy", "1 Mbc7Busy"), "refusals.txt: 1 stands behind 1");
        assert!(wrong("7 Mbc7Busy", "255 Mbc7Busy").starts_with("refusals.txt:9: '255 Mbc7Busy' is no number from 1 to 254"));
    }

    #[test]
    fn nothing_is_missing_and_nothing_stands_twice() {
        assert_eq!(wrong("  words it is long\n", ""), "refusals.txt: 1 has no 'words'");
        assert_eq!(wrong("  from header::HeaderRefusal::TooLong\n", ""), "refusals.txt: 1 has no 'from'");
        assert_eq!(wrong("words it is long", "words it is busy"), "refusals.txt: 'it is busy' of 7 stands at another number too");
        assert_eq!(wrong("note a note", "when a note"), "refusals.txt:12: 'when' stands twice in this block");
        assert_eq!(wrong("note", "notes"), "refusals.txt:12: 'notes' is none of words, when, note, from and also");
        assert_eq!(wrong("it is long\n", "a | b\n"), "refusals.txt:4: '|' cannot stand in all that is made from this");
    }
}
