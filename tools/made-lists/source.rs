//! The refusals of a source in Rattle, by the layout that `rt fmt` gives it: each enum `..Refusal` and each with a `number`, and the arms of that.

/// The end of the name of each enum of refusals.
const REFUSAL: &str = "Refusal";

const NUMBER: &str = "fn number(";

#[derive(Debug, PartialEq)]
pub struct Variant {
    /// `Enum::Variant`.
    pub path: String,
    /// How many values it carries.
    pub values: usize,
    /// `None` where `number` has no arm for it.
    pub given: Option<Given>,
}

#[derive(Clone, Debug, PartialEq)]
pub enum Given {
    Number(u32),
    /// The number of a refusal inside it.
    HandedOn,
    Other(String),
}

/// The variants of all enums of refusals in a text: of those with a `number`, and of those that are called as such.
pub fn variants(text: &str) -> Vec<Variant> {
    let text = uncommented(text);
    let numbers = numbers(&text);
    let arms: Vec<(String, Given)> = numbers.iter().flat_map(|(_, behind)| arms(behind)).collect();
    let given = |path: &str| arms.iter().find(|(of, _)| of == path).map(|(_, given)| given.clone());
    let is_refusal = |name: &String| name.ends_with(REFUSAL) || numbers.iter().any(|(of, _)| of == name);
    let mut found = Vec::new();
    for (name, inside) in blocks(&text, "enum").into_iter().filter(|(name, _)| is_refusal(name)) {
        for piece in pieces(inside) {
            let path = format!("{name}::{}", word(piece));
            found.push(Variant { values: values(piece), given: given(&path), path });
        }
    }
    found
}

/// What has a `number` and is no enum of this text that is called `..Refusal`.
pub fn misplaced(text: &str) -> Vec<String> {
    let text = uncommented(text);
    let enums = blocks(&text, "enum");
    let is_good = |name: &String| name.ends_with(REFUSAL) && enums.iter().any(|(of, _)| of == name);
    numbers(&text).into_iter().map(|(name, _)| name).filter(|name| !is_good(name)).collect()
}

/// A text without its comments, line for line.
pub fn uncommented(text: &str) -> String {
    text.lines().map(|line| line.split("//").next().unwrap_or("").to_string() + "\n").collect()
}

/// A line without what parts it from the next.
pub fn bare(line: &str) -> &str {
    line.trim().trim_end_matches(|c| c == ',' || c == ';')
}

pub fn is_letter(c: char) -> bool {
    c.is_alphanumeric() || c == '_'
}

/// Each `fn number(self)`: whose it is, and what stands behind it.
fn numbers(text: &str) -> Vec<(String, &str)> {
    let number = |inside: &'_ str| -> Option<usize> {
        let begin = inside.find(NUMBER)? + NUMBER.len();
        let end = begin + inside[begin..].find(')')?;
        inside[begin..end].split(|c| !is_letter(c)).any(|word| word == "self").then(|| end)
    };
    blocks(text, "impl").into_iter().filter_map(|(name, inside)| number(inside).map(|at| (name, &inside[at..]))).collect()
}

/// What a `number` says of each variant.
fn arms(behind: &str) -> Vec<(String, Given)> {
    let inside = behind.split_once("match self ").map_or("", |(_, behind)| braced(behind));
    pieces(inside).into_iter().flat_map(arm).collect()
}

/// `A::B(_) => 13`, or several variants with `|` between them.
fn arm(piece: &str) -> Vec<(String, Given)> {
    let (patterns, answer) = piece.split_once("=>").unwrap_or((piece, ""));
    let given = match answer.trim() {
        answer if answer.ends_with(".number()") => Given::HandedOn,
        answer => answer.parse().map_or_else(|_| Given::Other(answer.to_string()), Given::Number),
    };
    patterns.split('|').map(|pattern| (path(pattern.trim()), given.clone())).collect()
}

/// The items that a word begins, whatever stands before it: each one's name, and what stands in its braces.
fn blocks<'a>(text: &'a str, begin: &str) -> Vec<(String, &'a str)> {
    let around = |at: usize| (text[..at].chars().next_back(), text[at + begin.len()..].chars().next());
    let is_whole = |at: usize| !matches!(around(at), (Some(c), _) | (_, Some(c)) if is_letter(c));
    let places = text.match_indices(begin).map(|(at, _)| at).filter(|at| is_whole(*at));
    places.map(|at| &text[at + begin.len()..]).map(|behind| (named(behind), braced(behind))).collect()
}

/// The name that stands before the first brace: of `<'a> Trait for Name<'a> {`, `Name`.
fn named(behind: &str) -> String {
    let head = behind.split('{').next().unwrap_or("").trim();
    let head = if head.starts_with('<') { head.split_once('>').map_or("", |(_, rest)| rest) } else { head };
    word(head.rsplit(" for ").next().unwrap_or("").trim())
}

/// What stands between the first brace and the one that closes it.
fn braced(text: &str) -> &str {
    let (mut depth, mut start) = (0, 0);
    for (at, c) in text.char_indices() {
        match c {
            '{' if depth == 0 => (depth, start) = (1, at + 1),
            '{' => depth += 1,
            '}' if depth == 1 => return &text[start..at],
            '}' => depth -= 1,
            _ => (),
        }
    }
    ""
}

/// The parts between commas that stand in no bracket.
fn pieces(text: &str) -> Vec<&str> {
    let (mut found, mut depth, mut start) = (Vec::new(), 0, 0);
    for (at, c) in text.char_indices() {
        match c {
            '(' | '{' | '[' => depth += 1,
            ')' | '}' | ']' => depth -= 1,
            ',' if depth == 0 => {
                found.push(&text[start..at]);
                start = at + 1;
            }
            _ => (),
        }
    }
    found.push(&text[start..]);
    found.into_iter().map(str::trim).filter(|piece| !piece.is_empty()).collect()
}

/// How many values stand behind a variant's name.
fn values(piece: &str) -> usize {
    let inside = piece[word(piece).len()..].trim();
    inside.get(1..inside.len().saturating_sub(1)).map_or(0, |inside| pieces(inside).len())
}

fn word(text: &str) -> String {
    text.chars().take_while(|c| is_letter(*c)).collect()
}

fn path(text: &str) -> String {
    text.chars().take_while(|c| c.is_alphanumeric() || "_:".contains(*c)).collect()
}

#[cfg(test)]
mod tests {
    use super::*;

    const TEXT: &str = "pub enum Record {\n    Read,\n}\n\n// Why.\npub enum BusRefusal {\n    // Not fit.\n    Unfit,\n    Inner(ClockRefusal),\n    \
                        At { place: usize, byte: u8 },\n    Short,\n    Long([u8; 2], u8),\n}\n\nimpl BusRefusal {\n    pub fn number(self) -> u8\n        \
                        ensures { λ r. ⌜ r ≡ numberOf self ⌝ }\n    {\n        match self {\n            BusRefusal::Unfit => 13,\n            \
                        BusRefusal::Inner(why) => why.number(),\n            BusRefusal::At { place: _, byte: _ } => 15, // 99\n            \
                        BusRefusal::Long(_, _) => LONG,\n        }\n    }\n\n    pub fn place(self) -> u8 {\n        match self {\n            \
                        BusRefusal::Short => 7,\n        }\n    }\n}\n";

    fn variant(name: &str, values: usize, given: Option<Given>) -> Variant {
        Variant { path: format!("BusRefusal::{name}"), values, given }
    }

    #[test]
    fn each_variant_has_what_its_arm_gives() {
        let expected = [
            variant("Unfit", 0, Some(Given::Number(13))),
            variant("Inner", 1, Some(Given::HandedOn)),
            variant("At", 2, Some(Given::Number(15))),
            variant("Short", 0, None),
            variant("Long", 2, Some(Given::Other("LONG".to_string()))),
        ];
        assert_eq!(variants(TEXT), expected);
    }

    #[test]
    fn arms_may_be_joined() {
        assert_eq!(arm("A::B | A::C(_) => 4"), [("A::B".to_string(), Given::Number(4)), ("A::C".to_string(), Given::Number(4))]);
    }

    #[test]
    fn what_has_a_number_is_an_enum_of_refusals() {
        let other = TEXT.replace("BusRefusal", "BusNo");
        assert_eq!(variants(&other).len(), 5);
        assert_eq!((variants(&other)[0].path.as_str(), &variants(&other)[0].given), ("BusNo::Unfit", &Some(Given::Number(13))));
        assert_eq!((misplaced(&other), misplaced(TEXT)), (vec!["BusNo".to_string()], Vec::new()));
        let apart = "impl<'a> Some for BusRefusal {\n    fn number(mut self) -> u8 {\n        match self {}\n    }\n}\n";
        assert_eq!(misplaced(apart), ["BusRefusal"]);
        assert_eq!(misplaced("impl Bus {\n    fn number(n: u8) -> u8 {\n        n\n    }\n}\n"), [""; 0]);
    }

    #[test]
    fn an_enum_is_found_however_visible() {
        for visible in ["", "pub(crate) ", "pub(in crate::more) ", "    pub ", "#[repr(u8)] pub "] {
            assert_eq!(variants(&TEXT.replace("pub enum Bus", &format!("{visible}enum Bus"))), variants(TEXT), "{visible}");
        }
        assert_eq!(variants("pub(crate) enum XRefusal {\n    Bad,\n}\n")[0].path, "XRefusal::Bad");
    }
}
