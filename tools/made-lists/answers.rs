//! The numbers in code that answers calls: each `REFUSED + X` of the crates, and in `player` each const of the answers' type and each answer that is
//! written as a number.

use crate::source::{bare, is_letter, uncommented};

/// The crate whose functions are the calls, and the type of what they answer.
const PLAYER: &str = "player";
const ANSWER: &str = "u32";

/// What is added to a number where the answer is otherwise a byte.
const REFUSED: &str = "REFUSED";

/// A name, a number or a sign, and the line that it stands in.
struct Token<'a> {
    text: &'a str,
    line: &'a str,
    /// Whether it stands in `[ ]`.
    is_indexed: bool,
}

/// Lines of a crate's source that give a number, by the lines that the list has of this crate.
pub fn unlisted(of: &str, text: &str, listed: &[&str]) -> Vec<String> {
    let text = uncommented(text);
    let tokens = tokens(&text);
    let mut found: Vec<&str> = Vec::new();
    for (at, token) in tokens.iter().enumerate() {
        let is_good = match token.text {
            REFUSED => is_good_sum(of, &tokens, at, listed),
            "const" if of == PLAYER => is_good_const(&tokens[at..], listed),
            _ if of == PLAYER && is_answer(&tokens, at) => listed.contains(&token.line),
            _ => true,
        };
        if !is_good && found.last() != Some(&token.line) {
            found.push(token.line);
        }
    }
    found.into_iter().map(str::to_string).collect()
}

/// The number that such a line gives: `A => 15`, `A => REFUSED + 15`, `const A: u32 = 15`, `return 15` or `15` alone.
pub fn given(line: &str) -> Option<u32> {
    let signs = ["=> ", " = ", "return "];
    let answer = signs.iter().find_map(|sign| line.split_once(sign)).map_or(line, |(_, answer)| answer);
    answer.strip_prefix("REFUSED + ").unwrap_or(answer).parse().ok()
}

/// Whether what stands behind `REFUSED +` is a number that is listed by its line, a const that is, or the number of a refusal. In `player` nothing
/// but a sum is made of `REFUSED`.
fn is_good_sum(of: &str, tokens: &[Token], at: usize, listed: &[&str]) -> bool {
    let behind: Vec<&str> = tokens[at + 1..].iter().take(11).map(|token| token.text).collect();
    let is_end = |token: Option<&&str>| token.map_or(true, |token| [",", ";", "}", ")"].contains(token));
    let is_const = |name: &str| listed.iter().any(|line| line.trim_start_matches("pub ").starts_with(&format!("const {name}: ")));
    match behind.as_slice() {
        ["+", "(", _, ".", "number", "(", ")", "as", ANSWER, ")", rest @ ..] => is_end(rest.first()),
        ["+", other, rest @ ..] => listed.contains(&tokens[at].line) || (is_const(other) && is_end(rest.first())),
        [":", ..] => at > 0 && tokens[at - 1].text == "const",
        _ => of != PLAYER,
    }
}

/// Whether a const of the answers' type is a plain number that no refusal can have, or is listed.
fn is_good_const(tokens: &[Token], listed: &[&str]) -> bool {
    let texts: Vec<&str> = tokens.iter().take(7).map(|token| token.text).collect();
    match texts.as_slice() {
        [_, _, ":", ANSWER, "=", number, ";"] if value(number).map_or(false, |n| !(1..=254).contains(&(n % 0x100))) => true,
        [_, _, ":", ANSWER, ..] => listed.contains(&tokens[0].line),
        _ => true,
    }
}

/// Whether this is a number other than 0 that an arm or a block answers.
fn is_answer(tokens: &[Token], at: usize) -> bool {
    let is_number = tokens[at].text.starts_with(|c: char| c.is_ascii_digit()) && value(tokens[at].text) != Some(0);
    let is_begun = at > 0 && ["=>", "return", "{", "}", ";"].contains(&tokens[at - 1].text);
    let is_pattern = tokens.get(at + 1).map_or(false, |next| ["=>", "|", "."].contains(&next.text));
    is_number && is_begun && !is_pattern && !tokens[at].is_indexed
}

fn value(text: &str) -> Option<u64> {
    let plain = text.replace('_', "");
    let plain = ["u8", "u16", "u32", "u64", "usize"].iter().find_map(|end| plain.strip_suffix(end)).unwrap_or(&plain);
    plain.strip_prefix("0x").map_or_else(|| plain.parse(), |digits| u64::from_str_radix(digits, 16)).ok()
}

fn tokens(text: &str) -> Vec<Token<'_>> {
    let (mut found, mut depth) = (Vec::new(), 0);
    for line in text.lines() {
        let mut rest = line.trim_start();
        while let Some(first) = rest.chars().next() {
            let length = match rest.find(|c| !is_letter(c)) {
                _ if rest.starts_with("=>") => 2,
                Some(0) => first.len_utf8(),
                Some(length) => length,
                None => rest.len(),
            };
            let (text, behind) = rest.split_at(length);
            depth += i32::from(text == "[") - i32::from(text == "]");
            found.push(Token { text, line: bare(line), is_indexed: depth > 0 });
            rest = behind.trim_start();
        }
    }
    found
}

#[cfg(test)]
mod tests {
    use super::*;

    const TEXT: &str = "const REFUSED: u32 = 0x100;\nconst ASK: u32 = 0x200;\nconst NO_STATE: u32 = 13;\n\
                        pub extern \"C\" fn read(windows: &[u32; 6], n: u8) -> u32\n    ensures { λ r. ⌜ r ≡ numberOf 3 ⌝ }\n{\n    \
                        let all = [0; 64];\n    *clock = 1;\n    match n {\n        7 | 8 => 0, // => 79\n        9 => REFUSED + 15,\n        \
                        10 => REFUSED + NO_STATE,\n        11 => NO_STATE,\n        12 => {\n            done();\n            0\n        }\n        \
                        13 => REFUSED + (why.number() as u32),\n        14 => 15,\n        _ => ASK,\n    }\n}\n";
    const LISTED: [&str; 3] = ["const NO_STATE: u32 = 13", "9 => REFUSED + 15", "14 => 15"];

    fn changed(from: &str, to: &str) -> Vec<String> {
        assert!(TEXT.contains(from));
        unlisted("player", &TEXT.replacen(from, to, 1), &LISTED)
    }

    #[test]
    fn what_is_listed_is_good() {
        assert_eq!(unlisted("player", TEXT, &LISTED), [""; 0]);
        assert_eq!(unlisted("player", TEXT, &LISTED[..2]), ["14 => 15"]);
        let without_const = ["const NO_STATE: u32 = 13", "10 => REFUSED + NO_STATE"];
        assert_eq!(unlisted("player", TEXT, &LISTED[1..]), without_const);
    }

    #[test]
    fn a_sum_is_listed_whatever_it_adds() {
        assert_eq!(changed("REFUSED + 15", "(REFUSED + 79)"), ["9 => (REFUSED + 79)"]);
        assert_eq!(changed("REFUSED + 15", "REFUSED + 79"), ["9 => REFUSED + 79"]);
        assert_eq!(changed("REFUSED + 15", "79 + REFUSED"), ["9 => 79 + REFUSED"]);
        assert_eq!(changed("+ NO_STATE", "+ NO_RAM"), ["10 => REFUSED + NO_RAM"]);
        assert_eq!(changed("+ NO_STATE", "+ NO_STATE + 1"), ["10 => REFUSED + NO_STATE + 1"]);
        assert_eq!(changed("as u32)", "as u32) + 1"), ["13 => REFUSED + (why.number() as u32) + 1"]);
        assert_eq!(changed("why.number()", "more(why)"), ["13 => REFUSED + (more(why) as u32)"]);
        assert_eq!(changed("REFUSED + 15,", "REFUSED\n            + 79,"), ["9 => REFUSED"]);
        assert_eq!(unlisted("bus", "A => REFUSED + 79, // 15\n", &[]), ["A => REFUSED + 79"]);
        assert_eq!(unlisted("bus", "pub const REFUSED: [u32; 2] = [1, 2];\nall(&more::REFUSED);\nA => 79,\n", &[]), [""; 0]);
    }

    #[test]
    fn a_const_of_player_is_listed() {
        assert_eq!(changed("const ASK", "const NO_RAM: u32 = 77;\nconst ASK"), ["const NO_RAM: u32 = 77"]);
        assert_eq!(changed("const ASK", "pub const NO_RAM: u32 = 0x14D;\nconst ASK"), ["pub const NO_RAM: u32 = 0x14D"]);
        assert_eq!(changed("const ASK", "const NO_RAM: u32 = 70 + 7;\nconst ASK"), ["const NO_RAM: u32 = 70 + 7"]);
        assert_eq!(changed("const ASK", "const LENGTH: usize = 64;\nconst ASK"), [""; 0]);
    }

    #[test]
    fn an_answer_of_player_is_listed() {
        assert_eq!(changed("14 => 15", "14 => 78"), ["14 => 78"]);
        assert_eq!(changed("14 => 15", "14 => 0x4E"), ["14 => 0x4E"]);
        assert_eq!(changed("            0\n", "            78\n"), ["78"]);
        assert_eq!(changed("14 => 15", "14 => if a { 78 } else { 0 }"), ["14 => if a { 78 } else { 0 }"]);
        assert_eq!(changed("*clock = 1", "return 78"), ["return 78"]);
    }

    #[test]
    fn a_line_gives_one_number() {
        for line in ["A => 15", "A => REFUSED + 15", "const A: u32 = 15", "return REFUSED + 15", "15"] {
            assert_eq!(given(line), Some(15), "{line}");
        }
        for line in ["A => 7 + 15", "const A: u32 = 7 + 15", "A => 14, B => 15", "A => B"] {
            assert_eq!(given(line), None, "{line}");
        }
    }
}
