//! The public functions of a source, by the layout that `rt fmt` gives it.

/// What a contract must determine: the answer, or a parameter that is lent as `&mut`, by its place.
#[derive(Clone, Copy, Debug, PartialEq, Eq, PartialOrd, Ord)]
pub enum What {
    Answer,
    Left(usize),
}

#[derive(Debug, PartialEq)]
pub struct Parameter {
    pub name: String,
    /// As `&mut`.
    pub lent: bool,
}

#[derive(Debug, PartialEq)]
pub struct Function {
    /// Its name, behind that of the type whose method it is.
    pub path: Vec<String>,
    pub parameters: Vec<Parameter>,
    pub answers: bool,
    /// What stands in its `ensures { .. }` and `ensures NAME { .. }`, each on one line.
    pub clauses: Vec<String>,
    /// Its parameters, its answer and all its clauses as they are written, on one line.
    pub contract: String,
}

impl Function {
    /// All that its contract must determine.
    pub fn asked(&self) -> Vec<What> {
        let lent = self.parameters.iter().enumerate().filter(|(_, parameter)| parameter.lent);
        self.answers.then_some(What::Answer).into_iter().chain(lent.map(|(place, _)| What::Left(place))).collect()
    }

    pub fn name_of(&self, what: What) -> &str {
        match what {
            What::Answer => "answer",
            What::Left(place) => &self.parameters[place].name,
        }
    }
}

/// What stands around a function: an `impl` or a trait.
struct Owner {
    name: String,
    /// Its functions are a trait's, so that they are public where the trait is, and do not say so.
    of_trait: bool,
}

/// The public functions of a text, in their order. A trait's are those of each of its `impl`s, by the type, and those whose body stands in the trait.
pub fn functions(text: &str) -> Vec<Function> {
    let text: String = text.lines().map(|line| line.split("//").next().unwrap_or("").to_string() + "\n").collect();
    let (mut found, mut owner, mut at): (Vec<Function>, Option<Owner>, usize) = (Vec::new(), None, 0);
    for line in text.split_inclusive('\n') {
        if let Some(rest) = line.strip_prefix("impl") {
            owner = Some(owner_in(rest));
        } else if let Some(rest) = line.strip_prefix("pub ").unwrap_or(line).strip_prefix("trait ") {
            owner = Some(Owner { name: word(rest), of_trait: true });
        } else if line.starts_with('}') {
            owner = None;
        } else if let Some(name) = begun(line, owner.as_ref().map_or(false, |owner| owner.of_trait)) {
            let path = owner.iter().map(|owner| owner.name.clone()).chain([name]).collect();
            found.extend(function(path, &text[at..]));
        }
        at += line.len();
    }
    found
}

/// The type behind `impl` and, where there are some, its lifetimes. Where it is one of a trait, the type's words and the trait's, as the prover joins
/// them: of `impl Field for u16` it is `U16Field`.
fn owner_in(rest: &str) -> Owner {
    let rest = if rest.starts_with('<') { rest.split_once('>').map_or("", |(_, rest)| rest) } else { rest };
    match rest.trim_end_matches([' ', '{', '\n']).split_once(" for ") {
        Some((implemented, of)) => Owner { name: joined(of) + &joined(implemented), of_trait: true },
        None => Owner { name: word(rest.trim_start()), of_trait: false },
    }
}

fn joined(text: &str) -> String {
    let words = text.split(|c: char| !c.is_alphanumeric()).filter(|word| !word.is_empty());
    words.map(|word| word[..1].to_uppercase() + &word[1..]).collect()
}

/// The name of the public function that begins on a line. Where `all` are public, none says so.
fn begun(line: &str, all: bool) -> Option<String> {
    let line = line.trim_start();
    let (before, rest) = line.strip_prefix("pub ").or(all.then(|| line))?.split_once("fn ")?;
    let is_plain = before.is_empty() || before.ends_with(' ') && !before.contains(|c: char| ":=({;".contains(c));
    is_plain.then(|| word(rest))
}

fn word(text: &str) -> String {
    text.chars().take_while(|c| c.is_alphanumeric() || *c == '_').collect()
}

/// The function that begins a text, if it has a body.
fn function(path: Vec<String>, text: &str) -> Option<Function> {
    let (inside, mut rest) = enclosed(text, '(', ')');
    let begun = rest;
    let parameters: Vec<Parameter> = split(inside).into_iter().map(parameter).collect();
    let answers = rest.split('{').next().map_or(false, |before| before.contains("->"));
    let mut clauses = Vec::new();
    loop {
        let before = rest.split('{').next().unwrap_or("");
        if is_ended(before) {
            return None;
        }
        // The kind of a clause, behind which it may have a name.
        let kind = before.split_whitespace().rev().take(2).find(|word| ["ensures", "requires"].contains(word));
        let (clause, behind) = enclosed(rest, '{', '}');
        match kind {
            Some("ensures") => clauses.push(one_line(clause)),
            Some(_) => (),
            None => {
                let contract = one_line(&format!("({}) {}{before}", split(inside).join(", "), &begun[..begun.len() - rest.len()]));
                return Some(Function { path, parameters, answers, clauses, contract });
            }
        }
        rest = behind;
    }
}

/// Whether a `;` stands in no bracket.
fn is_ended(text: &str) -> bool {
    let mut depth = 0;
    text.chars().any(|c| {
        match c {
            '(' | '[' => depth += 1,
            ')' | ']' => depth -= 1,
            _ => (),
        }
        c == ';' && depth == 0
    })
}

fn one_line(text: &str) -> String {
    text.split_whitespace().collect::<Vec<_>>().join(" ")
}

/// What a text's lines `ghost use PATH.{NAME, ..};` and `ghost use PATH as NAME;` bring in: each name, and the whole of what it stands for.
pub fn ghost_uses(text: &str) -> Vec<(String, String)> {
    let mut found = Vec::new();
    for item in text.split("ghost use ").skip(1).filter_map(|rest| rest.split(';').next()) {
        if let Some((path, names)) = item.split_once(".{") {
            let names = names.trim_end_matches('}').split(',').map(str::trim).filter(|name| !name.is_empty());
            found.extend(names.map(|name| name.split_once(" as ").unwrap_or((name, name))).map(|(name, own)| (own.to_string(), format!("{path}.{name}"))));
        } else if let Some((path, own)) = item.split_once(" as ") {
            found.push((own.to_string(), path.to_string()));
        }
    }
    found
}

/// What stands between the first bracket and the one that closes it, and what stands behind that.
fn enclosed(text: &str, open: char, close: char) -> (&str, &str) {
    let (mut depth, mut start) = (0, 0);
    for (at, c) in text.char_indices() {
        if c == open {
            depth += 1;
            if depth == 1 {
                start = at + c.len_utf8();
            }
        } else if c == close && depth > 0 {
            depth -= 1;
            if depth == 0 {
                return (&text[start..at], &text[at + c.len_utf8()..]);
            }
        }
    }
    ("", "")
}

/// The parts between commas that stand in no bracket.
fn split(text: &str) -> Vec<&str> {
    let (mut found, mut depth, mut start) = (Vec::new(), 0, 0);
    for (at, c) in text.char_indices() {
        match c {
            '(' | '[' | '<' => depth += 1,
            ')' | ']' | '>' => depth -= 1,
            ',' if depth == 0 => {
                found.push(text[start..at].trim());
                start = at + 1;
            }
            _ => (),
        }
    }
    found.push(text[start..].trim());
    found.retain(|part| !part.is_empty());
    found
}

/// `name: type`, or `self` in one of its forms.
fn parameter(text: &str) -> Parameter {
    let before = text.split(':').next().unwrap_or("");
    let name = before.split_whitespace().last().unwrap_or("").trim_start_matches('&').to_string();
    Parameter { name, lent: text.split('&').skip(1).any(is_mut) }
}

/// What stands behind a `&`, and perhaps a lifetime, begins with `mut`.
fn is_mut(text: &str) -> bool {
    let text = if text.starts_with('\'') { text.split_once(' ').map_or("", |(_, rest)| rest) } else { text };
    text.starts_with("mut ")
}

#[cfg(test)]
mod tests {
    use super::*;

    const TEXT: &str = r#"// pub fn told(x: u8) -> u8
pub struct Pair {
    pub first: u8,
}

pub const MOST: usize = 7;

fn own(x: u8) -> u8 {
    x
}

impl<'a> Reader<'a> {
    // The next one.
    pub fn next(self, at: usize) -> Next<'a>
        requires { at ≤ length self.now }
        ensures { result ≡ record_at self.now at }
    {
        Next { at }
    }

    pub fn put(&mut self, b: u8) {}
}

#[unsafe(no_mangle)]
pub extern "C" fn write(
    image: &[u8],
    mut n: u64,
    ram: &mut [u8; 8192],
    size: &'a mut u64,
) -> [u8; 2]
    ensures value { result ≡ pair_of (record { first = n }) }
    requires small { n < 7 }
    ensures ram_after { ram.new
        ≡ after ram.old }
{
    [0; 2]
}

pub(crate) fn inside() -> u8 {
    7
}
"#;

    const TRAIT: &str = r#"pub trait Field {
    ghost width: { ℕ };

    fn read(bytes: &[u8], at: usize) -> Self
        requires { at + width ≤ length bytes.now }
        ensures { value result ≡ field_at width bytes.now at };

    fn pair(self) -> [u8; 2];

    fn first(bytes: &[u8]) -> Self {
        Self::read(bytes, 0)
    }
}

impl Field for u16 {
    ghost width = { 2 };

    fn read(bytes: &[u8], at: usize) -> u16 {
        own(bytes, at)
    }

    fn pair(self) -> [u8; 2]
        ensures { result ≡ pair_of self }
    {
        [0; 2]
    }
}

fn own(bytes: &[u8], at: usize) -> u16 {
    7
}
"#;

    fn names(function: &Function) -> Vec<&str> {
        function.asked().into_iter().map(|what| function.name_of(what)).collect()
    }

    #[test]
    fn public_functions_and_methods_are_found() {
        let paths: Vec<String> = functions(TEXT).iter().map(|function| function.path.join("::")).collect();
        assert_eq!(paths, ["Reader::next", "Reader::put", "write"]);
    }

    #[test]
    fn the_methods_of_a_traits_impls_are_public() {
        let found = functions(TRAIT);
        let paths: Vec<String> = found.iter().map(|function| function.path.join("::")).collect();
        assert_eq!(paths, ["Field::first", "U16Field::read", "U16Field::pair"]);
        assert_eq!(names(&found[1]), ["answer"]);
        assert!(found[1].clauses.is_empty());
        assert_eq!(found[2].clauses, ["result ≡ pair_of self"]);
    }

    #[test]
    fn an_answer_and_what_is_lent_are_asked() {
        let found = functions(TEXT);
        assert_eq!(names(&found[0]), ["answer"]);
        assert_eq!(names(&found[1]), ["self"]);
        assert_eq!(names(&found[2]), ["answer", "ram", "size"]);
        assert_eq!(found[2].asked(), [What::Answer, What::Left(2), What::Left(3)]);
    }

    #[test]
    fn clauses_are_what_is_ensured() {
        let found = functions(TEXT);
        assert_eq!(found[0].clauses, ["result ≡ record_at self.now at"]);
        assert!(found[1].clauses.is_empty());
        assert_eq!(found[2].clauses, ["result ≡ pair_of (record { first = n })", "ram.new ≡ after ram.old"]);
    }

    #[test]
    fn a_contract_is_what_stands_before_the_body() {
        let found = functions(TEXT);
        assert_eq!(found[1].contract, "(&mut self, b: u8)");
        assert_eq!(
            found[2].contract,
            "(image: &[u8], mut n: u64, ram: &mut [u8; 8192], size: &'a mut u64) -> [u8; 2] \
             ensures value { result ≡ pair_of (record { first = n }) } requires small { n < 7 } ensures ram_after { ram.new ≡ after ram.old }"
        );
    }

    #[test]
    fn a_name_is_brought_in_from_a_place() {
        let text = "ghost use Rattle.bus.specs.Bus.{read_of, write_of as put};\nuse bus::ReadAnswer;\nghost use Rattle.mount.specs.Mount as mounting;\n";
        let pairs = [("read_of", "Rattle.bus.specs.Bus.read_of"), ("put", "Rattle.bus.specs.Bus.write_of"), ("mounting", "Rattle.mount.specs.Mount")];
        assert_eq!(ghost_uses(text), pairs.map(|(name, whole)| (name.to_string(), whole.to_string())));
    }

    #[test]
    fn parameters_have_their_names() {
        let found = functions(TEXT);
        let named: Vec<&str> = found[2].parameters.iter().map(|parameter| parameter.name.as_str()).collect();
        assert_eq!(named, ["image", "n", "ram", "size"]);
        assert_eq!(parameter("f: Pair<u8, &[u8]>"), Parameter { name: "f".to_string(), lent: false });
        assert_eq!(split("a: Pair<u8, u8>, b: [u8; 2],"), ["a: Pair<u8, u8>", "b: [u8; 2]"]);
    }
}
