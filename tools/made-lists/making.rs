//! What is made of the list and of the version, file by file.

use crate::list::{Refusal, FILE};
use crate::parts::{Around, Part};
use crate::version;

const HEADER: &str = "include/imfelkuz.h";
const RUST: &str = "player/rust/src/refusal.rs";
const CARGO: &str = "player/rust/Cargo.toml";
const LAYERS: &str = "docs/ARCHITECTURE.md";
const RULES: &str = "docs/RULES.md";

/// Columns of the C header, and of the crate by player/rustfmt.toml.
const HEADER_WIDTH: usize = 139;
const RUST_WIDTH: usize = 130;

/// What stands around the parts that are code.
const NOTHING: Around = [&[], &[]];
const IN_C_ENUM: Around = [&["enum imf_number {"], &["};"]];
const IN_C_SWITCH: Around = [
    &["    switch (answer > IMF_REFUSED ? answer - IMF_REFUSED : answer) {", "    case 0: return \"no refusal\";"],
    &["    default: return \"no number of a refusal\";", "    }"],
];
const IN_RUST_ENUM: Around = [&["pub enum Refusal {"], &["}"]];
const IN_RUST_NUMBERS: Around = [&["        Some(match number {"], &["            _ => return None,", "        })"]];
const IN_RUST_WORDS: Around = [&["        match self {"], &["        }"]];

pub fn parts(all: &[Refusal], version: &version::Version) -> Vec<Part> {
    let made = |file, name, around, lines| Part { file, source: FILE, name, lines, around };
    let versioned = |file, lines| Part { file, source: version::FILE, name: "", lines, around: NOTHING };
    vec![
        made(HEADER, "table", NOTHING, header_table(all)),
        made(HEADER, "enum", IN_C_ENUM, each(all, |r| format!("    {} = {},", r.c_name(), r.number))),
        made(HEADER, "words", IN_C_SWITCH, each(all, |r| format!("    case {}: return \"{}\";", r.c_name(), r.words))),
        made(RUST, "variants", IN_RUST_ENUM, all.iter().flat_map(rust_variant).collect()),
        made(RUST, "numbers", IN_RUST_NUMBERS, each(all, |r| format!("            {} => {},", r.number, r.name))),
        made(RUST, "words", IN_RUST_WORDS, each(all, |r| format!("            {} => \"{}\",", r.name, r.words))),
        made(LAYERS, "", NOTHING, markdown("| Number | Name | Given exactly when | In Rattle |", all, layers_row)),
        made(RULES, "", NOTHING, markdown("| Rule | Name | Given exactly when |", all, rules_row)),
        versioned(HEADER, version_defines(version)),
        versioned(CARGO, vec![format!("version = \"{}\"", version.text())]),
    ]
}

fn each(all: &[Refusal], line: impl Fn(&Refusal) -> String) -> Vec<String> {
    all.iter().map(line).collect()
}

fn header_table(all: &[Refusal]) -> Vec<String> {
    let names = all.iter().map(|refusal| refusal.c_name().len()).max().unwrap_or(0) + 2;
    let row = |number: &str, name: &str, given: &str| {
        let start = format!(" *   {number:>3}  {name:names$}");
        wrapped(&start, &format!(" *{:1$}", "", start.len() - 2), given, HEADER_WIDTH)
    };
    let rows = all.iter().flat_map(|refusal| row(&refusal.number.to_string(), &refusal.c_name(), &refusal.given()));
    row("No", "Name", "Given exactly when").into_iter().chain(rows).collect()
}

fn rust_variant(refusal: &Refusal) -> Vec<String> {
    let given = refusal.given();
    let (first, rest) = given.split_at(1);
    let sentence = format!("{}{rest}.", first.to_ascii_uppercase());
    let mut lines = wrapped("    /// ", "    /// ", &sentence, RUST_WIDTH);
    lines.push(format!("    {} = {},", refusal.name, refusal.number));
    lines
}

fn markdown(head: &str, all: &[Refusal], row: impl Fn(&Refusal) -> String) -> Vec<String> {
    let rule = "|---".repeat(head.matches('|').count() - 1) + "|";
    [head.to_string(), rule].into_iter().chain(all.iter().map(row)).collect()
}

fn layers_row(refusal: &Refusal) -> String {
    let from: Vec<String> = refusal.from.iter().map(|variant| format!("`{}`", variant.text)).collect();
    format!("| {} | {} | {} | {} |", refusal.number, refusal.name, refusal.given(), from.join(", "))
}

fn rules_row(refusal: &Refusal) -> String {
    format!("| Numbers {} | {} | {} |", refusal.number, refusal.name, refusal.given())
}

fn version_defines(version: &version::Version) -> Vec<String> {
    let [major, minor, patch] = version.numbers;
    vec![
        format!("#define IMF_VERSION \"{}\"", version.text()),
        format!("#define IMF_VERSION_MAJOR {major}"),
        format!("#define IMF_VERSION_MINOR {minor}"),
        format!("#define IMF_VERSION_PATCH {patch}"),
    ]
}

/// Words behind a start, and behind another start on each further line.
fn wrapped(start: &str, next: &str, text: &str, width: usize) -> Vec<String> {
    let (mut lines, mut line, mut has_words) = (Vec::new(), start.to_string(), false);
    for word in text.split(' ') {
        if has_words && line.len() + 1 + word.len() > width {
            lines.push(std::mem::replace(&mut line, next.to_string()));
            has_words = false;
        }
        if has_words {
            line.push(' ');
        }
        line.push_str(word);
        has_words = true;
    }
    lines.push(line);
    lines
}

#[cfg(test)]
mod tests {
    use super::*;
    use crate::list;

    const TEXT: &str = "3 TooLong\n  words it is long\n  when it is longer\n  from header::HeaderRefusal::TooLong\n\
                        12 Bad\n  words it is bad\n  when the second is bad\n  note a note\n  from a::Refusal::Bad(place)\n  from b::Refusal::Bad\n";

    fn made(file: &str, name: &str) -> String {
        let version = version::read("0.2.0\n").unwrap();
        let all = parts(&list::read(TEXT).unwrap(), &version);
        let found: Vec<&Part> = all.iter().filter(|part| part.file == file && part.name == name).collect();
        found[0].lines.join("\n")
    }

    #[test]
    fn the_header_has_a_table_an_enum_and_words() {
        let table = " *    No  Name          Given exactly when\n *     3  IMF_TOO_LONG  it is longer\n\
                     \x20*    12  IMF_BAD       the second is bad (a note)";
        assert_eq!(made(HEADER, "table"), table);
        assert_eq!(made(HEADER, "enum"), "    IMF_TOO_LONG = 3,\n    IMF_BAD = 12,");
        let words = "    case IMF_TOO_LONG: return \"it is long\";\n    case IMF_BAD: return \"it is bad\";";
        assert_eq!(made(HEADER, "words"), words);
        assert!(made(HEADER, "").starts_with("#define IMF_VERSION \"0.2.0\"\n#define IMF_VERSION_MAJOR 0\n"));
    }

    #[test]
    fn the_crate_has_variants_numbers_and_words() {
        assert_eq!(
            made(RUST, "variants"),
            "    /// It is longer.\n    TooLong = 3,\n    /// The second is bad (a note).\n    Bad = 12,"
        );
        assert_eq!(made(RUST, "numbers"), "            3 => TooLong,\n            12 => Bad,");
        assert_eq!(made(RUST, "words"), "            TooLong => \"it is long\",\n            Bad => \"it is bad\",");
        assert_eq!(made(CARGO, ""), "version = \"0.2.0\"");
    }

    #[test]
    fn an_enum_holds_nothing_else() {
        let all = parts(&list::read(TEXT).unwrap(), &version::read("0.2.0\n").unwrap());
        for (file, name, close, other) in
            [(HEADER, "enum", "};", "    IMF_OTHER = 99,"), (RUST, "variants", "}", "    Other = 99,")]
        {
            let part = all.iter().find(|part| part.file == file && part.name == name).unwrap();
            let mark = |word: &str| format!("    // made from {FILE} by make lists: {word} {name}\n");
            let text = |more: &str| part.around[0].join("\n") + "\n" + &mark("begin") + &mark("end") + more + close + "\n";
            let good = part.put(&text("")).unwrap();
            assert_eq!(part.first_other(&good), Ok(None));
            let more = mark("end") + other + "\n";
            assert!(part
                .first_other(&good.replace(&mark("end"), &more))
                .unwrap_err()
                .starts_with(&format!("{file}: directly behind '")));
        }
    }

    #[test]
    fn the_documents_have_rows() {
        let layers = "| 12 | Bad | the second is bad (a note) | `a::Refusal::Bad(place)`, `b::Refusal::Bad` |";
        assert_eq!(made(LAYERS, "").lines().nth(1), Some("|---|---|---|---|"));
        assert_eq!(made(LAYERS, "").lines().last(), Some(layers));
        assert_eq!(made(RULES, "").lines().nth(2), Some("| Numbers 3 | TooLong | it is longer |"));
    }

    #[test]
    fn long_words_go_on_below() {
        assert_eq!(wrapped("- ", "  ", "one two three", 9), ["- one two", "  three"]);
        assert_eq!(wrapped("- ", "  ", "overlong two", 4), ["- overlong", "  two"]);
    }
}
