//! usage: cited-rules check     at the repository's root
//!
//! check    fails where a rule is cited that docs/RULES.md does not have, where words in quotation marks behind a citation (`Bus 4: "a bank"`) are not
//!          that rule's, where a definition's comment quotes words and no rule, where a rule has no row in docs/PROMISES.md, and where a row there names
//!          a definition, a theorem or a wrong program that is not in the repository. The last line is 'N passed, M failed'.

mod citations;
mod known;
mod promises;
mod rules;
mod texts;

use known::Known;
use promises::Row;
use rules::Rules;
use std::fs;
use std::io;
use std::process::exit;
use texts::Text;

const RULES: &str = "docs/RULES.md";
const PROMISES: &str = "docs/PROMISES.md";

fn main() {
    let words: Vec<String> = std::env::args().skip(1).collect();
    if words != ["check"] {
        eprintln!("usage: rules check");
        exit(2);
    }
    match check() {
        Ok(is_good) => exit(if is_good { 0 } else { 1 }),
        Err(why) => {
            eprintln!("rules: {why}");
            exit(1);
        }
    }
}

/// Says what is wrong, and the counts: a rule with its row, and a citation, count as one each.
fn check() -> io::Result<bool> {
    let rules = Rules::read(&fs::read_to_string(RULES)?);
    let rows = promises::rows(&fs::read_to_string(PROMISES)?, &rules);
    let mut wrong = Vec::new();

    let (mut cited, mut faulty) = (0, 0);
    for text in texts::all()? {
        let found = citations::found(&text.words, &rules);
        cited += found.len();
        let faults: Vec<String> = found.iter().filter_map(|citation| citation.fault(&rules)).collect();
        faulty += faults.len();
        wrong.extend(faults.iter().map(|fault| format!("{}: {fault}", text.file)));
        wrong.extend(bare_quotes(&text, &rules));
    }
    wrong.extend(
        rules
            .names()
            .filter(|name| !rows.iter().any(|row| row.rule == **name))
            .map(|name| format!("{PROMISES}: {name} has no row")),
    );
    wrong.extend(row_faults(&rows, &rules, &Known::read()?));

    println!("{} rules; {cited} citations of them; {} rows in {PROMISES}", rules.names().count(), rows.len());
    for fault in &wrong {
        println!("{fault}");
    }
    println!("{} passed, {} failed", rules.names().count() + cited - faulty, wrong.len());
    Ok(wrong.is_empty())
}

/// In a definition's comment quotation marks are for a rule's words.
fn bare_quotes(text: &Text, rules: &Rules) -> Vec<String> {
    if !text.is_definition {
        return Vec::new();
    }
    citations::bare(&text.words, rules)
        .into_iter()
        .map(|words| format!("{}: \"{words}\" is quoted of no rule", text.file))
        .collect()
}

fn row_faults(rows: &[Row], rules: &Rules, known: &Known) -> Vec<String> {
    let misquoted =
        rows.iter().flat_map(|row| row.gap().into_iter().chain(row.misquoted(rules))).map(|fault| format!("{PROMISES}: {fault}"));
    let told = |row: &Row, name: String| format!("{PROMISES}, {}: there is no {name}", row.rule);
    let unknown = rows.iter().flat_map(|row| row.unknown(known).into_iter().map(move |name| told(row, name)));
    misquoted.chain(unknown).collect()
}
