//! The functions that promise nothing, as docs/DECISIONS.md lists them: under one heading, in a table whose rows are
//! `| crate | functions | why |`, crate and functions in backticks.

pub const HEADING: &str = "## What promises nothing";

#[derive(Debug, PartialEq)]
pub struct Exception {
    /// As `crate::function`.
    pub function: String,
    pub reason: String,
}

pub fn read(text: &str) -> Vec<Exception> {
    let section = text.lines().skip_while(|line| *line != HEADING).skip(1).take_while(|line| !line.starts_with("## "));
    section.flat_map(row).collect()
}

fn row(line: &str) -> Vec<Exception> {
    let cells: Vec<&str> = line.split('|').collect();
    let crates = cells.get(1).map_or(Vec::new(), |cell| quoted(cell));
    let (of, functions) = match (crates.first(), cells.get(2)) {
        (Some(of), Some(cell)) => (of, quoted(cell)),
        _ => return Vec::new(),
    };
    let reason = cells.get(3).map_or("", |cell| cell.trim());
    functions.iter().map(|name| Exception { function: format!("{of}::{name}"), reason: reason.to_string() }).collect()
}

/// The words in backticks.
fn quoted(cell: &str) -> Vec<&str> {
    cell.split('`').skip(1).step_by(2).collect()
}

#[cfg(test)]
mod tests {
    use super::*;

    fn exception(function: &str, reason: &str) -> Exception {
        Exception { function: function.to_string(), reason: reason.to_string() }
    }

    #[test]
    fn a_row_names_a_crate_its_functions_and_a_reason() {
        let text = "# Decisions\n\n## Other\n\n| `bus` | `read` | no |\n\n## What promises nothing\n\nWords on `this`.\n\n| Crate | Functions | Why |\n\
                    |---|---|---|\n| `slow` | `ticks`, `build::put` | a `ticker` |\n| `bare` | `show` | |\n\n## Next\n\n| `bus` | `write` | no |\n";
        let expected = [exception("slow::ticks", "a `ticker`"), exception("slow::build::put", "a `ticker`"), exception("bare::show", "")];
        assert_eq!(read(text), expected);
    }

    #[test]
    fn without_the_heading_nothing_is_excepted() {
        assert!(read("## What promises\n\n| `bus` | `read` | why |\n").is_empty());
    }
}
