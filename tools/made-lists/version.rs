//! The version: one line in VERSION, and the newest entry of CHANGELOG.md.

pub const FILE: &str = "VERSION";
pub const CHANGES: &str = "CHANGELOG.md";

/// The heading of what is in no version yet.
const UNRELEASED: &str = "## Unreleased";

#[derive(Debug, PartialEq)]
pub struct Version {
    pub numbers: [u32; 3],
}

impl Version {
    pub fn text(&self) -> String {
        self.numbers.map(|number| number.to_string()).join(".")
    }
}

pub fn read(text: &str) -> Result<Version, String> {
    let numbers: Result<Vec<u32>, _> = text.trim_end().split('.').map(str::parse).collect();
    let version = numbers.ok().and_then(|numbers| numbers.try_into().ok()).map(|numbers| Version { numbers });
    let is_line = |version: &Version| version.text() + "\n" == text;
    version.filter(is_line).ok_or_else(|| format!("{FILE} is not one line with three numbers, as 0.2.0"))
}

/// Whether the first entry of a version, `## 0.2.0 - 2026-11-16`, is of this one.
pub fn is_newest(version: &Version, changes: &str) -> Result<(), String> {
    let newest = changes.lines().find(|line| line.starts_with("## ") && *line != UNRELEASED).unwrap_or("none");
    if newest.starts_with(&format!("## {} - ", version.text())) {
        return Ok(());
    }
    Err(format!(
        "{CHANGES}: the newest entry is '{newest}', and {FILE} says {}: give it an entry '## {0} - DATE'",
        version.text()
    ))
}

#[cfg(test)]
mod tests {
    use super::*;

    #[test]
    fn a_version_is_three_numbers_on_one_line() {
        assert_eq!(read("0.12.3\n").unwrap().text(), "0.12.3");
        for text in ["", "0.2\n", "0.2.0", "0.2.0\n\n", "0.2.0\n0.3.0\n", "0.2.x\n", "0.02.0\n"] {
            assert!(read(text).is_err(), "{text}");
        }
    }

    #[test]
    fn the_newest_entry_is_the_first_that_has_a_version() {
        let version = read("0.2.0\n").unwrap();
        let changes = "# Changes\n\n## Unreleased\n\n## 0.2.0 - 2026-11-16\n\n## 0.1.0 - 2026-11-15\n";
        assert_eq!(is_newest(&version, changes), Ok(()));
        assert!(is_newest(&version, &changes.replace("0.2.0", "0.3.0"))
            .unwrap_err()
            .contains("'## 0.3.0 - 2026-11-16', and VERSION says 0.2.0"));
        assert!(is_newest(&version, "# Changes\n").is_err());
    }
}
