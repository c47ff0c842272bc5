//! The names that docs/PROMISES.md may cite: what is declared in specs/ and proofs/, the functions of src/, and the wrong programs.

use std::collections::BTreeSet;
use std::fs;
use std::io;
use std::path::{Path, PathBuf};

#[derive(Default)]
pub struct Known {
    /// Names that are declared in a file of specs/, with that file's name before them: `Image.byte_at`; and without it.
    pub definitions: BTreeSet<String>,
    /// Names that are declared in proofs/.
    pub theorems: BTreeSet<String>,
    pub functions: BTreeSet<String>,
    pub wrong: BTreeSet<String>,
    pub crates: BTreeSet<String>,
}

impl Known {
    pub fn read() -> io::Result<Known> {
        let mut known = Known::default();
        for of in entries(Path::new("crates"))? {
            known.crates.insert(stem(&of));
            for file in given(&of.join("specs"))? {
                let names = declared(&fs::read_to_string(&file)?);
                known.definitions.insert(stem(&file));
                known.definitions.extend(names.iter().map(|name| format!("{}.{name}", stem(&file))));
                known.definitions.extend(names);
            }
            for file in given(&of.join("proofs"))? {
                known.theorems.insert(stem(&file));
                known.theorems.extend(declared(&fs::read_to_string(&file)?));
            }
            for file in entries(&of.join("src"))? {
                known.functions.extend(functions(&fs::read_to_string(&file)?));
            }
            for folder in ["wrong", "must-fail"] {
                known.wrong.extend(entries(&of.join(folder))?.iter().map(|file| stem(file)));
            }
        }
        Ok(known)
    }
}

/// The files of a folder that the prover is given: those that its Lib.antt names.
fn given(folder: &Path) -> io::Result<Vec<PathBuf>> {
    let lib = folder.join("Lib.antt");
    if !lib.is_file() {
        return Ok(Vec::new());
    }
    let named =
        |line: &str| line.trim().trim_start_matches("pub ").strip_prefix("mod ").map(|name| folder.join(format!("{name}.antt")));
    Ok(fs::read_to_string(lib)?.lines().filter_map(named).filter(|file| file.is_file()).collect())
}

fn entries(folder: &Path) -> io::Result<Vec<PathBuf>> {
    if !folder.is_dir() {
        return Ok(Vec::new());
    }
    fs::read_dir(folder)?.map(|entry| entry.map(|entry| entry.path())).collect()
}

fn stem(path: &Path) -> String {
    path.file_stem().map_or(String::new(), |stem| stem.to_string_lossy().into_owned())
}

/// The names that a file of antt declares: those before a colon, of records their fields, of data their variants.
fn declared(text: &str) -> BTreeSet<String> {
    let mut names = BTreeSet::new();
    for line in text.lines() {
        let words: Vec<&str> = line.split_whitespace().take_while(|word| *word != ":").collect();
        let is_declaration = words.len() < line.split_whitespace().count();
        let words = words.iter().filter(|word| !["pub", "abbrev", "unfoldable", "data", "record"].contains(word));
        if is_declaration {
            names.extend(words.take(1).map(|word| word.to_string()));
        }
    }
    names
}

/// The names behind `fn`.
fn functions(text: &str) -> BTreeSet<String> {
    let after = |line: &str| {
        line.split_once("fn ")
            .map(|(_, rest)| rest.split(|c: char| !c.is_alphanumeric() && c != '_').next().unwrap_or("").to_string())
    };
    text.lines().filter_map(after).collect()
}

#[cfg(test)]
mod tests {
    use super::*;

    #[test]
    fn names_stand_before_a_colon() {
        let text = "abbrev pub byte_at : List ℕ → ℕ\nbyte_at s i = s\npub record Power (q : ℕ) : Type 0 where\n  pub log : ℕ\npub data Held : Type 0 where\n";
        let names: Vec<String> = declared(text).into_iter().collect();
        assert_eq!(names, ["Held", "Power", "byte_at", "log"]);
    }

    #[test]
    fn functions_stand_behind_fn() {
        let names: Vec<String> =
            functions("pub fn read(s: &[u8]) -> u8\n    pub extern \"C\" fn imf_read(\n// no function\n").into_iter().collect();
        assert_eq!(names, ["imf_read", "read"]);
    }
}
