//! What is read of the repository.

use crate::crates::Crates;
use crate::source::{self, Function, What};
use crate::statements::{self, Stated};
use std::collections::BTreeSet;
use std::fs;
use std::io;
use std::path::{Path, PathBuf};

/// The crate of the statements, and the one of its modules that is written by this program.
pub const OWN: &str = "determined";
pub const WRITTEN: &str = "Contracts";

/// A public function of a crate.
#[derive(Debug)]
pub struct Public {
    pub of: String,
    pub function: Function,
}

impl Public {
    /// The module that tells of its contract.
    pub fn module(&self) -> String {
        format!("Rattle.{}.proofs.{}", self.of, self.function.path.join("."))
    }

    /// As a caller names it.
    pub fn name(&self) -> String {
        format!("{}::{}", self.of, self.function.path.join("::"))
    }

    /// All that must be stated of it.
    pub fn asked(&self) -> Vec<Stated> {
        self.function.asked().into_iter().map(|what| (self.module(), what)).collect()
    }

    pub fn name_of(&self, what: What) -> &str {
        self.function.name_of(what)
    }
}

pub struct Repository {
    pub crates: Crates,
    /// The static libraries: on one of them no crate can stand, so that no statement can speak of its functions.
    pub statics: BTreeSet<String>,
}

impl Repository {
    pub fn read() -> io::Result<Repository> {
        let crates = Crates::read(&fs::read_to_string("crates.txt")?);
        let is_static = |name: &String| crates.listed(&BTreeSet::from([name.clone()])).starts_with(&format!("{name} staticlib:"));
        let statics = crates.names().into_iter().filter(is_static).collect();
        Ok(Repository { crates, statics })
    }

    /// What the clauses of a crate bring in by name, and from where.
    pub fn ghost_uses(&self, of: &str) -> io::Result<BTreeSet<(String, String)>> {
        let mut found = BTreeSet::new();
        for file in files(&Path::new("crates").join(of).join("src"), "rt")? {
            found.extend(source::ghost_uses(&fs::read_to_string(&file)?));
        }
        Ok(found)
    }

    /// The public functions of these crates. What is the kit's has no folder here.
    pub fn publics(&self, names: &[String]) -> io::Result<Vec<Public>> {
        let mut found = Vec::new();
        for of in names {
            for file in files(&Path::new("crates").join(of).join("src"), "rt")? {
                let inside = file.file_stem().and_then(|stem| stem.to_str()).filter(|stem| !["lib", "main"].contains(stem));
                for mut function in source::functions(&fs::read_to_string(&file)?) {
                    function.path.splice(0..0, inside.map(str::to_string));
                    found.push(Public { of: of.clone(), function });
                }
            }
        }
        Ok(found)
    }

    /// The crates that the statements can speak of, in the order of their line.
    pub fn named_by_own(&self) -> Vec<String> {
        self.crates.named_by(OWN).map(str::to_string).collect()
    }

    /// The statements of the modules that the prover is given, the written one or the others.
    pub fn stated(&self, is_written: bool) -> io::Result<BTreeSet<Stated>> {
        let mut found = BTreeSet::new();
        for line in fs::read_to_string(module("Lib"))?.lines() {
            if let Some(name) = line.strip_prefix("pub mod ").filter(|name| (*name == WRITTEN) == is_written) {
                found.extend(statements::stated(&fs::read_to_string(module(name))?));
            }
        }
        Ok(found)
    }
}

/// The file of one of the statements' modules.
pub fn module(name: &str) -> PathBuf {
    PathBuf::from(format!("crates/{OWN}/proofs/{name}.antt"))
}

/// The files of a folder with such an ending, by name.
fn files(folder: &Path, ending: &str) -> io::Result<Vec<PathBuf>> {
    if !folder.is_dir() {
        return Ok(Vec::new());
    }
    let mut found = fs::read_dir(folder)?.map(|entry| entry.map(|entry| entry.path())).collect::<io::Result<Vec<_>>>()?;
    found.retain(|path| path.extension().map_or(false, |known| known == ending));
    found.sort();
    Ok(found)
}
